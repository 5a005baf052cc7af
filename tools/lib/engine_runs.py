"""Many games by one engine, in a Python that has it: for tools/gate/try-engines.

    engine_runs.py ENGINE

Prints the rows, a line each, and at last what ended them. In the middle a worker of the engine is killed.
"""
from __future__ import annotations

import multiprocessing
import os
import signal
import subprocess
import sys
import tempfile
import time
from collections.abc import Callable, Iterator
from concurrent.futures import ProcessPoolExecutor
from importlib import import_module
from typing import Any

TOP = os.path.realpath(os.path.join(os.path.dirname(os.path.abspath(__file__)), "..", ".."))
sys.path.insert(0, os.path.join(TOP, "python"))
os.environ["PYTHONPATH"] = os.path.join(TOP, "python")
import coop

COUNT, BATCH = 120, 5
SLOW = 0.02  # seconds between two games, so that the killed worker has some


def games(kill: Callable[[], None]) -> Iterator[coop.Game]:
    """Games whose answers differ; in the middle a worker is killed."""
    for number in range(COUNT):
        if number == COUNT // 2:
            kill()
        time.sleep(SLOW)
        yield coop.airport([1, 2, 3 + number])


def rows(executor: Any, kill: Callable[[], None]) -> None:
    """Prints what many says by an executor."""
    limits: Any = {"executor": executor, "batch": BATCH, "seconds": 120} if executor else {}
    found = coop.many(("nucleolus", "shapley"), games(kill), **limits)
    try:
        for plain, shapley in found:
            print(*(",".join(map(str, one.shares.values())) for one in (plain, shapley)), flush=True)
        print("all", flush=True)
    except coop.Lost as fault:
        print(f"lost: {fault}", flush=True)


def here() -> None:
    """Without an engine, as it has to be."""
    rows(None, lambda: None)


def pool() -> None:
    """By a process pool, which is broken with its process."""
    with ProcessPoolExecutor(2, multiprocessing.get_context("spawn")) as executor:
        rows(executor, lambda: os.kill(next(iter(executor._processes)), signal.SIGKILL))


def dask() -> None:
    """By a local cluster of dask, whose nanny begins a killed worker again."""
    distributed: Any = import_module("distributed")
    cluster = distributed.LocalCluster(n_workers=2, threads_per_worker=1, dashboard_address=None)
    with cluster, distributed.Client(cluster) as client:
        numbers = list(client.run(os.getpid).values())
        rows(client.get_executor(pure=False), lambda: os.kill(numbers[0], signal.SIGKILL))


def dask_by_tcp() -> None:
    """By two workers of dask that were begun by hand; one is killed, and nobody begins it again."""
    distributed: Any = import_module("distributed")
    module = [sys.executable, "-m", "distributed.cli.dask_scheduler", "--host", "127.0.0.1", "--port", "0"]
    file = os.path.join(tempfile.gettempdir(), f"coop-scheduler-{os.getpid()}.json")
    begun = [subprocess.Popen([*module, "--no-dashboard", "--scheduler-file", file], stderr=subprocess.DEVNULL)]
    words = [sys.executable, "-m", "distributed.cli.dask_worker", "--no-nanny", "--no-dashboard", "--nthreads", "1"]
    try:
        while not os.path.exists(file):
            time.sleep(0.2)
        begun += [subprocess.Popen([*words, "--scheduler-file", file], stderr=subprocess.DEVNULL) for _ in range(2)]
        with distributed.Client(scheduler_file=file) as client:
            client.wait_for_workers(2)
            rows(client.get_executor(pure=False), begun[1].kill)
    finally:
        for process in begun:
            process.kill()
            process.wait()
        os.remove(file)


def mpi() -> None:
    """By workers of MPI: mpirun ends all with the one that is killed."""
    from mpi4py.futures import MPIPoolExecutor

    with MPIPoolExecutor() as executor:
        rows(executor, lambda: None)


def mpi_killed() -> None:
    """The same, with a worker that is killed."""
    from mpi4py.futures import MPIPoolExecutor

    with MPIPoolExecutor() as executor:
        number = executor.submit(os.getpid).result()
        rows(executor, lambda: os.kill(number, signal.SIGKILL))


RUNS: dict[str, Callable[[], None]] = {
    "here": here, "pool": pool, "dask": dask, "dask-by-tcp": dask_by_tcp, "mpi": mpi, "mpi-killed": mpi_killed,
}

if __name__ == "__main__":
    RUNS[sys.argv[1]]()
