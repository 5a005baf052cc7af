"""Processes that stay, and answer many documents each: runtime/serve.mjs, which says what goes to and fro.

A `Server` has as many processes as calls run at a time, up to a number, and begins each when it is first needed. A free
process that has ended is replaced, so its request goes to a new one. All end with this process. What is forked off
begins processes of its own, and so does a server that was pickled.
"""
from __future__ import annotations

import os
import struct
import subprocess
import threading
import weakref
from typing import IO, Any, Optional, Sequence

from .amounts import count_of
from .errors import Fault, NotFound
from .library import TOO_LATE
from .machine import processors, words_of
from .parts import serving

HEAD = struct.Struct("<II")
"""The two numbers that begin a request and an answer."""
STOPPED = 70
GRACE = 0.5  # seconds that a process has to end by itself
START = 60  # seconds that it has to begin, where calls have a limit


class Ended(Exception):
    """A process ended before it answered."""


class Worker:
    """One process, which has one request at a time."""

    def __init__(self, command: Sequence[str]):
        self.process = subprocess.Popen(list(command), stdin=subprocess.PIPE, stdout=subprocess.PIPE)
        assert self.process.stdin is not None and self.process.stdout is not None
        self.input: IO[bytes] = self.process.stdin
        self.output: IO[bytes] = self.process.stdout
        self.is_late = False

    def ask(self, request: Optional[bytes], seconds: Optional[float]) -> tuple[int, bytes]:
        """The status and the line; without a request, that it is there. A process that is late is ended."""
        if seconds is None:
            return self.asked(request)
        timer = threading.Timer(seconds, self.stop_late)
        timer.daemon = True
        timer.start()
        try:
            return self.asked(request)
        finally:
            timer.cancel()
            timer.join()  # so that it is settled whether it was late

    def asked(self, request: Optional[bytes]) -> tuple[int, bytes]:
        try:
            self.input.write(request or b"")
            self.input.flush()
        except (OSError, ValueError):
            raise Ended from None
        status, length = HEAD.unpack(self.read(HEAD.size))
        return status, self.read(length)

    def read(self, count: int) -> bytes:
        part = self.output.read(count)
        if len(part) < count:
            raise Ended
        return part

    def stop_late(self) -> None:
        self.is_late = True
        self.process.kill()

    def stop(self) -> int:
        """Ends the process, and gives its status."""
        for port in (self.input, self.output):
            try:
                port.close()
            except OSError:
                pass
        try:
            return self.process.wait(GRACE)
        except subprocess.TimeoutExpired:
            return self.kill()

    def kill(self) -> int:
        self.process.kill()
        return self.process.wait()


class Server:
    """A program that stays: `command` begins one process of it, and there are at most so many, one a processor unless
    their number is named. Without a command it is the package's own module under Node. A call that takes more than so
    many seconds is ended, with the status 124; the start of a process doesn't count."""

    def __init__(
        self,
        command: Optional[Sequence[str]] = None,
        processes: Optional[int] = None,
        seconds: Optional[float] = None,
    ):
        self.command = own_command() if command is None else words_of(command)
        if processes is not None:
            processes = count_of(processes, "processes")
        self.processes = processes or processors()
        self.seconds = seconds
        self.begin()
        if hasattr(os, "register_at_fork"):
            mine = weakref.ref(self)
            os.register_at_fork(after_in_child=lambda: begin_anew(mine))

    def begin(self) -> None:
        self.owner = os.getpid()
        self.free: list[Worker] = []
        self.places = threading.Semaphore(self.processes)
        weakref.finalize(self, stop_all, self.free, self.owner)

    def __reduce__(self) -> tuple[Any, ...]:
        return Server, (self.command, self.processes, self.seconds)

    def __repr__(self) -> str:
        return f"Server({self.command!r})"

    def run(
        self, words: Sequence[str], document: bytes, seconds: Optional[float] = None
    ) -> tuple[int, bytes]:
        """The status and the line of one request, which may have a limit of seconds of its own. Safe in threads."""
        if os.getpid() != self.owner:
            self.begin()  # this was forked off, and the processes are its parent's
        typed = b"\0".join(word.encode() for word in words)
        request = HEAD.pack(len(typed), len(document)) + typed + document
        with self.places:
            return self.answered(request, self.free.pop() if self.free else None, seconds or self.seconds)

    def answered(
        self, request: bytes, free: Optional[Worker], seconds: Optional[float], tries: int = 3
    ) -> tuple[int, bytes]:
        """The answer of a free process; or of a new one, if there is none, it has ended, or it was killed meanwhile."""
        worker = free or self.begun(seconds)
        try:
            status, line = worker.ask(request, seconds)
        except Ended:
            code = worker.stop()
            if worker.is_late:
                return TOO_LATE, b""
            if free or code < 0 and tries > 1:  # others that are free may have ended with it, as for want of memory
                return self.answered(request, None, seconds, tries if free else tries - 1)
            raise Fault(f"{' '.join(self.command)} ended with {code} before it answered", code) from None
        except BaseException:  # as Ctrl-C: its answer would be taken for that of the next request
            worker.kill()
            worker.stop()
            raise
        if worker.is_late:
            worker.stop()
        else:
            self.free.append(worker)
        if status == STOPPED:
            raise Fault(f"the module stopped: {line.decode('utf-8', 'replace')}", status)
        return status, line

    def begun(self, seconds: Optional[float], tries: int = 3) -> Worker:
        """A new process, which has said that it is there. One that is killed meanwhile is begun again."""
        limit = seconds and max(seconds, START)
        try:
            worker = Worker(self.command)
        except OSError as fault:
            raise Fault(f"{self.command[0]} doesn't run: {fault.strerror}", -1) from None
        try:
            worker.ask(None, limit)
        except Ended:
            code = worker.stop()
            if worker.is_late:
                raise Fault(f"{' '.join(self.command)} didn't begin in {limit} s", TOO_LATE) from None
            if code < 0 and tries > 1:
                return self.begun(seconds, tries - 1)
            raise Fault(f"{' '.join(self.command)} ended with {code} when it began", code) from None
        except BaseException:
            worker.kill()
            worker.stop()
            raise
        return worker

    def close(self) -> None:
        """Ends the processes that are free. A later call begins new ones."""
        stop_all(self.free, self.owner)


def own_command() -> list[str]:
    """The command of the package's own module under Node."""
    command = serving()
    if not command:
        raise NotFound("there is no Node on the path (18 or later, nodejs.org): install it, or give a command")
    return command


def begin_anew(server: weakref.ref[Server]) -> None:
    """What was forked off has no process yet; it is told before it has threads, which could take the parent's."""
    found = server()
    if found is not None:
        found.begin()


def stop_all(workers: list[Worker], owner: int) -> None:
    while workers and os.getpid() == owner:
        workers.pop().stop()
