"""Many games at a time, over all processors."""
from __future__ import annotations

import sys
import threading
import time
from collections import deque
from typing import TYPE_CHECKING, Any, Callable, Iterable, Iterator, Mapping, Optional, Sequence, TypeVar, Union

from .amounts import count_of, require_order
from .calls import COMMANDS, ON_A_GAME, Chosen, Outcome, answered, document_of, kept
from .errors import BadInput, Failure
from .game import Game
from .library import end_calls
from .machine import processors as usable
from .program import Program, find

if TYPE_CHECKING:
    from .far import Executor

Item = TypeVar("Item")
Result = TypeVar("Result")
AHEAD = 16  # items that wait for each processor


def many(
    commands: Union[str, Sequence[str]],
    games: Iterable[Game],
    *,
    processors: Optional[int] = None,
    progress: Optional[bool] = None,
    program: Chosen = None,
    executor: Optional[Executor] = None,
    batch: Optional[int] = None,
    seconds: Optional[float] = None,
    faults: str = "keep",
) -> Iterator[tuple[Outcome, ...]]:
    """For each game, in order, what each command answers: `for plain, shares in many(("nucleolus", "shapley"), games)`.

    A game that is refused ends nothing: its outcome is a `Failure`, which is false, and has the exception. With faults
    "raise" the first such exception is raised instead. Progress is told on standard error, if that is a terminal unless
    it is asked for or not. An unknown command is refused before the first game.

    With an `executor`, which is whatever has the `submit` of `concurrent.futures`, documents go there, `batch` games
    (32) at a time, and lines come back. Each of its processes finds the program by itself, unless one is named. Games
    that it loses are handed over again; after three times, or if they take more than so many seconds, `Lost` is raised.
    """
    words = words_of(commands)
    if faults not in ("keep", "raise"):
        raise BadInput(f"{faults!r} isn't a way to treat faults: use keep or raise")
    require_apt(games, executor, batch, seconds)
    batch = count_of(32 if batch is None else batch, "games for a batch")
    if processors is not None:
        processors = count_of(processors, "processors")
    if executor is not None:
        from .far import many_by

        rows = shown(many_by(executor, words, games, program, batch, seconds), games, progress)
    else:
        found = find(program)
        rows = spread(lambda game: row_of(words, game, found), games, processors, progress)
    return rows if faults == "keep" else without_faults(rows)


def require_apt(games: Any, executor: Any, *its_own: Any) -> None:
    """Refuses what is no list of games, what takes no calls, and numbers for an executor where there is none."""
    require_order(games)
    if isinstance(games, Mapping) or not isinstance(games, Iterable):
        way = "its .values()" if isinstance(games, Mapping) else "[game]"
        raise BadInput(f"a {type(games).__name__} isn't a list of games: give {way}")
    if executor is None and any(number is not None for number in its_own):
        told = "for a limit of each call give program=Server(.., seconds=..)"
        raise BadInput(f"`batch` and `seconds` are for an executor: {told}")
    if executor is not None and not hasattr(executor, "submit"):
        told = "give one that has, such as concurrent.futures.ProcessPoolExecutor()"
        raise BadInput(f"a {type(executor).__name__} has no `submit`: {told}")


def words_of(commands: Union[str, Sequence[str]]) -> tuple[str, ...]:
    """The commands, each of which answers to a game alone."""
    require_order(commands)
    words = (commands,) if isinstance(commands, str) or not isinstance(commands, Iterable) else tuple(commands)
    for word in words or [""]:
        if word not in ON_A_GAME:
            told = f"needs more than a game (map coop.{word} over threads)" if word in COMMANDS else "is no command"
            raise BadInput(f"{str(word)[:40]!r} {told}: many takes {', '.join(ON_A_GAME)}")
    return words


def without_faults(rows: Iterator[tuple[Outcome, ...]]) -> Iterator[tuple[Outcome, ...]]:
    """The same rows, up to the first that has a failure, whose exception is raised."""
    for row in rows:
        for one in row:
            if isinstance(one, Failure):
                raise one.fault
        yield row


def row_of(words: Sequence[str], game: Game, program: Program) -> tuple[Outcome, ...]:
    """What each command answers to a game, whose document is made once."""
    document = document_of(game)
    return tuple(kept(answered, word, document, game, program) for word in words)


def spread(
    work: Callable[[Item], Result],
    items: Iterable[Item],
    processors: Optional[int] = None,
    progress: Optional[bool] = None,
) -> Iterator[Result]:
    """The results of some work on items, in their order, by as many threads as there are processors: each waits for a
    process, or for the C library, and others go on meanwhile."""
    return shown(by_threads(work, items, processors or usable()), items, progress)


def by_threads(work: Callable[[Item], Result], items: Iterable[Item], count: int) -> Iterator[Result]:
    from concurrent.futures import Future, ThreadPoolExecutor

    waiting: deque[Future[Result]] = deque()
    threads: set[int] = set()
    with ThreadPoolExecutor(count, initializer=lambda: threads.add(threading.get_ident())) as pool:
        try:
            for item in items:
                waiting.append(pool.submit(work, item))
                while waiting and (len(waiting) >= AHEAD * count or waiting[0].done()):
                    yield waiting.popleft().result()
            while waiting:
                yield waiting.popleft().result()
        except BaseException:  # nobody waits for the others
            pool.shutdown(wait=False, cancel_futures=True)
            end_calls(threads)
            raise


def shown(results: Iterator[Result], items: Iterable[Any], progress: Optional[bool]) -> Iterator[Result]:
    """The same results, with a bar on standard error that counts those that were taken."""
    total = len(items) if isinstance(items, Sequence) else None
    is_shown = sys.stderr.isatty() if progress is None else progress
    done, begun, last = 0, time.monotonic(), 0.0
    for done, result in enumerate(results, 1):
        yield result
        now = time.monotonic()
        if is_shown and (now - last > 0.1 or done == total):
            last = now
            sys.stderr.write("\r" + bar(done, total, now - begun))
            sys.stderr.flush()
    if is_shown and done:
        sys.stderr.write("\n")


def bar(done: int, total: Optional[int], seconds: float) -> str:
    """A bar, where it is known how many there are; else how many are done."""
    if not total:
        return f"{done} games, {seconds:.0f} s"
    full = 30 * done // total
    left = seconds * (total - done) / done
    return f"[{'#' * full}{'.' * (30 - full)}] {done} of {total} games, {left:.0f} s left "
