"""Many games by the processes of an executor, here or on other machines.

What goes there is a function of this package, words and the bytes of documents; what comes back are statuses and the
bytes of lines, from which answers are made here. So each process needs this package, with its program, and no class of
the package is pickled except a program that was named. The project has no scheduler and no protocol between machines:
engines that exist have them.
"""
from __future__ import annotations

from collections import deque
from itertools import islice
from typing import Any, Iterable, Iterator, Optional, Protocol, Sequence, Union

from .calls import Chosen, Outcome, answer_from, kept
from .errors import CoopError, Lost, NoAnswer
from .game import Game
from .program import Program, find

Line = tuple[int, bytes]
Lines = list[list[Line]]
"""For each document, what each word says of it."""

AHEAD = 64
"""Batches that are handed over before the first is waited for."""
TRIES = 3
"""How often a batch is handed over, where the executor loses it."""


class Executor(Protocol):
    """What takes a function and its arguments, and gives a future: `concurrent.futures`, dask, mpi4py."""

    def submit(self, function: Any, /, *arguments: Any) -> Any:
        """The future of a call."""


def lines_of(
    first: int, words: Sequence[str], documents: Sequence[bytes], program: Union[None, str, Program]
) -> tuple[int, Lines]:
    """What each word says of each document, in a process of the executor, behind the number of the first."""
    found = find(program)
    return first, [[line_of(found, word, document) for word in words] for document in documents]


def line_of(program: Program, word: str, document: bytes) -> Line:
    """One line; or the status and the reason, where there is none."""
    try:
        return program.run([word], document)
    except NoAnswer as fault:
        return fault.status, str(fault).encode()


class Batch:
    def __init__(self, executor: Executor, first: int, words: tuple[str, ...], games: list[Game], program: Chosen):
        self.documents = [game.document() for game in games]
        self.executor, self.first, self.words, self.games = executor, first, words, games
        self.call = (lines_of, first, words, self.documents, program)
        self.future = self.submitted()

    def submitted(self) -> Any:
        try:
            return self.executor.submit(*self.call)
        except Exception as cause:  # what an executor says is its own
            raise self.lost("the executor takes no more") from cause

    def lost(self, why: str) -> Lost:
        return Lost(self.first + 1, self.first + len(self.games), why)

    def rows(self, seconds: Optional[float]) -> Iterator[tuple[Outcome, ...]]:
        for game, document, lines in zip(self.games, self.documents, self.lines(seconds)):
            yield tuple(kept(answer_from, word, *line, document, game) for word, line in zip(self.words, lines))

    def lines(self, seconds: Optional[float]) -> Lines:
        """All lines. A batch that was lost with its process is handed over again."""
        for left in range(TRIES - 1, -1, -1):
            try:
                first, lines = self.future.result(timeout=seconds)
            except CoopError:
                raise
            except Exception as cause:
                kinds = [kind.__name__ for kind in type(cause).__mro__]  # executors have classes of their own for that
                if seconds is not None and "TimeoutError" in kinds:
                    raise self.lost(f"the executor took more than {seconds} s") from cause
                if not left:
                    raise self.lost(f"the executor lost them {TRIES} times") from cause
                self.future = self.submitted()
            else:
                if first == self.first and [len(row) for row in lines] == [len(self.words)] * len(self.games):
                    return lines  # type: ignore[no-any-return]
                break
        raise self.lost("the executor returned the lines of other games")


def many_by(
    executor: Executor,
    words: tuple[str, ...],
    games: Iterable[Game],
    program: Chosen = None,
    batch: int = 32,
    seconds: Optional[float] = None,
) -> Iterator[tuple[Outcome, ...]]:
    """For each game, in order, what each word answers."""
    waiting: deque[Batch] = deque()
    source, count = iter(games), 0
    try:
        while some := list(islice(source, batch)):
            try:
                waiting.append(Batch(executor, count, words, some, program))
            except Lost:  # rows that are there come first; the batch that is really lost is named
                while waiting:
                    yield from waiting.popleft().rows(seconds)
                raise
            count += len(some)
            if len(waiting) >= AHEAD:
                yield from waiting.popleft().rows(seconds)
        while waiting:
            yield from waiting.popleft().rows(seconds)
    finally:
        for rest in waiting:
            rest.future.cancel()
