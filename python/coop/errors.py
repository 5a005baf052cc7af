"""What can go wrong, as exceptions."""
from __future__ import annotations

import copyreg
from dataclasses import dataclass
from functools import cached_property
from typing import Any, Callable, Optional

from . import shown


@dataclass(frozen=True)
class Slip:
    """A mistake in a document: the number and the name of the refusal, its place, and what is wrong there."""

    number: int
    name: str
    place: str
    sentence: str

    def __str__(self) -> str:
        return f"{self.place}: {self.sentence}"


class CoopError(Exception):
    """The base of all exceptions of this package."""


class BadInput(CoopError):
    """The input isn't a game, a document, a line or a number; the text says what is wrong with it."""


class NotFound(CoopError):
    """No program was found."""


class Lost(CoopError):
    """An executor gave no answer to some games: it lost them with its processes, again and again, or took longer
    than allowed. `first` and `last` are their numbers, from 1. All games before them have had their rows, and those
    after them have none. The cause is the executor's own exception."""

    def __init__(self, first: int, last: int, why: str):
        super().__init__(f"games {first} to {last}, and all after them, have no answer: {why}")
        self.first, self.last, self.why = first, last, why

    def __reduce__(self) -> tuple[Any, ...]:
        return Lost, (self.first, self.last, self.why)


class NoAnswer(CoopError):
    """The program ended with another status than 0 or 1, so there is no answer; `line` is what it wrote."""

    def __init__(self, sentence: str, status: int, line: str = ""):
        super().__init__(sentence)
        self.status, self.line = status, line

    def __reduce__(self) -> tuple[Any, ...]:
        """Its parts, since Python pickles an exception by its text alone."""
        return copyreg.__newobj__, (type(self), *self.args), self.__dict__  # type: ignore[attr-defined]


@dataclass(frozen=True)
class Failure:
    """What a row of `many` has if a call has no answer. It counts as no, since it is false. It isn't an exception, but
    has the one that the call raises."""

    fault: NoAnswer

    def __bool__(self) -> bool:
        return False

    @property
    def status(self) -> int:
        return self.fault.status

    @property
    def line(self) -> str:
        """What the program wrote."""
        return self.fault.line

    def to_pandas(self, places: Optional[int] = None) -> Any:
        """An empty Series of pandas, which is a row of NaN in a data frame."""
        return shown.makers["series"]({}, type(self.fault).__name__.lower(), places)


class Usage(NoAnswer):
    """The command doesn't serve the game's class or its number of players, or there is no such command; status 2."""


class Refused(NoAnswer):
    """The document is refused, by the number and the name of a refusal; status 3."""

    def __init__(self, line: str, number: int, name: str, find: Callable[[], Optional[Slip]]):
        super().__init__(f"refused, {number} {name}", 3, line)
        self.number, self.name, self.find = number, name, find

    @cached_property
    def where(self) -> Optional[Slip]:
        """The mistake with its place, sought when it is first asked for; None if it isn't found, as without Node."""
        try:
            slip = self.find()
        except CoopError:
            return None
        return slip if slip and slip.number == self.number else None

    def __str__(self) -> str:
        return super().__str__() + (f": {self.where}" if self.where else "")


class Fault(NoAnswer):
    """Reading or writing failed, or the program couldn't be run; there is no whole line."""


class NoMemory(NoAnswer):
    """The program ran out of memory; status 7."""
