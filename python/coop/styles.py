"""How numbers are shown: as fractions, or as decimals with thousands separated and a unit behind."""
from __future__ import annotations

from dataclasses import dataclass
from fractions import Fraction
from math import floor
from typing import Any, Optional, Sequence

MOST_PLACES = 12
MARKS = {".": ",", ",": "."}  # the decimal marks, each with the sign between thousands that goes with it


@dataclass(frozen=True)
class Style:
    """Fractions where no places are named; else decimals of so many places, rounded."""

    places: Optional[int] = None
    unit: str = ""
    mark: str = "."

    def __call__(self, value: Fraction) -> str:
        return (str(value) if self.places is None else self.decimal(steps_of(value, self.places))) + self.behind

    def decimal(self, steps: int) -> str:
        return decimal(steps, self.places or 0, MARKS[self.mark], self.mark)

    @property
    def behind(self) -> str:
        return f" {self.unit}" if self.unit else ""

    def spelling(self) -> dict[str, Any]:
        """The same as the page's modules are told it."""
        return {"places": self.places, "unit": self.unit, "mark": self.mark, "thousands": MARKS[self.mark]}


@dataclass(frozen=True)
class Plainly(Style):
    """Where no places are named, as many as are exact, and two or none at least; a fraction where there are none."""

    def __call__(self, value: Fraction) -> str:
        if self.places is not None or (value * 10**MOST_PLACES).denominator > 1:
            return super().__call__(value)
        places = next(k for k in (0, *range(2, MOST_PLACES + 1)) if (value * 10**k).denominator == 1)
        return decimal(steps_of(value, places), places) + self.behind


EXACT = Style()
"""Fractions, without a unit."""


def steps_of(value: Fraction, places: int) -> int:
    """The number in steps of the last place, halves away from 0."""
    scale: int = 10**places
    steps = floor(abs(value) * scale + Fraction(1, 2))
    return -steps if value < 0 else steps


def decimal(steps: int, places: int, separator: str = ",", mark: str = ".") -> str:
    digits = str(abs(steps)).rjust(places + 1, "0")
    whole = f"{int(digits[:len(digits) - places]):,}".replace(",", separator)
    return "-" * (steps < 0) + whole + (mark + digits[len(digits) - places :] if places else "")


def rounded(shares: Sequence[Fraction], places: int, whole: Optional[int] = None) -> list[int]:
    """The shares in steps of the last place, so that they add to the rounded sum, or to one that is given. All are
    rounded down first; what then lacks goes to those who lost most, and among equals to the first."""
    scale: int = 10**places
    exact = [share * scale for share in shares]
    steps = [floor(share) for share in exact]
    lacking = (floor(sum(exact) + Fraction(1, 2)) if whole is None else whole) - sum(steps)
    for i in sorted(range(len(steps)), key=lambda i: steps[i] - exact[i])[:lacking]:
        steps[i] += 1
    return steps


def each(shares: Sequence[Fraction], style: Style) -> list[str]:
    """The shares as texts. Decimals are rounded so that they add up, so equal ones may differ in the last place."""
    return column(shares, style)[:-1]


def column(shares: Sequence[Fraction], style: Style) -> list[str]:
    """The shares and their sum as texts. Decimals are rounded so that they add up."""
    values = [*shares, sum(shares, Fraction(0))]
    if style.places is None:
        return [style(value) for value in values]
    steps = rounded(shares, style.places)
    return [style.decimal(step) + style.behind for step in [*steps, sum(steps)]]
