"""A division rounded so that it adds up."""
from __future__ import annotations

from fractions import Fraction
from typing import Any, Mapping, Sequence, overload

from .amounts import MOST_DIGITS, Amount, amounts_of, digits_of, fractions_of, label_of, named_items
from .amounts import require_once_each
from .styles import rounded as steps_of

__all__ = ["rounded"]


@overload
def rounded(shares: Mapping[str, Amount], places: int) -> dict[str, Fraction]: ...  # noqa: E704


@overload
def rounded(shares: Sequence[Amount], places: int) -> list[Fraction]: ...  # noqa: E704


def rounded(shares: Any, places: int) -> Any:
    """Returns shares, by names or as a list, rounded to so many places, so that they add to their rounded sum. They may
    be floats. All are rounded down; what then lacks goes to those who lost most, and among equals to the first."""
    scale, items = 10 ** digits_of(places), named_items(shares)
    exact = fractions_of(shares, MOST_DIGITS) if items is None else amounts_of(shares, items, MOST_DIGITS)
    found = [Fraction(step, scale) for step in steps_of(exact, digits_of(places))]
    if items is None:
        return found
    names = [label_of(label) for label, _ in items]
    require_once_each(names)
    return dict(zip(names, found))
