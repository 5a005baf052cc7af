"""Groups that were never costed: each filled in by its cheapest split into groups that were.

That takes for granted that no such group could build cheaper together than apart. Where that holds and the core isn't
empty, the nucleolus by plain excess is the one that true costs would give (Huberman 1980: a group that gains nothing by
being one decides nothing there). Where such a group could build cheaper, that nucleolus changes too. Shapley shares and
those per head depend on what is filled in, anyway. A filled number is a bound from above: so "blocked" and
"empty core" are sure, and "core" holds against the filled numbers alone.
"""
from __future__ import annotations

from fractions import Fraction
from typing import NamedTuple, Sequence


class Filled(NamedTuple):
    """A group that had no number, what it was given, and the split, or the cover, that costs so much."""

    group: int
    amount: Fraction
    parts: list[int]


def cheapest(amounts: dict[int, Fraction], missing: Sequence[int], within: bool = False) -> list[Filled]:
    """The cheapest split of each missing group. Each player alone has a number, so there is a split. With `within` a
    group may use the works of larger ones: then it is its cheapest cover by groups that have a number."""
    last = max(missing, default=0)
    firsts = [1 << i for i in range(last.bit_length())]
    # A part of a split begins with the lowest player of what is left; a part of a cover has that player somewhere.
    holding = {bit: [part for part in amounts if (part if within else part & -part) & bit] for bit in firsts}
    best: dict[int, tuple[Fraction, int]] = {0: (Fraction(0), 0)}
    for group in range(1, last + 1):
        parts = [part for part in holding[group & -group] if within or part & ~group == 0]
        best[group] = min((amounts[part] + best[group & ~part][0], part) for part in parts)
    return [Filled(group, best[group][0], split(group, best)) for group in missing]


class Above(NamedTuple):
    """A group that costs more than a larger one that contains it, the cheapest of these, and what each costs."""

    group: int
    amount: Fraction
    larger: int
    least: Fraction


def above_larger(amounts: Sequence[Fraction]) -> list[Above]:
    """The groups that cost more than a larger one that contains them, by the costs of all groups by masks."""
    least = [(amount, group) for group, amount in enumerate(amounts)]  # of the group and all that contain it
    for bit in (1 << i for i in range(len(amounts).bit_length() - 1)):
        for group in range(len(amounts)):
            if not group & bit:
                least[group] = min(least[group], least[group | bit])
    return [
        Above(group, amount, least[group][1], least[group][0])
        for group, amount in enumerate(amounts)
        if group and least[group][0] < amount
    ]


def split(group: int, best: dict[int, tuple[Fraction, int]]) -> list[int]:
    parts = []
    while group:
        parts.append(best[group][1])
        group &= ~best[group][1]
    return parts
