"""The levels of a certificate, and which groups are open at each."""
from __future__ import annotations

from fractions import Fraction
from typing import Any, NamedTuple, Sequence, Union

from .linear import Span, sums
from .masks import is_alone, mask_of, members

Test = Union[int, list[int]]
"""What tells which groups are open at a level: in mode players the mask of those who aren't settled; in mode span a
number for each player, and a group is open if their sum over it isn't 0."""

Weights = list[tuple[int, int]]
"""Pairs of a group and a weight."""


class Level(NamedTuple):
    """A level; a bound is that of a player alone."""

    excess: Fraction
    coalitions: Weights
    earlier: Weights
    bounds: Weights
    total: int


def level_of(tree: Any) -> Level:
    """A level of a certificate that was checked."""
    coalitions, earlier = (
        [(group_of(players), weight) for players, weight in tree[key]] for key in ("coalitions", "earlier")
    )
    bounds = [(group_of([player]), weight) for player, weight in tree["bounds"]]
    return Level(Fraction(tree["excess"]), coalitions, earlier, bounds, tree["total"])


def group_of(players: list[int]) -> int:
    """The group of players counted from 1."""
    return mask_of(player - 1 for player in players)


def open_tests(n: int, mode: str, levels: Sequence[Level]) -> list[Test]:
    """What tells which groups are open, for each level and behind the last."""
    everyone = 2**n - 1
    span, settled = Span(n), 0
    found: list[Test] = []
    for level in [*levels, None]:
        found.append(everyone & ~settled if mode == "players" else span.packed())
        if level:
            settled |= settled_by(level, everyone)
            for group, weight in [*level.coalitions, *level.bounds]:
                if weight >= 1:
                    span.add(group)
    return found


def is_open(test: Test, group: int) -> bool:
    """Whether a group is open by the test of a level."""
    if isinstance(test, int):
        return 0 != group & test != test
    return sum(test[i] for i in members(group)) != 0


def by_last_level(n: int, tests: Sequence[Test]) -> list[list[int]]:
    """The groups by the last level at which they are open. A group that is settled stays so."""
    groups: Sequence[int] = range(1, 2**n - 1)
    found: list[list[int]] = []
    for test in tests[1:]:
        if isinstance(test, int):
            found.append([group for group in groups if (rest := group & test) == 0 or rest == test])
            groups = [group for group in groups if 0 != group & test != test]
        elif not any(test):
            found.append(list(groups))
            groups = []
        else:
            totals = sums(test)
            found.append([group for group in groups if not totals[group]])
            groups = [group for group in groups if totals[group]]
    return found


def settled_by(level: Level, everyone: int) -> int:
    """The players whom a level settles in mode players."""
    alone = [group for group, weight in level.bounds if weight >= 1]
    others = [group for group, _ in level.coalitions]
    found = 0
    for group in [*alone, *(s for group in others for s in (group, everyone & ~group) if is_alone(s))]:
        found |= group
    return found
