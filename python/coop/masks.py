"""Groups of players as masks: player i, counted from 0, has the bit 1 << i."""
from __future__ import annotations

from itertools import combinations
from typing import Iterable


def members(group: int) -> list[int]:
    """The players of a group, ascending."""
    return [i for i in range(group.bit_length()) if group >> i & 1]


def mask_of(players: Iterable[int]) -> int:
    group = 0
    for player in players:
        group |= 1 << player
    return group


def is_alone(group: int) -> bool:
    """Whether the group has one player at most."""
    return group & group - 1 == 0


def by_size(players: int) -> list[int]:
    """All groups but the empty one by their size, and of one size by their members: 1, 2, 3, 12, 13, 23, 123."""
    return [mask_of(some) for size in range(1, players + 1) for some in combinations(range(players), size)]


def by_mask(players: int) -> list[int]:
    """All groups but the empty one in mask order: 1, 2, 12, 3, 13, 23, 123."""
    return list(range(1, 2**players))
