"""Documents of a game of which some numbers are others."""
from __future__ import annotations

from fractions import Fraction
from math import lcm
from typing import Any, Iterable

from .amounts import LIMIT, MOST_SCALE, written
from .errors import BadInput
from .game import Game
from .games import as_json, numbers_in


class TooFine(BadInput):
    """Numbers of a game at which no document can be made."""


def tree_with(game: Game, parts: dict[str, Any]) -> tuple[dict[str, Any], int]:
    """The game of a document with other numbers at some keys, and by how much they are multiplied."""
    amounts = list(numbers_in(parts))
    scale = lcm(*(amount.denominator for amount in amounts))
    require_room(greatest(amounts), scale)
    factor = 1 if scale <= MOST_SCALE else scale
    tree = {**game.tree, **{key: as_json(part, factor) for key, part in parts.items()}}
    return with_version(tree, factor == 1 and scale > 1), factor


class Base:
    """The numbers of a table as a document has them, but for some groups."""

    def __init__(self, game: Game, moving: "set[int]"):
        self.game = game
        rest = [q for group, q in enumerate(game.amounts) if group not in moving]
        self.factor = game.factor
        self.scale = lcm(*{q.denominator for q in rest}) * self.factor
        self.greatest = greatest(rest) / self.factor
        self.written: dict[int, list[Any]] = {}

    def tree(self, moved: dict[int, Fraction]) -> tuple[dict[str, Any], int]:
        """The game of a document with other numbers for the groups that move."""
        scale = lcm(self.scale, *(q.denominator for q in moved.values()))
        require_room(max(self.greatest, greatest(moved.values())), scale)
        factor = 1 if scale <= MOST_SCALE else scale
        worths = list(self.rest(factor))
        for group, number in moved.items():
            worths[group - 1] = written(number * factor)
        kept = {key: part for key, part in self.game.tree.items() if key not in ("sparse", "default")}
        return with_version({**kept, "worths": worths}, factor == 1 and scale > 1), factor

    def rest(self, factor: int) -> list[Any]:
        """The numbers of all groups, those that move too, as they were, times a factor."""
        if factor not in self.written:
            times = Fraction(factor, self.factor)
            if len(self.written) > 4:
                self.written.clear()
            self.written[factor] = [written(q * times) for q in self.game.amounts[1:]]
        return self.written[factor]


def greatest(values: Iterable[Fraction]) -> Fraction:
    return max((abs(value) for value in values), default=Fraction(0))


def require_room(greatest: Fraction, scale: int) -> None:
    """Refuses numbers that no document has."""
    if greatest * scale >= LIMIT:
        raise TooFine(f"a number, times the common denominator {scale}, is 2^40 or more")


def with_version(tree: dict[str, Any], has_fractions: bool) -> dict[str, Any]:
    """The tree, of version 2 where it has fractions."""
    if has_fractions:
        return {**tree, "version": 2}
    return {key: part for key, part in tree.items() if key != "version"}
