"""Groups that could gain most in an airport or an estate of any number of players, without a list of all groups."""
from __future__ import annotations

from typing import Iterator, Sequence

from .game import Game
from .masks import members


class Many:
    """An airport or an estate, and what each gets there, in whole numbers over a unit; a cost is a negative worth."""

    def __init__(self, game: Game, unit: int, gets: Sequence[int]):
        self.gets, self.everyone, self.is_airport = gets, game.everyone, game.kind == "airport"
        times = unit // game.factor
        self.amounts = [(amount * times).numerator for amount in game.amounts]
        if self.is_airport:
            by_cost = sorted(range(game.n), key=self.amounts.__getitem__)
            self.allowed = list(prefixes(by_cost, self.amounts))
            self.weights = [-share for share in gets]
        else:
            self.spare = sum(self.amounts) - (game.single * times).numerator  # what the claims are above the estate

    def left(self, group: int) -> int:
        """What a group gets less what it is worth."""
        some = members(group)
        gets = sum(self.gets[i] for i in some)
        if self.is_airport:
            return gets + max(self.amounts[i] for i in some)
        return gets - max(0, sum(self.amounts[i] for i in some) - self.spare)

    def widest(self, rest: int) -> Iterator[int]:
        """Groups among which is one that has least left, of those that have some of the rest, and not all: for each
        cost those who need no more, and with an estate those who get less than nothing, or than their claims."""
        if self.is_airport:
            for allowed in self.allowed:
                yield from heaviest(self.weights, allowed, rest)
        else:
            yield from heaviest([-share for share in self.gets], self.everyone, rest)
            yield from heaviest([a - b for a, b in zip(self.amounts, self.gets)], self.everyone, rest)


def prefixes(order: Sequence[int], amounts: Sequence[int]) -> Iterator[int]:
    """For each amount the group of those who have no more."""
    group = 0
    for place, i in enumerate(order):
        group |= 1 << i
        if place + 1 == len(order) or amounts[order[place + 1]] > amounts[i]:
            yield group


def heaviest(weights: Sequence[int], allowed: int, rest: int) -> Iterator[int]:
    """The group of the greatest weight among those allowed that has some of the rest, and not all; none if there is
    none."""
    group = 0
    for i in members(allowed):
        if weights[i] > 0:
            group |= 1 << i
    if not group & rest and allowed & rest:
        group |= 1 << max(members(allowed & rest), key=weights.__getitem__)
    if group & rest == rest:
        group &= ~(1 << min(members(rest), key=weights.__getitem__))
    if group & rest:
        yield group
