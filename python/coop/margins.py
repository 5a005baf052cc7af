"""Which numbers a nucleolus rests on, and how far the others may move together, by its certificate alone."""
from __future__ import annotations

import heapq
from dataclasses import dataclass
from fractions import Fraction
from math import lcm
from typing import Optional, Sequence, Union, overload

from . import calls
from .answers import Names, Nucleolus
from .errors import BadInput
from .game import MOST_IN_A_TABLE, Game
from .levels import Level, by_last_level, level_of, open_tests
from .linear import sums
from .masks import members
from .worths import worths_of


@dataclass(frozen=True)
class Margin:
    """A `group`, its `number`, and how far that is from counting: the `bound` is the least that it may cost, or the
    most that it may be worth, so that the certificate still shows the same shares, and `room` is the way to it. A group
    that counts as it is has neither."""

    group: Names
    number: Fraction
    bound: Optional[Fraction]
    room: Optional[Fraction]


class Margins(Sequence[Margin]):
    """The margins of all groups but all together, in mask order. Whoever knows of the groups with a bound only that
    they cost at least that much, or are worth at most that much, knows enough, of all of them at once."""

    def __init__(self, game: Game, unit: int, numbers: list[int], bounds: list[int], counted: "set[int]"):
        self.game, self.unit = game, unit
        self.numbers, self.bounds, self.listed = numbers, bounds, counted

    def __len__(self) -> int:
        return len(self.bounds) - 2

    @overload
    def __getitem__(self, place: int) -> Margin: ...

    @overload
    def __getitem__(self, place: slice) -> list[Margin]: ...

    def __getitem__(self, place: Union[int, slice]) -> Union[Margin, list[Margin]]:
        places = range(len(self))[place]
        return self.at(places + 1) if isinstance(places, int) else [self.at(other + 1) for other in places]

    def at(self, group: int) -> Margin:
        """The margin of a group by its mask."""
        names = tuple(self.game.names[i] for i in members(group))
        number, bound = (Fraction(self.game.sign * of[group], self.unit) for of in (self.numbers, self.bounds))
        return Margin(names, number, *(None, None) if group in self.listed else (bound, abs(number - bound)))

    def counted(self) -> list[Margin]:
        """The groups whose numbers count as they are."""
        return [self.at(group) for group in sorted(self.listed)]

    def closest(self, most: int = 10) -> list[Margin]:
        """The groups with a bound that are nearest to it, the nearest first."""
        free = (group for group in range(1, self.game.everyone) if group not in self.listed)
        near = heapq.nsmallest(most, free, key=lambda group: (self.bounds[group] - self.numbers[group], group))
        return [self.at(group) for group in near]


def margins(answer: Nucleolus, program: calls.Chosen = None) -> Margins:
    """The margins of the groups of an answer: which numbers its certificate rests on, and how far off the others are.
    Of a class of at most 16 players they are those of what the class says that each group is worth or costs. A line
    that the program's check doesn't take is BadInput."""
    if not isinstance(answer, Nucleolus):
        raise BadInput(f"{type(answer).__name__} isn't an answer of nucleolus or prenucleolus that has shares")
    game = answer.game
    if game.n > MOST_IN_A_TABLE:
        raise BadInput(f"{game.n} players: margins of groups are for at most {MOST_IN_A_TABLE}; `ranges` takes more")
    if not calls.check(answer, program):
        raise BadInput("the certificate doesn't show these shares (scripts/explain says why)")
    levels = levels_of(answer)
    shares = [answer.shares[name] * game.sign for name in game.names]
    scale, worths = worths_of(game)
    unit = lcm(scale, *(q.denominator for q in [*shares, *(level.excess for level in levels)]))
    numbers = worths if unit == scale else [unit // scale * worth for worth in worths]
    gets = sums([(share * unit).numerator for share in shares])
    bounds = list(numbers)
    excesses = [(level.excess * unit).numerator for level in levels]
    least = [min(excesses[: k + 1]) for k in range(len(levels))]
    tests = open_tests(game.n, answer.certificate["mode"], levels)
    for excess, groups in zip(least, by_last_level(game.n, tests)):
        if game.per_head:
            for group in groups:
                bounds[group] = gets[group] + excess * bin(group).count("1")
        else:
            for group in groups:
                bounds[group] = gets[group] + excess
    if answer.rule == "nucleolus" and game.n > 1:
        for i in range(game.n):
            bounds[1 << i] = min(bounds[1 << i], gets[1 << i]) if levels else gets[1 << i]
    listed = {group for level in levels for group, _ in [*level.coalitions, *level.bounds]}
    return Margins(game, unit, numbers, bounds, listed - {game.everyone})


def levels_of(answer: Nucleolus) -> list[Level]:
    """The levels of a certificate, with excesses in the game's own unit."""
    found = map(level_of, answer.certificate["levels"])
    return [level._replace(excess=level.excess / answer.game.factor) for level in found]
