"""What holds of the core of a table whose numbers are only known between bounds, with evidence from the program.

    found = coop.doubt.between(low, high)
    print(found.answer)            # surely, never or perhaps
    print(found.next())            # if perhaps, which groups to cost next

For a game between the bounds every group's number is between that of `low` and that of `high`. Two of these games tell
of all. In the *worst* one each smaller group gets its most attractive number (the least cost, or the greatest worth),
and all together their least attractive one. In the *best* one it is the other way round.

*Surely*: the worst game has a core point x. In no game between can a smaller group do better than x gives it. If all
together then cost less than in the worst game, or are worth more, everybody may be given a part of that, however it is
divided: by the division that results no group could do better either. For x gives each smaller group at least its
number in every game between, and nobody gets less than by x.

*Never*: the best game has no core point. The program gives groups that hold each player k times, and are worth more
than all together k times. In every game between they are worth no less, and all together no more; so none has a core
point.

*Perhaps*: the best game has a core point, and the worst game has none. Both are games between. As long as the bounds of
the groups by which the worst game has none stay, and those of all together, it stays so that it can't be *surely*.

That the worst and the best game tell of all is argued here, by hand. Of each of both, `core` is proved.
"""
from __future__ import annotations

from dataclasses import dataclass
from fractions import Fraction
from typing import Optional, Union

from . import calls
from .answers import CorePoint, EmptyCore, Names, Shares
from .errors import BadInput
from .game import Game, require_game
from .games import made
from .masks import mask_of, members

__all__ = ["Asked", "Doubt", "between"]


@dataclass(frozen=True)
class Asked:
    """A group whose number would help to know: its bounds, and by how much it can narrow the gap of the worst game, as
    often as the groups that show the gap count it."""

    group: Names
    low: Fraction
    high: Fraction
    by: Fraction


@dataclass(frozen=True)
class Doubt:
    """What is known of the core. `worst` and `best` are the program's answers to the two games; `best` isn't asked for
    if the worst game has a core point."""

    low: Game
    high: Game
    worst: Union[CorePoint, EmptyCore]
    best: Union[CorePoint, EmptyCore, None]

    @property
    def answer(self) -> str:
        """Returns surely, never or perhaps."""
        if isinstance(self.worst, CorePoint):
            return "surely"
        return "perhaps" if isinstance(self.best, CorePoint) else "never"

    @property
    def shares(self) -> Optional[Shares]:
        """Returns the division that no group leaves whatever the numbers; None unless the answer is surely."""
        return self.worst.shares if isinstance(self.worst, CorePoint) else None

    @property
    def gap(self) -> Fraction:
        """Returns by how much the groups that show that the worst game has no core are better off than all together,
        counted as often as these hold each player; 0 if it has one."""
        return abs(self.worst.value - self.worst.against) if isinstance(self.worst, EmptyCore) else Fraction(0)

    def next(self) -> list[Asked]:
        """Returns the groups to cost next, those that can narrow the gap most first; none unless the answer is perhaps.
        Nothing else can make it surely while their bounds stay. All of them together can close the gap."""
        if self.answer != "perhaps" or not isinstance(self.worst, EmptyCore):
            return []
        names = self.low.names
        counted = [(mask_of(map(names.index, group)), weight) for group, weight in self.worst.collection]
        found = []
        for group, weight in [*counted, (self.low.everyone, self.worst.k)]:
            low, high = (game.amounts[group] / game.factor for game in (self.low, self.high))
            if low < high:
                found.append(Asked(tuple(names[i] for i in members(group)), low, high, weight * (high - low)))
        return sorted(found, key=lambda asked: -asked.by)


def between(low: Game, high: Game, program: calls.Chosen = None) -> Doubt:
    """Returns what holds of the core of every table between two: both of costs or both of worths, of the same players,
    and in `low` no number greater than in `high`. Other classes and bounds that cross are BadInput."""
    require_bounds(low, high)
    modest, attractive = amounts_of(low), amounts_of(high)
    if low.costs:
        modest, attractive = attractive, modest
    found: list[Union[CorePoint, EmptyCore]] = []
    for smaller, whole in ((attractive, modest), (modest, attractive)):
        worths = [*smaller[1:-1], whole[-1]]
        found.append(calls.core(made(low.kind, {"players": low.n, "worths": worths}, low.own_names), program))
        if isinstance(found[0], CorePoint):
            return Doubt(low, high, found[0], None)
    return Doubt(low, high, found[0], found[1])


def amounts_of(game: Game) -> list[Fraction]:
    """Returns the numbers of a table by masks, in its own unit."""
    return game.amounts if game.factor == 1 else [amount / game.factor for amount in game.amounts]


def require_bounds(low: Game, high: Game) -> None:
    """Refuses two games that aren't the bounds of a table."""
    for game in (low, high):
        require_game(game)
        if not game.is_table:
            told = "coop.variants.table_of_game makes a table of it"
            raise BadInput(f"a game of class {game.kind} has no numbers of groups: {told}")
    if low.kind != high.kind:
        raise BadInput("one game has costs, and the other worths")
    if low.names != high.names:
        raise BadInput(f"the players differ: {', '.join(low.names)}; and {', '.join(high.names)}")
    for group, (least, most) in enumerate(zip(amounts_of(low), amounts_of(high))):
        if least > most:
            names = "+".join(low.names[i] for i in members(group))
            raise BadInput(f"the least number of {names} is {least}, above the greatest, {most}")
