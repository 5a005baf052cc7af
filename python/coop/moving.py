"""A game along a change: its documents, its worths, and how far it may go. A change by t is t times each number's
rate."""
from __future__ import annotations

from dataclasses import dataclass
from fractions import Fraction
from math import lcm
from typing import Any, Iterator, Optional

from .amounts import LIMIT
from .changed import Base, TooFine, greatest, tree_with, with_version
from .errors import BadInput
from .game import LISTS, SINGLE, WRITER, Game, encoded
from .games import as_json, numbers_in
from .places import JUMPS, Place, What, movable, rates_of, told
from .worths import worths_of

MOST_KEPT = 6  # changes whose worths of all groups are kept

LINEAR = ("table", "cost-table", "airport")
"""Classes whose worths are linear while no two costs change their order. Those of the others are convex: between two
changes no group is worth more than the line between tells."""


@dataclass(frozen=True)
class Bound:
    """What has to stay 0 or more along a change, a + b t, and what is said where it doesn't."""

    a: Fraction
    b: Fraction
    told: str


class Moving:
    """A game along a change. Numbers and worths are the game's own, not those of its document."""

    def __init__(self, game: Game, what: What):
        self.game = movable(game)
        try:
            self.rates = rates_of(self.game, what)
        except BadInput as fault:
            raise BadInput(f"{fault}{JUMPS if game.kind == 'voting' else ''}") from None
        game, self.sign = self.game, self.game.sign
        self.is_linear = game.kind in LINEAR
        self.numbers = {place: self.number_at(place) for place in self.rates}
        self.base = Base(game, {group for group, _ in self.rates}) if game.is_table else None
        self.games: dict[Fraction, Game] = {}
        self.all_worths: Optional[tuple[int, list[int]]] = None
        self.found: dict[Fraction, tuple[int, list[int]]] = {}

    def number_at(self, place: Place) -> Fraction:
        """What stands at a place before the change."""
        game, (i, j) = self.game, place
        if game.kind in LISTS or game.is_table:
            return (game.single if j < 0 else game.amounts[i]) / game.factor
        return game.rows[i][j] / game.factor

    def moved(self, t: Fraction) -> dict[Place, Fraction]:
        return {place: self.numbers[place] + t * rate for place, rate in self.rates.items()}

    # ---- Documents

    def tree_at(self, t: Fraction) -> tuple[dict[str, Any], int]:
        """The game of a document after a change, and by how much its numbers are multiplied."""
        if self.base is not None:
            return self.base.tree({group: number for (group, _), number in self.moved(t).items()})
        return tree_with(self.game, self.parts_at(t))

    def parts_at(self, t: Fraction) -> dict[str, Any]:
        """The numbers of a class, by the keys of a document."""
        game, moved = self.game, self.moved(t)
        factor = game.factor
        if game.kind in LISTS:
            parts: dict[str, Any] = {
                LISTS[game.kind]: [moved.get((i, 0), q / factor) for i, q in enumerate(game.amounts)]
            }
            if game.kind in SINGLE:
                parts[SINGLE[game.kind]] = moved.get((-1, -1), game.single / factor)
            return parts
        rows = [[q / factor for q in row] for row in game.rows]
        for (i, j), number in moved.items():
            rows[i][j] = number
            if game.kind == "tree":
                rows[j][i] = number
        return {"matrix": rows}

    def document(self, t: Fraction, **others: Any) -> tuple[bytes, int]:
        """The bytes of a document after a change, and by how much its numbers are multiplied."""
        tree, factor = self.tree_at(t)
        return encoded(WRITER.encode({"game": tree, **others}), "a name"), factor

    # ---- Worths

    def game_at(self, t: Fraction) -> Game:
        """The game after a change, of whatever denominators; of a class, not of a table."""
        if t not in self.games:
            parts = self.parts_at(t)
            scale = lcm(*(amount.denominator for amount in numbers_in(parts)))
            whole = {key: as_json(part, scale) for key, part in parts.items()}
            if len(self.games) > 40:
                self.games.clear()
            self.games[t] = Game(with_version({**self.game.tree, **whole}, False), scale)
        return self.games[t]

    def worth(self, t: Fraction, group: int) -> Fraction:
        """What a group is worth after a change; a cost is a negative worth."""
        if self.base is None:
            game = self.game_at(t)
            return game.worth(group) / game.factor
        rate = self.rates.get((group, 0), Fraction(0))
        return self.sign * (self.game.amounts[group] / self.game.factor + t * rate)

    def worths(self, t: Fraction) -> tuple[int, list[int]]:
        """A unit, and the worths of all groups after a change, times that; for at most 16 players."""
        if self.base is None:
            if t not in self.found:
                if len(self.found) > MOST_KEPT:
                    self.found.clear()
                self.found[t] = worths_of(self.game_at(t))
            return self.found[t]
        if self.all_worths is None:
            self.all_worths = worths_of(self.game)
        scale, worths = self.all_worths
        moved = {group: self.worth(t, group) for group, _ in self.rates}
        unit = lcm(scale, *(q.denominator for q in moved.values()))
        found = [unit // scale * worth for worth in worths] if unit > scale else list(worths)
        for group, worth in moved.items():
            found[group] = (worth * unit).numerator
        return unit, found

    def slope(self, t: Fraction, group: int, way: int) -> Fraction:
        """By how much the worth of a group grows with t, next to a change on one side. Values of trees and matchings
        are multiples of a unit, so so small a step leaves the best one."""
        if self.base is not None:
            return self.sign * self.rates.get((group, 0), Fraction(0))
        game, total = self.game_at(t), sum((abs(rate) for rate in self.rates.values()), Fraction(0))
        unit = lcm(game.factor, *(rate.denominator for rate in self.rates.values()))
        step = way / (unit * (2 * total + 1))
        return (self.worth(t + step, group) - self.worth(t, group)) / step

    # ---- How far it may go

    def bounds(self, rule: str) -> Iterator[Bound]:
        """What ends a change: numbers that a class doesn't have, and that there is no imputation."""
        game, zero = self.game, Fraction(0)
        if game.is_table:
            if rule == "nucleolus":
                whole = (game.everyone, 0)
                a = self.worth(zero, game.everyone) - sum(self.worth(zero, 1 << i) for i in range(game.n))
                b = self.rates.get(whole, zero) - sum(self.rates.get((1 << i, 0), zero) for i in range(game.n))
                if game.n > 1:
                    yield Bound(a, self.sign * b, "there is no imputation")
            return
        for place, rate in self.rates.items():
            yield Bound(self.numbers[place], rate, f"{told(game, place)} is below 0")
        if game.kind == "bankruptcy":
            estate = self.rates.get((-1, -1), zero)
            claims = sum((rate for (_, j), rate in self.rates.items() if j == 0), zero)
            rest = (sum(game.amounts, zero) - game.single) / game.factor
            yield Bound(rest, claims - estate, "the claims add to less than the estate")

    def room(self, rule: str) -> tuple[Fraction, Fraction]:
        """From where to where the change may go: as far as a document's numbers go, and where the game is one."""
        most = self.most() / greatest(self.rates.values())
        low, high = -most, most
        for bound in self.bounds(rule):
            if bound.a < 0:
                raise BadInput(f"before the change {bound.told}" if bound.b else bound.told)
            if bound.b > 0:
                low = max(low, -bound.a / bound.b)
            if bound.b < 0:
                high = min(high, -bound.a / bound.b)
        return low, high

    def most(self) -> Fraction:
        """A size to which numbers may grow so that a document still has them: half of the most."""
        numbers: list[Fraction] = [*self.numbers.values(), *self.rates.values()]
        if self.base:
            numbers.append(self.base.greatest)
        else:
            numbers += [q / self.game.factor for q in self.game.all_numbers()]
        scale = lcm(self.base.scale if self.base else 1, *(q.denominator for q in numbers))
        return max(Fraction(0), LIMIT // 2 // scale - greatest(numbers))

    def require(self, t: Fraction, rule: str) -> None:
        """Refuses a change after which the game is none, or no document has it."""
        for bound in self.bounds(rule):
            if bound.a + t * bound.b < 0:
                raise BadInput(f"after a change of {t} {bound.told}")
        try:
            self.tree_at(t)
        except TooFine as fault:
            raise BadInput(f"after a change of {t} {fault}") from None

    def kinks(self, low: Fraction, high: Fraction) -> list[Fraction]:
        """The ends of a range, and between them where worths may bend the wrong way: of an airport, where two costs are
        alike that move unlike."""
        found = {low, high}
        if self.game.kind == "airport":
            costs = [q / self.game.factor for q in self.game.amounts]
            pairs = {(cost, self.rates.get((i, 0), Fraction(0))) for i, cost in enumerate(costs)}
            for a, rate in pairs:
                found |= {(b - a) / (rate - other) for b, other in pairs if other < rate}
        return sorted(t for t in found if low <= t <= high)
