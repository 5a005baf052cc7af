"""What the program answers: a dataclass for each kind of line, with fractions by the players' names.

Players without names are called "1", "2" and so on. Numbers are those of the game as it was made, over its factor. For
costs, shares are payments, and an excess is what a group pays above its own cost.
"""
from __future__ import annotations

import json
from dataclasses import dataclass, field
from fractions import Fraction
from typing import Any, Callable, Optional

from . import shown
from .amounts import exact
from .game import Game

Shares = dict[str, Fraction]
Names = tuple[str, ...]


@dataclass(frozen=True)
class Answer:
    """An answer: the program's line, its status, and the game that was asked about."""

    line: str = field(repr=False)
    status: int = field(repr=False)
    game: Game = field(repr=False, compare=False)

    def __bool__(self) -> bool:
        """Whether it is the positive answer."""
        return self.status == 0

    def _repr_html_(self) -> str:
        return str(shown.makers["answer"](self))

    def to_pandas(self, places: Optional[int] = None) -> Any:
        """The shares as a Series of pandas: fractions, or floats of so many places, rounded so that they add up. An
        answer without shares has an empty one, which is a row of NaN in a data frame."""
        return shown.makers["series"](getattr(self, "shares", {}), type(self).__name__.lower(), places)


@dataclass(frozen=True)
class Nucleolus(Answer):
    """The nucleolus or the prenucleolus; `certificate` shows it, and `line` is what `check` reads."""

    rule: str
    shares: Shares
    certificate: dict[str, Any] = field(repr=False)


@dataclass(frozen=True)
class NoImputation(Answer):
    """There is no nucleolus: what the players are worth or cost alone, added, and what all are."""

    singles: Fraction
    total: Fraction


@dataclass(frozen=True)
class Yes(Answer):
    """The certificate meets all conditions."""


@dataclass(frozen=True)
class No(Answer):
    """It doesn't: the first condition that fails, with its level and its place; `coalition` is empty where there is
    none, and 0 and "" stand for no level, no player and no excess."""

    reason: int
    level: int
    coalition: Names
    player: str
    excess: str


@dataclass(frozen=True)
class InCore(Answer):
    """No group could do better by itself."""


@dataclass(frozen=True)
class Blocked(Answer):
    """The group that could do better by the most, and by how much."""

    coalition: Names
    excess: Fraction


@dataclass(frozen=True)
class NotEfficient(Answer):
    """The shares don't add to the worth of all."""

    sum: Fraction
    total: Fraction


@dataclass(frozen=True)
class CorePoint(Answer):
    """A point of the core, of often many."""

    shares: Shares


@dataclass(frozen=True)
class EmptyCore(Answer):
    """The core is empty: groups that by their weights hold each player `k` times and are worth `value`, which is more
    than `against`, what all are worth so often (less, of costs)."""

    collection: tuple[tuple[Names, int], ...]
    k: int
    value: Fraction
    against: Fraction


@dataclass(frozen=True)
class Shapley(Answer):
    """The Shapley shares."""

    shares: Shares


@dataclass(frozen=True)
class Bird(Answer):
    """Bird's shares, and the links in the order in which they are built: the connected end ("0" is the source), the new
    player, and the cost, which the new player pays."""

    shares: Shares
    links: tuple[tuple[str, str, Fraction], ...]


@dataclass(frozen=True)
class Convex(Answer):
    """The game is convex, so both lists of shares lie in the core."""

    shapley: Shares
    marginal: Shares


@dataclass(frozen=True)
class NotConvex(Answer):
    """Two players add less to a group together than one by one, by the deficit."""

    coalition: Names
    i: str
    j: str
    deficit: Fraction


@dataclass(frozen=True)
class InPrekernel(Answer):
    """Any two players have the same surplus against each other."""


@dataclass(frozen=True)
class NotInPrekernel(Answer):
    """Two players whose surpluses against each other differ: `ij` is that of i against j."""

    i: str
    j: str
    ij: Fraction
    ji: Fraction


@dataclass(frozen=True)
class Matching(Answer):
    """The pairs of a buyer and a seller, what they are worth, and the ends of the core."""

    pairs: tuple[tuple[str, str], ...]
    value: Fraction
    buyers_best: Shares
    sellers_best: Shares


# ---- From a line


class Reader:
    """Reads the parts of a line by the names and the factor of a game."""

    def __init__(self, line: str, status: int, game: Game):
        self.tree: dict[str, Any] = json.loads(line)
        self.game = game
        self.start = (line, status, game)

    def over(self, text: str) -> Fraction:
        value, factor = exact(text), self.game.factor
        return value if factor == 1 else value / factor

    def amount(self, key: str) -> Fraction:
        return self.over(self.tree[key])

    def shares(self, key: str = "shares") -> Shares:
        return dict(zip(self.game.names, map(self.over, self.tree[key])))

    def name(self, player: int) -> str:
        """A player's name; "0" for the source of a network."""
        return self.game.names[player - 1] if player else "0"

    def coalition(self, players: list[int]) -> Names:
        return tuple(map(self.name, players))

    def links(self) -> tuple[tuple[str, str, Fraction], ...]:
        return tuple((self.name(end), self.name(new), self.over(str(cost))) for end, new, cost in self.tree["tree"])

    def no(self) -> No:
        tree = self.tree
        coalition = self.coalition(tree.get("coalition", []))
        player = self.name(tree["player"]) if "player" in tree else ""
        return No(*self.start, tree["reason"], tree.get("level", 0), coalition, player, tree.get("excess", ""))

    def empty_core(self) -> EmptyCore:
        collection = tuple((self.coalition(group), weight) for group, weight in self.tree["collection"])
        return EmptyCore(*self.start, collection, self.tree["k"], self.amount("value"), self.amount("against"))

    def matching(self) -> Matching:
        pairs = tuple((self.name(buyer), self.name(seller)) for buyer, seller in self.tree["pairs"])
        ends = self.shares("buyers best"), self.shares("sellers best")
        return Matching(*self.start, pairs, self.amount("value"), *ends)


READERS: dict[str, Callable[[Reader], Answer]] = {
    "nucleolus": lambda it: Nucleolus(*it.start, it.tree["answer"], it.shares(), it.tree["certificate"]),
    "no imputation": lambda it: NoImputation(*it.start, it.amount("singles"), it.amount("total")),
    "yes": lambda it: Yes(*it.start),
    "no": Reader.no,
    "core": lambda it: InCore(*it.start),
    "blocked": lambda it: Blocked(*it.start, it.coalition(it.tree["coalition"]), it.amount("excess")),
    "not efficient": lambda it: NotEfficient(*it.start, it.amount("sum"), it.amount("total")),
    "core point": lambda it: CorePoint(*it.start, it.shares()),
    "empty core": Reader.empty_core,
    "shapley": lambda it: Shapley(*it.start, it.shares()),
    "bird": lambda it: Bird(*it.start, it.shares(), it.links()),
    "convex": lambda it: Convex(*it.start, it.shares("shapley"), it.shares("marginal")),
    "not convex": lambda it: NotConvex(
        *it.start, it.coalition(it.tree["set"]), it.name(it.tree["i"]), it.name(it.tree["j"]), it.amount("deficit")
    ),
    "prekernel": lambda it: InPrekernel(*it.start),
    "not prekernel": lambda it: NotInPrekernel(
        *it.start, it.name(it.tree["i"]), it.name(it.tree["j"]), it.amount("ij"), it.amount("ji")
    ),
    "matching": Reader.matching,
}
READERS["prenucleolus"] = READERS["nucleolus"]


def answer_of(line: str, status: int, game: Game) -> Answer:
    """The answer of a line that came with status 0 or 1."""
    reader = Reader(line, status, game)
    return READERS[reader.tree["answer"]](reader)
