"""The game of a document, and what its groups are worth. A cost is a negative worth here."""
from __future__ import annotations

import json
import re
from fractions import Fraction
from typing import Any, Optional

from . import shown
from .amounts import exact
from .classes import CLASSES, keys_of
from .errors import BadInput
from .masks import mask_of, members
from .matching import best_matching

COSTS = tuple(kind for kind, row in CLASSES.items() if row["costs"])
TABLES = tuple(kind for kind, row in CLASSES.items() if "players" in row["keys"])
KINDS = {
    "table": "a table of worths",
    "cost-table": "a table of costs",
    "airport": "an airport",
    "bankruptcy": "an estate",
    "tree": "a network",
    "assignment": "a market",
    "market": "a market",
    "voting": "a vote",
}
LISTS, SINGLE = keys_of("list"), keys_of("single")
MOST_IN_A_TABLE: int = CLASSES["table"]["players"][1]
LEAST = 2**63  # of integers; minus it is the least one
FRACTION = re.compile("-?[0-9]{1,39}(/[1-9][0-9]{0,38})?")
WRITER = json.JSONEncoder(ensure_ascii=False, separators=(",", ":"))


def encoded(text: str, what: str) -> bytes:
    """The bytes of a text, which has no half of a character."""
    try:
        return text.encode()
    except UnicodeEncodeError:
        raise BadInput(f"{what} has half of a character, such as \\ud800") from None


def number(tree: Any, what: str) -> Fraction:
    """The value of an integer or a fraction text."""
    if type(tree) is int and not -LEAST <= tree < LEAST:
        raise BadInput(f"{what}: an integer has more than 64 bits")
    if type(tree) is int:
        return Fraction(tree)
    if type(tree) is str and FRACTION.fullmatch(tree):
        return exact(tree)
    told = json.dumps(tree, default=str)[:40]
    raise BadInput(f'{what}: {told} is no integer, nor, with "version":2, a fraction text')


def array(tree: Any, what: str) -> list[Any]:
    if type(tree) is not list:
        raise BadInput(f"{what} isn't an array")
    return tree


def numbers(tree: Any, what: str) -> list[Fraction]:
    return [number(item, what) for item in array(tree, what)]


class Game:
    """The game of a document. `amounts` has its numbers, all worths or costs of a table by their masks; `rows` has its
    matrix, and `single` its estate or quota. The document's numbers are the game's own times `factor`: 1, unless a
    document can't hold them."""

    kind: str
    n: int
    names: list[str]
    amounts: list[Fraction]
    rows: list[list[Fraction]]
    single: Fraction

    def __init__(self, tree: Any, factor: int = 1):
        if type(tree) is not dict:
            raise BadInput("the game isn't an object")
        kind = tree.get("class")
        if type(kind) is not str or kind not in KINDS:
            raise BadInput(f"the class of the game isn't one of {', '.join(KINDS)}")
        self.tree: dict[str, Any] = tree
        self.kind, self.factor = kind, factor
        self.costs, self.per_head = kind in COSTS, tree.get("excess") == "per-head"
        self.sign = -1 if self.costs else 1  # of a cost, which is a negative worth
        self.is_table = kind in TABLES
        self.n = self.count_players(tree)
        self.everyone = 2**self.n - 1
        self.named = "names" in tree
        self.names = self.read_names(tree)
        if self.is_table:
            self.amounts = self.read_table(tree)

    def __repr__(self) -> str:
        return f"Game({self.tree!r})" if self.factor == 1 else f"Game({self.tree!r}, {self.factor})"

    def __eq__(self, other: object) -> bool:
        """Whether both have the same document, over the same factor."""
        return isinstance(other, Game) and (self.tree, self.factor) == (other.tree, other.factor)

    def __hash__(self) -> int:
        return hash((self.kind, self.n, *self.names))

    def _repr_html_(self) -> str:
        return str(shown.makers["game"](self))

    @property
    def own_names(self) -> Optional[list[str]]:
        """The names that the document has, if it has any."""
        return self.names if self.named else None

    def count_players(self, tree: dict[str, Any]) -> int:
        """The number of players, with the numbers of the game unless it is a table."""
        if self.is_table:
            n = tree.get("players")
        elif self.kind in LISTS:
            self.amounts = numbers(self.value(tree, LISTS[self.kind]), LISTS[self.kind])
            n = len(self.amounts)
            if self.kind in SINGLE:
                self.single = number(self.value(tree, SINGLE[self.kind]), SINGLE[self.kind])
        else:
            self.rows = self.read_matrix(tree)
            n = len(self.rows) - 1 if self.kind == "tree" else len(self.rows) + len(self.rows[0])
        if type(n) is not int or not 1 <= n <= (MOST_IN_A_TABLE if self.is_table else 64):
            raise BadInput("the game doesn't have 1 to 64 players, or the table 1 to 16")
        return n

    def value(self, tree: dict[str, Any], key: str) -> Any:
        if key not in tree:
            raise BadInput(f"a game of class {self.kind} needs the key {key}")
        return tree[key]

    def read_matrix(self, tree: dict[str, Any]) -> list[list[Fraction]]:
        rows = [numbers(row, "a row of the matrix") for row in array(self.value(tree, "matrix"), "the matrix")]
        widths = {len(row) for row in rows}
        if len(widths) != 1 or widths == {0}:
            raise BadInput("the matrix has no row, an empty row, or rows of different lengths")
        if self.kind == "tree" and widths != {len(rows)}:
            raise BadInput("the matrix of a network isn't square")
        return rows

    def read_names(self, tree: dict[str, Any]) -> list[str]:
        """The names; where the document has none, they are the numbers from 1."""
        names = array(tree.get("names", [str(i + 1) for i in range(self.n)]), "names")
        if len(names) != self.n or not all(type(name) is str and name for name in names):
            raise BadInput(f"names isn't an array of {self.n} texts")
        if len(set(names)) != self.n:
            raise BadInput("two names are alike")
        return names

    def read_table(self, tree: dict[str, Any]) -> list[Fraction]:
        if "worths" in tree:
            amounts = [Fraction(0)] + numbers(tree["worths"], "worths")
        else:
            amounts = [number(tree.get("default", 0), "default")] * 2**self.n
            amounts[0] = Fraction(0)
            for item in array(self.value(tree, "sparse"), "sparse"):
                if type(item) is not list or len(item) != 2:
                    raise BadInput("an item of sparse isn't a pair of a group and a number")
                players = {self.player(member) for member in array(item[0], "a group of sparse")}
                amounts[mask_of(players)] = number(item[1], "sparse")
        if len(amounts) != 2**self.n:
            raise BadInput(f"worths has {len(amounts) - 1} items instead of {2**self.n - 1}")
        return amounts

    def player(self, member: Any) -> int:
        """The player of a number from 1, or of a name."""
        if self.named and member in self.names:
            return self.names.index(member)
        if type(member) is int and 1 <= member <= self.n:
            return member - 1
        raise BadInput(f"{json.dumps(member, default=str)[:80]} isn't a player of the game")

    def all_numbers(self) -> list[Fraction]:
        single = [self.single] if self.kind in SINGLE else []
        return [entry for row in self.rows for entry in row] if hasattr(self, "rows") else [*self.amounts, *single]

    def title(self) -> str:
        return f"{KINDS[self.kind].capitalize()}: what each {'pays' if self.costs else 'gets'}"

    def whole(self) -> Fraction:
        """What all together are worth, or cost."""
        return self.sign * self.worth(self.everyone)

    def alone(self, i: int) -> Fraction:
        """What a player is worth, or costs, alone."""
        return self.sign * self.worth(1 << i)

    def worth(self, group: int) -> Fraction:
        """What the group is worth by itself; minus its cost where the numbers are costs."""
        if self.is_table:
            return self.sign * self.amounts[group]
        players = members(group)
        if self.kind == "airport":
            return -max((self.amounts[i] for i in players), default=Fraction(0))
        if self.kind == "bankruptcy":
            others = sum((self.amounts[i] for i in members(self.everyone - group)), Fraction(0))
            return max(Fraction(0), self.single - others)
        if self.kind == "voting":
            return Fraction(sum(self.amounts[i] for i in players) >= self.single)
        return -self.network(players) if self.kind == "tree" else self.trade(players)

    def network(self, players: list[int]) -> Fraction:
        """The least cost of a network that joins the players to the source."""
        cost, links = Fraction(0), {i + 1: self.rows[0][i + 1] for i in players}
        while links:
            new = min(links, key=links.__getitem__)
            cost += links.pop(new)
            links = {i: min(link, self.rows[new][i]) for i, link in links.items()}
        return cost

    def trade(self, players: list[int]) -> Fraction:
        """What buyers and sellers are worth together."""
        buyers = len(self.rows)
        sellers = [j - buyers for j in players if j >= buyers]
        return best_matching([[self.rows[i][j] for j in sellers] for i in players if i < buyers])

    def document(self, **others: Any) -> bytes:
        """The bytes of a document of this game, with other keys beside it, as `shares`."""
        return encoded(WRITER.encode({"game": self.tree, **others}), "a name")


def bytes_of(told: Any) -> bytes:
    """The bytes of a line or a document, which may be a text; of an answer's line, or of a game's document."""
    if isinstance(told, Game):
        return told.document()
    line = getattr(told, "line", told)
    if not isinstance(line, (str, bytes)):
        raise BadInput(f"{type(told).__name__} isn't a line, a document, an answer or a game")
    return encoded(line, "the line") if isinstance(line, str) else line


def require_table(players: int, asked: str = "") -> None:
    """Refuses so many players, unless a table has them."""
    if not 1 <= players <= MOST_IN_A_TABLE:
        raise BadInput(f"{players} players: a table has 1 to {MOST_IN_A_TABLE}{asked}")


def require_game(game: Any) -> None:
    if not isinstance(game, Game):
        raise BadInput(f"{type(game).__name__} isn't a game: make one, such as coop.airport({{..}})")
