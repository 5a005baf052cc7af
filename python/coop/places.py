"""What may move of a game, and where it stands: what a group of a table is worth or costs; what a landing costs; a
claim, or the estate; the cost of a link; what a pair is worth. Of a vote it is a number of its table."""
from __future__ import annotations

from fractions import Fraction
from itertools import combinations
from typing import Any, Mapping, Union

from .amounts import Amount, fraction_of
from .errors import BadInput
from .game import LISTS, SINGLE, Game, require_game
from .games import members_of, player_of
from .masks import mask_of, members
from .names import row_of
from .variants import table_of_game

Place = tuple[int, int]
"""Where a number stands: a group's mask, a player or a row; and the column, or -1 for the estate."""

What = Union[str, int, tuple[Any, ...], list[Any], set[Any], frozenset[Any], Mapping[Any, Amount]]
"""What moves: a number, as `what_moves` names them; or several, each with its rate."""

CLASSES = {
    "airport": ("cost", '("cost", name), or the name alone'),
    "bankruptcy": ("claim", '"estate", or ("claim", name), or the name alone'),
    "tree": ("link", '("link", name, name), where "source" is the source'),
    "assignment": ("pair", '("pair", buyer, seller)'),
}
"""The first word of a number of a class, and how it is named."""

JUMPS = "; of a vote name a group: who wins jumps with votes and the quota, and stays the same between"


def what_moves(game: Game) -> list[tuple[str, ...]]:
    """The numbers of a game that may move, each by the names under which it is asked for."""
    game = movable(game)
    if game.is_table:
        places = [(group, 0) for group in range(1, game.everyone + 1)]
    elif game.kind in LISTS:
        places = [*[(-1, -1)] * (game.kind in SINGLE), *((i, 0) for i in range(game.n))]
    elif game.kind == "tree":
        places = list(combinations(range(game.n + 1), 2))
    else:
        places = [(i, j) for i, row in enumerate(game.rows) for j, _ in enumerate(row)]
    return [names_of(game, place) for place in places]


def names_of(game: Game, place: Place) -> tuple[str, ...]:
    """The names under which the number at a place is asked for."""
    (i, j), names = place, game.names
    if game.is_table:
        return tuple(names[k] for k in members(i))
    word, _ = CLASSES[game.kind]
    if game.kind in LISTS:
        return (word, names[i]) if j == 0 else ("estate",)
    if game.kind == "tree":
        points = ["source", *names]
        return word, points[i], points[j]
    return word, names[i], names[len(game.rows) + j]


def movable(game: Game) -> Game:
    """The game whose numbers move: of a vote the table of who wins, and of a market what its groups are worth."""
    require_game(game)
    if game.kind == "market":
        return Game({**game.tree, "class": "assignment"}, game.factor)
    return table_of_game(game) if game.kind == "voting" else game


def rates_of(game: Game, what: What) -> dict[Place, Fraction]:
    """The rates of the numbers that move, by their places."""
    rates: dict[Place, Fraction] = {}
    for item, rate in what.items() if isinstance(what, Mapping) else [(what, 1)]:
        for place in places_of(game, item):
            if place in rates:
                raise BadInput(f"{item!r} is a number that was named before")
            rates[place] = fraction_of(rate)
    if not any(rates.values()):
        raise BadInput("nothing moves: all rates are 0")
    return rates


def places_of(game: Game, what: Any) -> list[Place]:
    """The places of what is named: of an airline or a type those of all its landings."""
    if game.is_table:
        return [(group_of(game, what), 0)]
    word, told = CLASSES[game.kind]
    parts = tuple(what) if isinstance(what, (tuple, list)) else (what,)
    if game.kind in SINGLE and parts == ("estate",):
        return [(-1, -1)]
    if len(parts) == 1 and game.kind in LISTS:
        parts = (word, *parts)
    if parts[:1] != (word,) or len(parts) != (2 if game.kind in LISTS else 3):
        raise BadInput(f"{what!r} is no number of such a game: name {told}")
    if game.kind in LISTS:
        return [(i, 0) for i in owned_by(game, parts[1])]
    if game.kind == "tree":
        i, j = sorted(point_of(game, part) for part in parts[1:])
        if i == j:
            raise BadInput(f"{what!r} is no link: it needs two ends")
        return [(i, j)]
    buyer, seller = (player_of(part, game.names) for part in parts[1:])
    buyers = len(game.rows)
    if not buyer < buyers <= seller:
        raise BadInput(f"{what!r} is no pair of a buyer and a seller")
    return [(buyer, seller - buyers)]


def group_of(game: Game, what: Any) -> int:
    some = members_of(what)
    group = mask_of(player_of(member, game.names) for member in some)
    if not group:
        raise BadInput("the empty group has no number")
    if len(members(group)) < len(some):
        raise BadInput(f"a member of {what!r} is there twice")
    return group


def owned_by(game: Game, name: Any) -> list[int]:
    """A player; or all landings of an airline or a type, whose names differ by the number behind."""
    own = [i for i, other in enumerate(game.names) if row_of(other) == str(name) != other]
    if game.kind == "airport" and own and str(name) not in game.names:
        return own
    return [player_of(name, game.names)]


def point_of(game: Game, name: Any) -> int:
    """A point of a network; 0 is the source."""
    if str(name) not in game.names and str(name) in ("source", "0"):
        return 0
    return player_of(name, game.names) + 1


def told(game: Game, place: Place) -> str:
    """What stands at a place of a class, in words."""
    word, *some = names_of(game, place)
    return f"the {word} of {' and '.join(some)}" if some else f"the {word}"
