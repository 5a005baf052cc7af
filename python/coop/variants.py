"""Games beside a game: without some players, and after an overrun."""
from __future__ import annotations

from fractions import Fraction
from typing import Any, Iterable, Optional

from .amounts import Amount, fraction_of
from .errors import BadInput
from .game import LISTS, Game, require_game, require_table
from .games import made, player_of
from .masks import mask_of, members


def without(game: Game, leaving: Iterable[Any]) -> Game:
    """The game of those who stay: each of their groups is worth, or costs, what it was."""
    if isinstance(leaving, str) or not isinstance(leaving, Iterable):
        raise BadInput(f"{leaving!r} isn't a list of names: write [{leaving!r}]")
    require_game(game)
    left = {player_of(name, game.names) for name in leaving}
    stay = [i for i in range(game.n) if i not in left]
    if not stay:
        raise BadInput("no player stays")
    names = [game.names[i] for i in stay] if game.named else None
    return made_of(game, game.kind, parts_of(game, stay), names, game.per_head)


def made_of(game: Game, kind: str, parts: dict[str, Any], names: Optional[list[str]], per_head: bool) -> Game:
    """A game of numbers that are those of the document of another game: its own are these by its factor."""
    own = {key: part if key == "players" else divided(part, game.factor) for key, part in parts.items()}
    return made(kind, own, names, per_head)


def divided(part: Any, factor: int) -> Any:
    return [divided(item, factor) for item in part] if isinstance(part, list) else part / factor


def parts_of(game: Game, stay: list[int]) -> dict[str, Any]:
    if game.is_table:
        groups = (mask_of(stay[k] for k in members(group)) for group in range(1, 2 ** len(stay)))
        return {"players": len(stay), "worths": [game.amounts[group] for group in groups]}
    if game.kind in LISTS:
        return {LISTS[game.kind]: [game.amounts[i] for i in stay], **single_of(game, stay)}
    if game.kind == "tree":
        points = [0, *(i + 1 for i in stay)]
        return {"matrix": [[game.rows[i][j] for j in points] for i in points]}
    buyers = len(game.rows)
    rows = [[game.rows[i][j - buyers] for j in stay if j >= buyers] for i in stay if i < buyers]
    if not rows or not rows[0]:
        raise BadInput("a market needs a buyer and a seller")
    return {"matrix": rows}


def single_of(game: Game, stay: list[int]) -> dict[str, Any]:
    """The quota; or of the estate what the claims of those who leave would leave."""
    if game.kind == "voting":
        return {"quota": game.single}
    if game.kind == "bankruptcy":
        left = game.single - sum(game.amounts[i] for i in range(game.n) if i not in stay)
        return {"estate": max(Fraction(0), left)}
    return {}


def table_of_game(game: Game) -> Game:
    """The table of what each group is worth, or costs, in a game of any class, of at most 16 players."""
    require_game(game)
    require_table(game.n)
    worths = [game.sign * game.worth(group) for group in range(1, game.everyone + 1)]
    parts = {"players": game.n, "worths": worths}
    return made_of(game, "cost-table" if game.costs else "table", parts, game.own_names, game.per_head)


def overrun(game: Game, amount: Amount, per_head: bool = False) -> Game:
    """A table of which all together cost, or are worth, so much more, and every smaller group what it was. Of another
    class it is that of its groups, of which the rule of the class says no more what all together cost."""
    require_game(game)
    table = game if game.is_table else table_of_game(game)
    worths = [*table.amounts[1:-1], table.amounts[-1] + fraction_of(amount) * table.factor]
    parts = {"players": game.n, "worths": worths}
    return made_of(table, table.kind, parts, game.own_names, per_head or game.per_head)
