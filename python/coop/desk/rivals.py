"""Rules side by side, as a table with sentences, which the page's modules tell under Node, and as CSV."""
from __future__ import annotations

from typing import Sequence

from .. import telling
from ..game import WRITER, Game
from ..names import safe
from ..styles import Style, column
from ..versus import Row
from .cells import PLAIN, Cells, csv_text
from .prose import filled
from .tables import aligned, lines_of

MOST_COLUMNS = 4  # of a table on paper


def told(game: Game, rows: Sequence[Row], say: Style) -> str:
    """Tables of some rules each, what the program says of their divisions, and which rules have none."""
    some = [row for row in rows if row.shares is not None]
    parts = [table(game, some[k : k + MOST_COLUMNS], say) for k in range(0, len(some), MOST_COLUMNS)]
    lacking = [f"By {row.rule} there is no division: {row.reason}." for row in rows if row.reason]
    sentences = [*verdicts(game, some, say), *lacking]
    return "\n".join([*parts, "".join(filled(sentence) + "\n" for sentence in sentences)])


def table(game: Game, rows: Sequence[Row], say: Style) -> str:
    """The names, and the shares by each of some rules that have them."""
    names = ["", *(line.name for line in lines_of(game.names))]
    columns = [[row.rule, *column([(row.shares or {})[name] for name in game.names], say)] for row in rows]
    return aligned(list(zip(names, *columns)))


def verdicts(game: Game, rows: Sequence[Row], say: Style) -> list[str]:
    """By which rules no group could do better by itself; and by which which group could by the most."""
    told = []
    for row in rows:
        leaving = None if row.leaving is None else [game.names.index(name) for name in row.leaving]
        told.append({"rule": row.rule, "leaving": leaving, "by": str(row.by), "isProved": row.is_proved})
    found = telling.of_game("rules", WRITER.encode(game.tree), {"rows": told}, say.spelling())
    return list(found["sentences"])


def csv(game: Game, rows: Sequence[Row], say: Style, cells: Cells = PLAIN) -> str:
    """A line for each rule and player: the rule, the player, the share; and on each the group that could do better by
    the most, and by how much, or the reason why the rule has no shares."""
    head = ["rule", "player", "share" + (f", {say.unit}" if say.unit else ""), "leaving", "by", "reason"]
    lines = [head]
    for row in rows:
        leaving = "+".join(row.leaving or ())
        by = "" if row.by is None else cells.number(row.by, say)
        for name in game.names:
            share = "" if row.shares is None else cells.number(row.shares[name], say)
            lines.append([row.rule, safe(name), share, safe(leaving), by, row.reason])
    return csv_text(lines, cells)
