"""What notebooks show of a game and of an answer, as HTML; and shares as a Series of pandas.

An answer with shares is a table, and a picture where there is Node; every other is told in the sentences of `reasons`,
and without Node it is the program's line.
"""
from __future__ import annotations

import html
import json
from fractions import Fraction
from importlib import import_module
from typing import TYPE_CHECKING, Any, Iterable, Sequence

from ..amounts import digits_of
from ..errors import BadInput, Fault, NotFound
from ..game import KINDS, LISTS, TABLES, Game
from ..masks import members
from ..names import apart, safe
from ..styles import EXACT, Style, column, rounded
from .documents import Point
from .over import as_given
from .pictures import picture, shares_now
from .reasons import parts_of

if TYPE_CHECKING:
    from ..answers import Answer

MOST_DRAWN = 12  # players of a picture
MOST_GROUPS = 31  # rows of a table of groups
MOST_ROWS = 64
AMOUNTS = {"airport": "needs alone", "bankruptcy": "claims", "voting": "votes"}


def of_answer(answer: Answer) -> str:
    points = shares_now(answer)
    if points:
        return "\n".join(map(with_table, points)) + drawn(as_given(answer.game), points)
    has_game = json.loads(answer.line)["answer"] not in ("yes", "no")
    document = answer.game.document() if has_game else None
    try:
        parts = parts_of(answer.line.encode(), document, EXACT, over=answer.game.factor if has_game else 1)[0]
    except (Fault, NotFound):
        return f"<pre>{text(answer.line.strip())}</pre>"
    return "\n".join(map(paragraph, parts))


def text(words: str) -> str:
    return html.escape(safe(words))


def paragraph(part: dict[str, Any]) -> str:
    """A part of what is told, with a list where it has items."""
    items = "".join(f"<li>{text(item['label'])}</li>" for item in part["items"])
    last = f"<p>{text(part['last'])}</p>" if part.get("last") else ""
    return f"<p>{text(' '.join(part['sentences']))}</p>" + (f"<ul>{items}</ul>" if items else "") + last


def with_table(point: Point) -> str:
    """The shares of a point below its name: decimals that add up, and fractions."""
    assert point.game is not None
    verb, total = "pays" if point.game.costs else "gets", sum(point.shares, Fraction(0))
    cells = zip(
        [*(f"<bdi>{text(name)}</bdi>" for name in point.game.names), "together"],
        column(point.shares, Style(2)),
        map(str, [*point.shares, total]),
    )
    return f"<p><strong>{text(point.name)}</strong></p>" + table([verb, "exactly"], cells)


def table(heads: Sequence[str], rows: Iterable[Sequence[Any]]) -> str:
    """A table whose first column is of names."""
    head = "".join(f"<th>{head}</th>" for head in ["", *heads])
    body = "\n".join("<tr>" + "".join(f"<td>{cell}</td>" for cell in row) + "</tr>" for row in rows)
    return f"\n<table>\n<tr>{head}</tr>\n{body}\n</table>"


def drawn(game: Game, points: Sequence[Point]) -> str:
    """A picture of some points, where their game is small and there is Node. Changed shares may have no place in it."""
    if game.n > MOST_DRAWN or game.kind == "market":
        return ""
    try:
        found = picture(points, title=game.title(), style=EXACT)
    except (BadInput, Fault, NotFound):
        return ""
    return "\n" + found[found.index("<svg") :]


def of_game(game: Game) -> str:
    """A game as HTML: its class, and its numbers where they are few."""
    exact = as_given(game)
    measure = ", excess per head" * exact.per_head
    title = f"<p><strong>{html.escape(KINDS[exact.kind].capitalize())}</strong>, {exact.n} players{measure}</p>"
    if exact.kind in TABLES and exact.everyone <= MOST_GROUPS:
        groups = sorted(range(1, exact.everyone + 1), key=lambda group: (bin(group).count("1"), group))
        names = [" + ".join(exact.names[i] for i in members(group)) for group in groups]
        return title + rows("costs" if exact.costs else "is worth", names, [exact.amounts[group] for group in groups])
    if exact.kind in LISTS and exact.n <= MOST_ROWS:
        return title + rows(AMOUNTS[exact.kind], exact.names, exact.amounts)
    return title


def rows(heading: str, names: Sequence[str], amounts: Sequence[Fraction]) -> str:
    return table([heading], zip((html.escape(apart(name)) for name in names), amounts))


def series(shares: dict[str, Fraction], name: str, places: Any = None) -> Any:
    """A Series of fractions; or of floats of so many places, which add up as a table of shares does."""
    values: list[Any] = list(shares.values())
    if places is not None:
        places = digits_of(places)
        values = [step / 10**places for step in rounded(values, places)]
    pandas: Any = import_module("pandas")
    return pandas.Series(values, index=list(shares), name=name, dtype=object if places is None else float)
