"""Shares as a picture: the triangle of three players, or bars. The page's modules draw it, under Node."""
from __future__ import annotations

import json
from typing import Iterable, Sequence, Union

from .. import telling
from ..answers import Answer
from ..calls import bytes_now
from ..errors import BadInput
from ..game import WRITER, Game
from ..styles import EXACT, Style
from .documents import Document, Point, are_one, decoded, games_in, games_of, numbered, one_in, points_in, rule_of
from .documents import shares_in
from .over import as_given, divided

Drawn = Union[Point, Answer, str, bytes]
"""What has shares to draw: a point, an answer, or the text or the bytes of a line."""


def core_alone(documents: Sequence[Document], title: str = "", style: Style = EXACT) -> str:
    """The triangle with the core and no point, of documents of one game of three players."""
    games = [game for _, game in games_in(documents)]
    if not games or games[0].n != 3:
        raise BadInput("no shares: give a line or a document that has them; for three players a game is enough")
    if not are_one(games):
        raise BadInput("no shares, and several games: a picture of only the core needs one game")
    return drawn(games[0], [], title, style)


def picture(
    points: Union[Drawn, Sequence[Drawn]],
    *,
    wants_bars: bool = False,
    title: str = "",
    style: Style = EXACT,
    with_added: bool = True,
) -> str:
    """Returns the picture of an answer or a line, or of several, as an SVG. Of several games the marks are those of the
    first, and there are bars. Bars have marks at what each adds to all others, or none where these numbers aren't
    known."""
    own = numbered(list(points_of(points)))
    games = games_of(own)
    return drawn(games[0], own, title, style, wants_bars or not are_one(games), with_added)


def points_of(given: Union[Drawn, Sequence[Drawn]]) -> Iterable[Point]:
    """The points of what is drawn. What has no shares is refused."""
    if not isinstance(given, Iterable) and not isinstance(given, Answer):
        raise BadInput(f"{type(given).__name__} isn't an answer or a line, nor a list of them")
    for one in [given] if isinstance(given, (Answer, str, bytes)) else given:
        if isinstance(one, Point):
            yield one
        elif isinstance(one, Answer):
            yield from points_of_answer(one)
        elif isinstance(one, (str, bytes)):
            text = one if isinstance(one, str) else decoded(one, "the line")
            yield from points_in([Document("the line", one_in(text, "the line"))])
        else:
            raise BadInput(f"{type(one).__name__} isn't an answer or a line")


def points_of_answer(answer: Answer) -> list[Point]:
    """The shares of an answer that has some, in the unit of its game as it was given."""
    points = shares_now(answer)
    if not points:
        raise BadInput(f"{type(answer).__name__} has no shares to draw")
    return points


def shares_now(answer: Answer) -> list[Point]:
    """The shares that an answer has now, by the names of their rules; none where it has none."""
    tree, game = divided(json.loads(bytes_now(answer)), answer.game.factor), as_given(answer.game)
    return [Point(rule_of(name, game), shares, game) for name, shares in shares_in(Document("", tree))]


def drawn(
    game: Game, points: Sequence[Point], title: str, style: Style, wants_bars: bool = False, with_added: bool = True
) -> str:
    about = {
        "points": [[point.name, [str(share) for share in point.shares]] for point in points],
        "title": title or game.title(),
        "wantsBars": wants_bars,
        "hasAdded": with_added,
    }
    return str(telling.of_game("picture", WRITER.encode(game.tree), about, style.spelling())["svg"])
