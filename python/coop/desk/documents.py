"""Documents and lines: how they are read, and the shares and games in them."""
from __future__ import annotations

import json
import os
from codecs import BOM_UTF8
from dataclasses import dataclass, replace
from fractions import Fraction
from typing import Any, Iterable, Optional, Sequence

from ..errors import BadInput
from ..game import Game, numbers
from ..names import safe
from ..program import find
from ..telling import mailed, slips

NO_SHARES = 10  # the refusal of shares that aren't one for each player
MOST_BYTES = 1 << 26  # of a file: some documents of the 8 MB that the program takes
ANSWERS = {"shapley": "Shapley shares", "bird": "Bird's shares"}
KEYS = {
    "shapley": "Shapley shares",
    "marginal": "marginal shares",
    "buyers best": "best for buyers",
    "sellers best": "best for sellers",
}


@dataclass(frozen=True)
class Document:
    """An object of a file, with the file's name."""

    where: str
    tree: dict[str, Any]


@dataclass(frozen=True)
class Point:
    """Shares as they are written, under a name; for costs they are payments. `game` is that of their document. Of a
    change `between` has the shares before and after."""

    name: str
    shares: list[Fraction]
    game: Optional[Game] = None
    between: Optional[tuple[list[Fraction], list[Fraction]]] = None


# ---- Reading


def read_bytes(path: str) -> tuple[bytes, str]:
    """The bytes of a file, or of standard input where its name is -, and the name to call it by."""
    where = "standard input" if path == "-" else path
    try:
        with open(0 if path == "-" else path, "rb") as file:
            data = file.read(MOST_BYTES + 1)
    except OSError as fault:
        raise BadInput(f"{where}: {fault.strerror}") from None
    if len(data) > MOST_BYTES:
        raise BadInput(f"{where} has more than {MOST_BYTES} bytes")
    return data, where


def read_text(path: str, may_be_marked: bool = True) -> tuple[str, str]:
    """The text of a file, or of standard input, and its name. What the program reads too has no byte order mark."""
    data, where = read_bytes(path)
    if data.startswith(BOM_UTF8) and not may_be_marked:
        raise BadInput(
            f"{where} begins with a byte order mark, which bin/coop and check-anew refuse: save it as UTF-8 without one"
        )
    return decoded(data, where), where


def decoded(data: bytes, where: str) -> str:
    try:
        return data.decode("utf-8-sig")
    except UnicodeError:
        raise BadInput(f"{where} isn't UTF-8: save it as UTF-8 (in Excel, choose CSV UTF-8)") from None


def once(pairs: list[tuple[str, Any]]) -> dict[str, Any]:
    """An object of which each key stands once."""
    tree = dict(pairs)
    if len(tree) < len(pairs):
        keys = [key for key, _ in pairs]
        twice = next(key for key in keys if keys.count(key) > 1)
        raise BadInput(f"the key {json.dumps(twice)[:80]} is given twice in one object: only the last one would count")
    return tree


def parse(text: str, where: str) -> list[Any]:
    """The JSON values of a text, one or more, one behind the other."""
    decoder, trees, rest = json.JSONDecoder(object_pairs_hook=once), [], text.strip()
    if not rest:
        raise BadInput(f"{where} is empty")
    while rest:
        try:
            tree, end = decoder.raw_decode(rest)
        except BadInput as fault:
            raise BadInput(f"{where}: {fault}") from None
        except (ValueError, RecursionError) as fault:
            raise BadInput(f"{where} isn't JSON: {fault}{mailed(text)}") from None
        trees.append(tree)
        rest = rest[end:].strip()
    return trees


def read_documents(paths: Sequence[str]) -> list[Document]:
    """The documents and lines of files, or of standard input."""
    found = []
    for path in paths or ["-"]:
        text, where = read_text(path)
        found += [Document(where, object_of(tree, where)) for tree in parse(text, where)]
    return found


def one_in(text: str, where: str, may_refuse: bool = False) -> dict[str, Any]:
    """The one document or line of a text."""
    trees = parse(text, where)
    if len(trees) != 1:
        raise BadInput(f"{where} has {len(trees)} documents: give a file with one")
    return object_of(trees[0], where, may_refuse)


def object_of(tree: Any, where: str, may_refuse: bool = False) -> dict[str, Any]:
    """The object that a document or a line is, and no refusal, unless it may be one."""
    if type(tree) is not dict:
        raise BadInput(f"{where} isn't a document or a line: it isn't a JSON object")
    if not may_refuse and ("refused" in tree or "usage" in tree):
        raise BadInput(f"{where}: the program answered {json.dumps(tree)}")
    return tree


def game_in(path: str) -> Game:
    """The game of the one document of a file, which has no byte order mark, and which the program wouldn't refuse."""
    text, where = read_text(path, may_be_marked=False)
    tree = one_in(text, where)
    if "game" not in tree:
        raise BadInput(f"{where} has no game")
    require_read(tree["game"], where)
    return Game(tree["game"])


def require_read(game: Any, where: str) -> None:
    """Refuses a game that the program refuses. Shares for nobody are refused too, but behind all that is wrong with a
    game; of a market nothing but its trades is asked."""
    is_market = type(game) is dict and game.get("class") == "market"
    command, tree = ("matching", {"game": game}) if is_market else ("propose", {"game": game, "shares": []})
    document = json.dumps(tree, ensure_ascii=False).encode("utf-8", "surrogatepass")
    status, line = find().run([command], document)
    found = json.loads(line) if status == 3 else {"number": NO_SHARES}
    if found["number"] != NO_SHARES:
        slip, _ = slips(document, command)
        raise BadInput(f"{where}: the program refuses it, {found['number']} {found['refused']}, at {slip}")


# ---- Games


def without_measure(game: Game) -> dict[str, Any]:
    """The tree of a game but for its measure."""
    return {key: value for key, value in game.tree.items() if key != "excess"}


def are_one(games: Iterable[Game]) -> bool:
    """Whether games differ in their measure at most."""
    trees = [without_measure(game) for game in games]
    return all(tree == trees[0] for tree in trees)


def games_of(points: Iterable[Point]) -> list[Game]:
    """The games of some points, of which one has to have a game."""
    games = [point.game for point in points if point.game]
    if not games:
        raise BadInput("no game: give the document too")
    return games


def games_in(documents: Iterable[Document], may_leave: bool = False) -> list[tuple[Document, Game]]:
    """The games of the documents. All have the same players, unless some with names may have left; they may differ in
    their numbers and their measure."""
    games = [(document, Game(document.tree["game"])) for document in documents if "game" in document.tree]
    for document, game in games:
        first = games[0]
        named = may_leave and game.named and first[1].named
        if game.names != first[1].names and not named or game.costs != first[1].costs:
            raise BadInput(f"{document.where}: {unlike(game, first[1], named)} {first[0].where}")
    return games


def unlike(game: Game, first: Game, may_differ: bool) -> str:
    """In what a game of other players, unless they may differ, or of costs beside worths, isn't like a first one."""
    if game.n == first.n and game.named != first.named:
        return "the players have " + ("names, and none" if game.named else "no names, but some") + " in"
    if game.names != first.names and not may_differ:
        return "other players than those of"
    return ("costs, but worths" if game.costs else "worths, but costs") + " in"


# ---- Shares


def points_in(documents: Sequence[Document], may_leave: bool = False) -> list[Point]:
    """The shares of the documents, as they are written there. Of several games each point is named by its game too.
    Where some may have left, the players of the games may differ, if they have names."""
    games = games_in(documents, may_leave)
    points = []
    for document in documents:
        own = next((game for other, game in games if other is document), None)
        for name, shares in shares_in(document):
            game = own or only_game(document, games)
            points.append((document, Point(name, shares, game)))
    if not points:
        raise BadInput("no shares: give a line that has them, or a document with a proposal")
    for _, point in points:
        players = point.game.n if point.game else len(points[0][1].shares)
        if len(point.shares) != players:
            raise BadInput(f"{point.name}: {len(point.shares)} shares for {players} players")
    return numbered(labelled(points))


def has_shares(documents: Sequence[Document]) -> bool:
    return any(key in document.tree for document in documents for key in ("shares", *KEYS))


def shares_in(document: Document) -> Iterable[tuple[str, list[Fraction]]]:
    if "shares" in document.tree:
        answer = str(document.tree.get("answer", "proposal"))
        yield safe(ANSWERS.get(answer, answer)), numbers(document.tree["shares"], f"{document.where}: shares")
    for key, name in KEYS.items():
        if key in document.tree:
            yield name, numbers(document.tree[key], f"{document.where}: {key}")


def only_game(document: Document, games: list[tuple[Document, Game]]) -> Optional[Game]:
    """The game of a document without one: that of all the others."""
    if not are_one(game for _, game in games):
        raise BadInput(f"{document.where} has shares but no game, and the other documents have several games")
    return games[0][1] if games else None


def labelled(points: list[tuple[Document, Point]]) -> list[Point]:
    """The points, a nucleolus per head under that name; where games differ, with the file behind the name."""
    several = not are_one(point.game for _, point in points if point.game)
    short = short_names({document.where for document, _ in points})
    result = []
    for document, point in points:
        game = point.game
        name = rule_of(point.name, game) if game else point.name
        if several and len(short) > 1:
            name += f", {safe(short[document.where])}"
        result.append(replace(point, name=name))
    return result


def rule_of(answer: str, game: Game) -> str:
    """The name of a rule: that of a nucleolus by excess per head says so."""
    return f"{answer} per head" if game.per_head and answer in ("nucleolus", "prenucleolus") else answer


def short_names(paths: Iterable[str]) -> dict[str, str]:
    """The last parts of some paths, where these differ, and else the whole ones."""
    short = {path: os.path.basename(path) for path in paths}
    return short if len(set(short.values())) == len(short) else {path: path for path in short}


def numbered(points: list[Point]) -> list[Point]:
    """The points; of several with one name each gets a number behind it."""
    names = [point.name for point in points]
    counted = [f" {names[:k + 1].count(name)}" * (names.count(name) > 1) for k, name in enumerate(names)]
    return [replace(point, name=point.name + number) for point, number in zip(points, counted)]
