"""Random games of each class: for all tools that try games of any class."""
from __future__ import annotations

import os
import sys
from collections.abc import Callable
from fractions import Fraction
from random import Random
from typing import Any, Union

from program import TOP

sys.path.insert(0, os.path.join(TOP, "python"))
from coop.classes import CLASSES, LIMITS

NAMES = [
    "ann", "bob", "cem", "dan", "ü", "ёж", "e\u0301", "é", "1", "2", "", "x" * 64, "x" * 65, "ü" * 32, "ü" * 33,
    "a\nb", "\u202eabc", "\u200b", "A", "a", "__proto__", "constructor", "toString", "\U0001f600", "\x00", "\ufeff",
    "-0", '"', "\\",
]

Tree = dict[str, Any]
Number = Union[int, str]
Maker = Callable[[Random, int, int, bool], Tree]
"""The numbers of a game of so many players, up to a greatest one, with fractions or without."""


def number(draw: Random, low: int, high: int, fine: bool) -> Number:
    """An integer, or a fraction as a text."""
    if fine and draw.random() < 0.5:
        value = Fraction(draw.randint(low * 6, high * 6), draw.choice([2, 3, 4, 5, 6, 7, 12, 16]))
        return value.numerator if value.denominator == 1 else str(value)
    return draw.randint(low, high)


def members(group: int) -> list[int]:
    """The players of a mask, from 1."""
    return [i + 1 for i in range(group.bit_length()) if group >> i & 1]


def table(draw: Random, n: int, high: int, fine: bool) -> Tree:
    """A table by worths, mostly with the most for all together; or by groups."""
    if draw.random() < 0.5:
        worths = [number(draw, 0, high, fine) for _ in range(2**n - 1)]
        if worths and draw.random() < 0.6:
            worths[-1] = number(draw, high, min(high * n, 2**40 - 1), fine)
        return {"players": n, "worths": worths}
    low = [-high if draw.random() < 0.2 else 0 for _ in range(2**n)]
    groups = [group for group in range(1, 2**n) if draw.random() < 0.6]
    sparse = [[members(group), number(draw, low[group], high, fine)] for group in groups]
    return {"players": n, "sparse": sparse, **({"default": number(draw, 0, high, fine)} if draw.random() < 0.5 else {})}


def runway(draw: Random, n: int, high: int, fine: bool) -> Tree:
    """The costs of landings."""
    return {"costs": [number(draw, 0, high, fine) for _ in range(n)]}


def estate(draw: Random, n: int, high: int, fine: bool) -> Tree:
    """Claims on an estate."""
    claims = [number(draw, 0, high, fine) for _ in range(n)]
    return {"claims": claims, "estate": int(sum(map(Fraction, claims)) * draw.randint(0, 12) / 12)}


def network(draw: Random, n: int, high: int, fine: bool) -> Tree:
    """The links of a network."""
    matrix: list[list[Number]] = [[0] * (n + 1) for _ in range(n + 1)]
    for i in range(n + 1):
        for j in range(i):
            matrix[i][j] = matrix[j][i] = number(draw, 0, high, fine)
    return {"matrix": matrix}


def pairs(draw: Random, n: int, high: int, fine: bool) -> Tree:
    """Buyers and sellers, as many of each as may be."""
    side = CLASSES["market"]["side"]
    buyers = draw.randint(min(max(1, n - side), n // 2), max(n // 2, min(n - 1, side)))
    return {"matrix": [[number(draw, 0, high, fine) for _ in range(n - buyers)] for _ in range(buyers)]}


def votes(draw: Random, n: int, high: int, fine: bool) -> Tree:
    """Weights that add to no more than may be, and a quota."""
    weights = [draw.randint(0, min(high, LIMITS["votes"] // (n or 1))) for _ in range(n)]
    weights[:1] = [weight + (not sum(weights)) for weight in weights[:1]]
    return {"weights": weights, "quota": draw.randint(1, sum(weights) or 1)}


MAKERS: dict[str, Maker] = {
    "table": table, "cost-table": table, "airport": runway, "bankruptcy": estate, "tree": network, "assignment": pairs,
    "market": pairs, "voting": votes,
}
if MAKERS.keys() != CLASSES.keys():
    sys.exit(f"tools/lib/games.py: the classes without games, or without a row: {MAKERS.keys() ^ CLASSES.keys()}")


def game_of(kind: str, n: int, draw: Random, high: int = 9, fine: bool = False) -> Tree:
    """A game of a class, of so many players."""
    return {"class": kind, **MAKERS[kind](draw, n, high, fine), **({"version": 2} if fine else {})}


def some_game(draw: Random) -> Tree:
    """A random game, mostly small, which the program mostly reads."""
    kind, is_fine = draw.choice([kind for kind in CLASSES if kind != "market"]), draw.random() < 0.3
    n = draw.choice([1, 2, 2, 3, 3, 3, 4, 4, 4, 5, 5, 6]) if draw.random() < 0.97 else draw.randint(7, 9)
    least, most = CLASSES[kind]["players"]
    if kind in ("airport", "bankruptcy") and draw.random() < 0.2:
        n, is_fine = draw.choice([7, 8, draw.randint(17, most)]), False
    high = draw.choice([1, 2, 3, 5, 10, 100, 2**20, 2**30])
    game = game_of(kind, max(n, least), draw, high, is_fine)
    if draw.random() < 0.1:
        game["version"] = 2
    if draw.random() < 0.35 and n <= 6:
        game["excess"] = draw.choice(["per-head", "per-head", "plain"])
    if draw.random() < 0.3:
        name(draw, game, max(n, least))
    return game


def name(draw: Random, game: Tree, n: int) -> None:
    """Puts names into a game, and into some of its groups."""
    names = draw.sample([name for name in NAMES if 0 < len(name.encode()) <= 64], min(n, 10))
    game["names"] = names + [f"p{i}" for i in range(n - len(names))]
    for item in game.get("sparse", []):
        item[0] = [game["names"][i - 1] if draw.random() < 0.5 else i for i in item[0]]
        draw.shuffle(item[0])


def halved(game: Tree) -> Tree:
    """The game in version 2, with half of each number; of votes, which have no fractions, the version alone."""

    def half(number: Any) -> Any:
        if isinstance(number, list):
            return [half(item) for item in number]
        value = Fraction(number, 2)
        return value.numerator if value.denominator == 1 else str(value)

    game = dict(game, version=2)
    for key in {"worths", "default", "costs", "claims", "estate", "matrix"} & set(game):
        game[key] = half(game[key])
    if "sparse" in game:
        game["sparse"] = [[coalition, half(number)] for coalition, number in game["sparse"]]
    return game
