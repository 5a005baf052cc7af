"""Games that papers on algorithms try, by families and seeds: the same game for the same words, on every machine.

    coop.families.game("III", 12, seed=1)

They are made as remembered from Derks and Kuipers 1997, Potters, Reijnierse and Ansink 1996, Nguyen and Thomas 2016,
and Benedek, Fliege and Nguyen 2021, in whole numbers; the papers' own instances aren't to be had. `KINDS` says what
each is.
"""
from __future__ import annotations

from random import Random
from typing import Callable

from .amounts import whole_of
from .errors import BadInput
from .game import MOST_IN_A_TABLE, Game
from .linear import sums

KINDS = {
    "I": "1 to 100 for each member of a group",
    "II": "1 to 50 n, whatever the group",
    "III": "1 to n: many ties",
    "IV": "1 for nine groups of ten, and else 0",
    "circle": "groups next to each other on a circle are worth something",
    "deficit": "the sum of what the members are worth, less 0 to 10",
    "votes": "a vote, weights to 60",
    "votes-ties": "a vote, weights to 4",
    "estate": "the table of an estate of six tenths of all claims",
    "squares": "the square of the sum of what the members weigh",
}
"""The families, and what groups of two and more are worth in each; n is the number of players."""


def game(kind: str, players: int, seed: int) -> Game:
    """A game of a family."""
    if not isinstance(kind, str) or kind not in KINDS:
        raise BadInput(f"{kind!r} is no family: name one of {', '.join(KINDS)}")
    count = whole_of(players)
    if count is None or not 3 <= count <= MOST_IN_A_TABLE:
        raise BadInput(f"{players} players: a family has 3 to {MOST_IN_A_TABLE}")
    players = count
    draw = Random(f"{kind} {players} {seed}")
    if kind in ("votes", "votes-ties"):
        weights = [draw.randint(1, 60 if kind == "votes" else 4) for _ in range(players)]
        return Game({"class": "voting", "quota": sum(weights) // 2 + 1, "weights": weights})
    return Game({"class": "table", "players": players, "worths": WORTHS[kind](draw, players)})


def drawn(draw: Random, n: int, worth: Callable[[int], int], least: int, most: int) -> list[int]:
    """Worths by the size of a group, 0 for a player alone; all together are worth something of their own."""
    found = [0 if group & group - 1 == 0 else worth(bin(group).count("1")) for group in range(1, 2**n - 1)]
    return [*found, draw.randint(least, most)]


def circle(draw: Random, n: int) -> list[int]:
    arcs = {
        sum(1 << (first + k) % n for k in range(size)): draw.randint(1, 20 * size)
        for first in range(n)
        for size in range(2, n)
    }
    return [*(arcs.get(group, 0) for group in range(1, 2**n - 1)), 20 * n]


def deficit(draw: Random, n: int) -> list[int]:
    totals = sums([draw.randint(50, 100) for _ in range(n)])
    return [*(total - draw.randint(0, 10) for total in totals[1:-1]), totals[-1]]


def estate(draw: Random, n: int) -> list[int]:
    totals = sums([draw.randint(1, 1000) for _ in range(n)])
    left = totals[-1] * 6 // 10 - totals[-1]
    return [max(0, left + total) for total in totals[1:]]


def squares(draw: Random, n: int) -> list[int]:
    """Squares of sums: a convex game."""
    return [total**2 for total in sums([draw.randint(1, 1000) for _ in range(n)])[1:]]


WORTHS: dict[str, Callable[[Random, int], list[int]]] = {
    "I": lambda draw, n: drawn(draw, n, lambda size: draw.randint(1, 100 * size), 100 * (n - 2), 100 * n),
    "II": lambda draw, n: drawn(draw, n, lambda size: draw.randint(1, 50 * n), 100 * (n - 2), 100 * n),
    "III": lambda draw, n: drawn(draw, n, lambda size: draw.randint(1, n), n, n),
    "IV": lambda draw, n: drawn(draw, n, lambda size: int(draw.random() < 0.9), 1, 1),
    "circle": circle,
    "deficit": deficit,
    "estate": estate,
    "squares": squares,
}
