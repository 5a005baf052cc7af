"""Random games of each class: margins by the program's check, paths and ranges against a solver of its own.

The gate tries a few. COOP_ROUNDS=60 tries 300 answers of each class and 800 paths, and prints how many.
"""
import os
import random
import unittest
from collections import Counter
from fractions import Fraction
from functools import partial
from typing import Any, Iterator, Optional

import coop
from coop.calls import check
from coop.errors import BadInput
from coop.game import WRITER
from coop.games import made
from coop.moving import Moving
from coop.places import What, what_moves
from coop.sensitivity import along, margins, ranges
from coop.variants import table_of_game

from . import exact
from .asking import needs_program

ROUNDS = int(os.environ.get("COOP_ROUNDS", "3"))
KINDS = ("table", "cost-table", "airport", "bankruptcy", "tree", "assignment", "voting")
RULES = ("nucleolus", "prenucleolus")
NUMBERS = ("worths", "costs", "claims", "estate", "matrix")


def drawn(draw: random.Random, kind: str) -> coop.Game:
    """A game of a class, of 2 to 5 players, with few or many ties, plain or per head."""
    n, top, per_head = draw.choice([2, 3, 3, 4, 4, 5]), draw.choice([6, 30, 1000]), draw.random() < 0.25
    names = [f"p{i}" for i in range(n)]

    def number() -> Fraction:
        return Fraction(draw.randint(0, top), draw.choice([1, 1, 1, 2, 3]))

    some = [number() for _ in names]
    if kind in ("table", "cost-table"):
        size = draw.choice([0, 0, 1])
        worths = [number() * (bin(group).count("1") if size else 1) for group in range(1, 2**n)]
        return made(kind, {"players": n, "worths": worths}, names, per_head)
    if kind == "airport":
        return coop.airport(some, names, per_head=per_head)
    if kind == "bankruptcy":
        return coop.bankruptcy(sum(some) * Fraction(draw.randint(0, 6), 6), some, names, per_head=per_head)
    if kind == "voting":
        votes = [draw.randint(1, 6) for _ in names]
        return coop.voting(draw.randint(1, sum(votes)), votes, names)
    if kind == "tree":
        links = [[number() for _ in range(n + 1)] for _ in range(n + 1)]
        rows = [[links[min(i, j)][max(i, j)] if i != j else Fraction(0) for j in range(n + 1)] for i in range(n + 1)]
        return coop.tree(rows, names, per_head=per_head)
    buyers = draw.randint(1, n - 1)
    return coop.assignment([[number() for _ in range(n - buyers)] for _ in range(buyers)], names, per_head=per_head)


def games(draw: random.Random) -> Iterator[coop.Game]:
    """Some games of each class."""
    for _ in range(ROUNDS):
        yield from (drawn(draw, kind) for kind in KINDS)


def with_numbers(answer: coop.Nucleolus, numbers: "list[Fraction]") -> bytes:
    """The line of an answer, over a table of these numbers."""
    kind = "cost-table" if answer.game.costs else "table"
    game = made(kind, {"players": answer.game.n, "worths": numbers}, None, answer.game.per_head)
    own = Fraction(game.factor, answer.game.factor)
    levels = [
        {**level, "excess": str(Fraction(level["excess"]) * own)} for level in answer.certificate["levels"]
    ]
    shares = [str(share * game.factor) for share in answer.shares.values()]
    others = {"answer": answer.rule, "certificate": {**answer.certificate, "levels": levels}, "shares": shares}
    return WRITER.encode({"game": game.tree, **others}).encode()


@needs_program
class Random(unittest.TestCase):
    def test_margins(self) -> None:
        """All bounds hold at once, and none holds a seventh beyond it."""
        draw, tried = random.Random(300), Counter[str]()
        for game in (game for _ in range(5) for game in games(draw)):
            answer = coop.nucleolus(game) or coop.prenucleolus(game)
            assert isinstance(answer, coop.Nucleolus)
            found, sign = list(margins(answer)), -1 if game.costs else 1
            whole = table_of_game(game).amounts[-1]
            at_once = [margin.number if margin.bound is None else margin.bound for margin in found]
            self.assertTrue(check(with_numbers(answer, [*at_once, whole])), answer.line)
            for k in (k for k, margin in enumerate(found) if margin.bound is not None):
                beyond = [*at_once[:k], at_once[k] + sign * Fraction(1, 7), *at_once[k + 1 :], whole]
                self.assertFalse(check(with_numbers(answer, beyond)), (answer.line, k))
                tried[f"{game.kind}, bounds"] += 1
            tried[game.kind] += 1
        self.tell(tried, 5)

    def test_paths(self) -> None:
        """Shares along random changes are those of the other solver, and the lines are taken."""
        draw, tried = random.Random(700), Counter[str]()
        for game in (game for _ in range(2) for game in games(draw)):
            moves, rule = what_moves(game), draw.choice(RULES)
            some = draw.sample(moves, min(len(moves), draw.choice([1, 1, 2, 3])))
            what: dict[Any, Fraction] = {move: Fraction(draw.choice([-2, -1, 1]), draw.choice([1, 2])) for move in some}
            low, high = reach(game, what, rule, draw)
            if low < high:
                path = along(game, what, low, high, rule)
                self.assertTrue(path.check(anew=draw.random() < 0.2), (game, what, low, high, rule))
                self.assertEqual((path.pieces[0].low, path.pieces[-1].high), (low, high))
                inside = [low + (high - low) * Fraction(draw.randint(0, 97), 97) for _ in range(2)]
                for t in [low, high, *inside, *path.bends()[:1]]:
                    wanted = shares_of(game, what, rule, t)
                    self.assertEqual(list(path.at(t).values()), wanted, (game, what, rule, t))
                    tried[f"{game.kind}, points"] += 1
                tried[game.kind] += 1
        self.tell(tried, 1)

    def test_ranges(self) -> None:
        """Shares are straight to the ends of a range by the other solver, and not beyond."""
        draw, tried = random.Random(206), Counter[str]()
        for game in games(draw):
            what, rule = draw.choice(what_moves(game)), draw.choice(RULES)
            at = partial(shares_of, game, {what: Fraction(1)}, rule)
            here = at(Fraction(0))
            if here is None:
                with self.assertRaisesRegex(BadInput, "there is no imputation"):
                    ranges(game, [what], rule)
                continue
            found, = ranges(game, [what], rule)
            self.assertEqual(found.what, what)
            for way, far, slopes in ((-1, found.down, found.below), (1, found.up, found.above)):
                limit = abs(Moving(game, what).room(rule)[way > 0])
                self.assertEqual(slopes == {}, limit == 0, (game, what, rule))
                end = Fraction(50) if far is None else far
                for t in [end / 3, end] if slopes else []:
                    self.assertEqual(at(way * t), straight(here, slopes, way * t), (game, what, t))
                if slopes and end < limit and far is not None:
                    t = way * (end + min(Fraction(1, 10**6), (limit - end) / 2))
                    self.assertNotEqual(at(t), straight(here, slopes, t), (game, what, t))
                    tried[f"{game.kind}, ends"] += 1
            tried[game.kind] += 1
        self.tell(tried, 0)

    def tell(self, tried: "Counter[str]", least: int) -> None:
        """Sees that so many of each class were tried in a round, and prints how many where these are many."""
        self.assertTrue(all(tried[kind] >= least * ROUNDS for kind in KINDS), tried)
        if ROUNDS > 3:
            print(f"{self.id()}: {dict(tried)}")


def shares_of(game: coop.Game, what: "dict[Any, Fraction]", rule: str, t: Fraction) -> "Optional[list[Fraction]]":
    """The shares after a change, by the solver of these tests; none if there is no imputation."""
    worths = exact.worths(after(game, what, t))
    found = exact.nucleolus(game.n, worths, rule == "nucleolus", game.per_head)
    return None if found is None else [-share if game.costs else share for share in found]


def after(game: coop.Game, what: "dict[Any, Fraction]", t: Fraction) -> "dict[str, Any]":
    """The game of a document after a change, whatever its denominators; of a vote its table."""
    parts = {key: exact.read(part) for key, part in game.tree.items() if key in NUMBERS}
    names, kind = game.names, "table" if game.kind == "voting" else game.kind
    if game.kind == "voting":
        parts = {"worths": exact.worths(game.tree)[1:]}
    for asked, rate in what.items():
        if "worths" in parts:
            parts["worths"][sum(1 << names.index(name) for name in asked) - 1] += t * rate
        elif "matrix" in parts:
            points = ["source", *names] if kind == "tree" else names
            i, j = points.index(asked[1]), points.index(asked[2]) - (0 if kind == "tree" else len(parts["matrix"]))
            parts["matrix"][i][j] += t * rate
            if kind == "tree":
                parts["matrix"][j][i] += t * rate
        elif asked == ("estate",):
            parts["estate"] += t * rate
        else:
            parts["costs" if kind == "airport" else "claims"][names.index(asked[1])] += t * rate
    return {"class": kind, **parts}


def straight(here: "list[Fraction]", slopes: "dict[str, Fraction]", t: Fraction) -> "list[Fraction]":
    """Shares after a change with these slopes."""
    return [share + t * slope for share, slope in zip(here, slopes.values())]


def reach(game: coop.Game, what: What, rule: str, draw: random.Random) -> "tuple[Fraction, Fraction]":
    """From where to where a change may go, some 40 at most; nowhere where the game is none before it."""
    try:
        low, high = Moving(game, what).room(rule)
    except BadInput:
        return Fraction(0), Fraction(0)
    return max(low, Fraction(-draw.randint(1, 40))), min(high, Fraction(draw.randint(1, 40)) + Fraction(1, 3))


if __name__ == "__main__":
    unittest.main()
