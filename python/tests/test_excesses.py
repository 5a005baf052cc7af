"""Excess lists and comparisons."""
import random
import unittest
from fractions import Fraction
from itertools import product
from time import process_time
from typing import Sequence

import coop
from coop.desk.cells import csv_text
from coop.desk.documents import Point
from coop.desk.excesses import Comparison, Entry, compare, comparisons, csv, excess_list, told
from coop.desk.tables import aligned, put_together, shares_csv
from coop.masks import members
from coop.styles import Style

from .asking import needs_node

AIRPORT = coop.airport({"light": 2, "medium": 4, "heavy": 6})


def point(name: str, text: str, game: coop.Game = AIRPORT) -> Point:
    """A point of fractions between blanks."""
    return Point(name, [Fraction(part) for part in text.split()], game)


NUCLEOLUS, SHAPLEY = point("nucleolus", "1 3/2 7/2"), point("Shapley shares", "2/3 5/3 11/3")
TOLD = """\
place  group        nucleolus  group                      Shapley shares
1      light alone         −1  medium and heavy together            −2/3

Place 1 is the first that differs: −1 by nucleolus, −2/3 by Shapley shares. The lesser is better, so
nucleolus treats the worst-off groups better. Worse off by Shapley shares: medium and heavy
together. They pay 16/3 there, and 5 by nucleolus; by themselves they would cost 6.
"""


def excess(game: coop.Game, shares: Sequence[Fraction], group: int) -> Fraction:
    """What a group is worth less what its members get, per head where the game says so."""
    got = sum((shares[i] for i in members(group)), Fraction(0))
    plain = game.worth(group) + (got if game.costs else -got)
    return plain / len(members(group)) if game.per_head else plain


@needs_node
class Excesses(unittest.TestCase):
    def test_by_hand(self) -> None:
        excesses = [str(excess(AIRPORT, NUCLEOLUS.shares, group)) for group in range(1, 7)]
        self.assertEqual(excesses, ["-1", "-5/2", "-3/2", "-5/2", "-3/2", "-1"])
        listed = [(str(entry.excess), entry.group) for entry in excess_list(AIRPORT, NUCLEOLUS.shares)]
        self.assertEqual(listed, [("-1", 1), ("-1", 6), ("-3/2", 3), ("-3/2", 5), ("-5/2", 2), ("-5/2", 4)])
        fine = coop.cost_table({"a": "1.0000001", "b": 2, "a+b": "2.5"})  # whose document has 10^7 times these numbers
        by_name = dict(zip(reversed(AIRPORT.names), reversed(NUCLEOLUS.shares)))
        self.assertEqual(excess_list(AIRPORT, by_name), excess_list(AIRPORT, NUCLEOLUS.shares))
        self.assertEqual(excess_list(fine, [Fraction("1.0000001"), Fraction("1.4999999")])[0], Entry(Fraction(0), 1))
        per_head = coop.table([0, 0, 6, 0, 2, 2, 12], order="mask", per_head=True)
        self.assertEqual(excess(per_head, [Fraction(5), Fraction(5), Fraction(2)], 3), -2)

    def test_lists_are_those_of_the_groups(self) -> None:
        """Each list against the excesses of its groups, over random games of each class and both measures."""
        draw = random.Random(6)
        for game in [*drawn_games(draw), coop.airport([3]), coop.airport(range(1, 17))]:
            shares = [Fraction(draw.randint(-9, 20), draw.randint(1, 6)) for _ in range(game.n)]
            wanted = [Entry(excess(game, shares, group), group) for group in range(1, game.everyone)]
            self.assertEqual(excess_list(game, shares), sorted(wanted, key=lambda entry: (-entry.excess, entry.group)))

    def test_told(self) -> None:
        self.assertEqual(compare([NUCLEOLUS, SHAPLEY]).told(), TOLD)
        self.assertIs(compare([SHAPLEY, NUCLEOLUS]).better(), NUCLEOLUS)
        same = compare([NUCLEOLUS, point("proposal", "1 3/2 7/2")])
        self.assertIsNone(same.better())
        self.assertIn("Both have the same list", same.told())
        self.assertEqual(compare([NUCLEOLUS, SHAPLEY]).told(True).count("\n"), 11)
        alone = " ".join(compare([NUCLEOLUS, point("proposal", "3 1 2")]).told().split())
        self.assertIn("By proposal light pays 3, more than it costs alone, 2.", alone)

    def test_shares_that_are_no_division(self) -> None:
        """Where the whole isn't shared out, neither is better, whichever of the two stands first."""
        for other in ("3 1 3", "1/3 1/3 1/3"):
            for points in ([NUCLEOLUS, point("proposal", other)], [point("proposal", other), NUCLEOLUS]):
                found = compare(points)
                self.assertIsNone(found.better())
                text = " ".join(found.told().split())
                self.assertIn(f"The shares of proposal add to {sum(map(Fraction, other.split()))}, and all", text)
                self.assertIn("So neither is better or worse", text)
                self.assertNotIn("treats", text)

    def test_two_measures(self) -> None:
        """Each is better by its own measure, in whatever order they stand, and both are told."""
        per_head = coop.airport({"light": 2, "medium": 4, "heavy": 6}, per_head=True)
        other = point("nucleolus per head", "4/3 4/3 10/3", per_head)
        for points in ([NUCLEOLUS, other], [other, NUCLEOLUS]):
            found = comparisons(points)
            self.assertEqual([one.better() for one in found], [NUCLEOLUS, other])
            text = " ".join(told(found).split())
            self.assertIn("By plain excess: place", text)
            self.assertIn("so nucleolus treats the worst-off groups better. Worse off by nucleolus per head", text)
            self.assertIn("By excess per head: place", text)
            self.assertIn("so nucleolus per head treats the worst-off groups better, by excess per head.", text)
            rows = csv(found).splitlines()
            self.assertEqual((len(rows), rows[1][-13:], rows[-1][-16:]), (13, ",plain excess", ",excess per head"))
            with self.assertRaisesRegex(coop.BadInput, "one goes by plain excess"):
                compare(points)
        alone = compare([other, point("proposal", "1 3/2 7/2", per_head)]).told()
        self.assertTrue(alone.startswith("By excess per head:\nplace"), alone)
        self.assertEqual(told([compare([NUCLEOLUS, SHAPLEY])]), TOLD)

    def test_the_better_one_is_less_in_the_order_of_lists(self) -> None:
        """Over all pairs of divisions of 4 among three, in whole numbers, against sorted lists."""
        game = coop.table([0, 1, 2, 0, 3, 1, 4], order="mask")
        every = [shares for shares in product(range(-1, 6), repeat=3) if sum(shares) == 4]
        for a, b in product(every, repeat=2):
            first, second = (Point(name, [Fraction(x) for x in shares], game) for name, shares in (("a", a), ("b", b)))
            lists = [worst_first(game, shares) for shares in (a, b)]
            wanted = None if lists[0] == lists[1] else first if lists[0] < lists[1] else second
            comparison = Comparison(game, (first, second))
            self.assertIs(comparison.better(), wanted)
            text = " ".join(comparison.told().split())
            differs = next((k for k, pair in enumerate(zip(*lists), 1) if pair[0] != pair[1]), 0)
            self.assertIn(f"Place {differs} is the first" if differs else "Both have the same list", text)

    def test_what_is_refused(self) -> None:
        other = point("proposal", "1 2 3", coop.airport([1, 2, 6], AIRPORT.names))
        for points, sentence in (([NUCLEOLUS], "1 divisions"), ([NUCLEOLUS, other], "different games")):
            with self.assertRaisesRegex(coop.BadInput, sentence):
                compare(points)
        with self.assertRaisesRegex(coop.BadInput, "too many to list"):
            excess_list(coop.airport([1] * 17), [Fraction(0)] * 17)

    def test_a_long_row_of_equal_places(self) -> None:
        """Of more than sixteen the first and the last eight are shown, unless all are asked for."""
        game = coop.airport([1] * 5)
        equal = Point("equal", [Fraction(1, 5)] * 5, game)
        text = compare([equal, equal]).told().splitlines()
        self.assertEqual([text[k].split()[0] for k in (8, 9, 10, 17)], ["8", "..", "23", "30"])
        self.assertEqual(len(compare([equal, equal]).told(True).splitlines()), 33)
        self.assertEqual(len(compare([equal, equal]).rows()), 31)


def drawn_games(draw: random.Random) -> list[coop.Game]:
    """Games of some players and each class, plain and per head."""
    some = [Fraction(draw.randint(1, 30), draw.randint(1, 4)) for _ in range(40)]
    links = [[Fraction(0) if i == j else some[i + j] for j in range(5)] for i in range(5)]
    games = []
    for per_head in (False, True):
        games += [
            coop.table(some[:31], order="mask", per_head=per_head),
            coop.cost_table(some[:15], order="mask", per_head=per_head),
            coop.airport(some[:4], per_head=per_head),
            coop.bankruptcy(some[0], some[1:6], per_head=per_head),
            coop.tree(links, per_head=per_head),
            coop.assignment([some[:2], some[2:4], some[4:6]], per_head=per_head),
        ]
    return [*games, coop.voting(5, [4, 2, 1, 1])]


def worst_first(game: coop.Game, shares: Sequence[int]) -> list[int]:
    """The excesses of a table of whole numbers, from the greatest."""
    excesses = [game.amounts[s] - sum(shares[i] for i in range(3) if s >> i & 1) for s in range(1, 7)]
    return sorted((int(e) for e in excesses), reverse=True)


class Tables(unittest.TestCase):
    def test_csv(self) -> None:
        text = shares_csv(
            ["a", "=1+1\u200b"], [point("nucleolus", "1/3 100000", coop.airport([1, 2]))], Style(2, "EUR")
        )
        self.assertEqual(
            text, 'player,nucleolus,"nucleolus rounded, EUR"\na,1/3,0.33\n\'=1+1\\u200b,100000,100000.00\n'
        )
        self.assertEqual(csv_text([["-1/2", "-0.50", "-x", "@a"]]), "-1/2,-0.50,'-x,'@a\n")

    def test_a_long_table(self) -> None:
        """Of as many rows as sixteen players have groups: the width of a column is found once."""
        began = process_time()
        lines = aligned([["place", "x"], *([str(i), "x"] for i in range(2**16))]).splitlines()
        self.assertEqual((lines[0], lines[-1]), ("place  x", "65535  x"))
        self.assertLess(process_time() - began, 20)

    def test_put_together(self) -> None:
        names, points = put_together(["Aer 1", "Aer 2", "Bee"], [point("nucleolus", "1/2 1/2 3")])
        self.assertEqual((names, points[0].shares), (["Aer", "Bee"], [1, 3]))


if __name__ == "__main__":
    unittest.main()
