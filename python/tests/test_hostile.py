"""What data scientists give: each is taken whole, or refused with a sentence that says what to do."""
import unittest
from decimal import Decimal
from fractions import Fraction
from typing import Any, Callable, Iterator

import coop
from coop import families, networks, program, readers, runways, server, sheets, variants, vectors, versus, votes
from coop.desk import excesses, notebook, over

from .asking import Answering

AIRPORT = coop.airport({"a": 2, "b": 4, "c": 6})
NAN, INFINITY = float("nan"), float("inf")


class Series:
    """What a Series of pandas is here: labels, of which some may be alike, and values."""

    ndim = 1

    def __init__(self, *pairs: tuple[Any, Any]):
        self.pairs = pairs

    def __iter__(self) -> Iterator[Any]:
        return (value for _, value in self.pairs)

    def keys(self) -> list[Any]:
        """The labels."""
        return [label for label, _ in self.pairs]

    def items(self) -> Iterator[Any]:
        """The labels and the values."""
        return iter(self.pairs)


class Whole:
    """What an integer of NumPy is here."""

    def __init__(self, value: int):
        self.value = value

    def __index__(self) -> int:
        return self.value


class Missing:
    """What pandas has where a value is missing."""

    def __repr__(self) -> str:
        return "<NA>"


def propose(shares: Any) -> object:
    """An answer to shares, by a program that takes all."""
    return coop.propose(AIRPORT, shares, program=Answering(0, '{"answer":"core"}'))


REFUSED: list[tuple[Callable[..., Any], tuple[Any, ...], str]] = [
    # Labels
    (coop.airport, (Series((("N", "a"), 2), (("N", "b"), 3)),), "several parts: make one text of it, such as 'N, a'"),
    (coop.airport, ({b"a": 2},), "is bytes, and no text: decode it"),
    (coop.airport, (Series(("a", 2), ("a", 3)),), "'a' is given twice"),
    (coop.airport, (Series(("a", 2), ("b", 3)), ["b", "a"]), "names already .a, b, .*leave `names` out, or give"),
    (coop.airport, ([2, 3], [17, "b"]), "the name 17 isn't a text"),
    (coop.airport, ([2, 3], {"a", "b"}), "a set has no order"),
    (votes.shapley, (3, Series(("a", 2), ("a", 1))), "'a' is given twice"),
    (propose, (Series(("a", 1), ("a", 2), ("c", 3)),), "each once: a, b, c"),
    # Rows of sums
    (coop.bankruptcy, (9, {"a": 5, "b": 9, "Total": 14}), "Total has the sum of all others: leave that row out"),
    (coop.airport, (Series(("Summe", "7"), ("a", 3), ("b", 4)),), "Summe has the sum of all others"),
    (votes.shapley, (3, {"a": 2, "b": 3, "Grand total": 5}), "leave that row out; if it is a player, give .* a list"),
    # Numbers
    (coop.airport, ({"a": NAN},), "^a: nan isn't a number$"),
    (coop.airport, ([-INFINITY],), "-inf isn't a number$"),
    (coop.airport, ({"a": Missing()},), "a: '<NA>' isn't a number"),
    (coop.airport, ({"a": None},), "a: 'None' isn't a number"),
    (coop.airport, ({"a": True},), "a: 'True' isn't a number"),
    (coop.airport, ({"a": " "},), "isn't a number: write 12"),
    (coop.airport, ([Decimal("sNaN")],), "sNaN isn't a number"),
    (coop.airport, ([0.1 + 0.2],), "is a float: give a number of digits"),
    (coop.airport, ([10**5000, 1],), "more than 4096 bits"),
    (coop.airport, (bytearray(b"\1\2"),), "not a list of numbers"),
    (coop.table, ([("a", 1), ("b", 2), ("a+b", 3)],), "of pairs make a mapping, as dict"),
    (lambda: coop.airport([1, 2], per_head="no"), (), "`per_head` is True or False"),  # type: ignore[arg-type]
    (coop.Game, ({"class": "airport", "costs": [{1}]},), "costs: .* is no integer"),
    (coop.Game, ({"class": "table", "players": 1, "sparse": [[[{1}], 2]]},), "isn't a player of the game"),
    # Groups
    (coop.table, ({True: 1},), "'True' isn't a player"),
    (coop.table, ({b"a": 1},), "isn't a player: a group has names"),
    (coop.table, ({"a": 1, "a+": 0},), "a member of the group 'a.' has no name"),
    (coop.table_of, ({"a", "b"}, len), "a set has no order"),
    (coop.table_of, ([1, 2], len), "the name 1 isn't a text"),
    (lambda: coop.table([1, 2, 3], order=["size"]), (), "isn't an order: use mask, size"),  # type: ignore[arg-type]
    (vectors.in_order, ([1, 2, 3], None), "isn't an order: use mask, size"),
    # Rows
    (coop.assignment, ([{1: 5, 2: 7}, {1: 3, 2: 4}],), "a row of the matrix has labels, which would be lost"),
    (coop.assignment, ([Series(("x", 5), ("y", 7)), Series(("y", 3), ("x", 4))],), "give a list of its values"),
    (coop.assignment, ({"a": [1, 2], "b": [2, 3]},), "a mapping isn't a list of rows"),
    (coop.assignment, ({(1, 2), (2, 3)},), "a set has no order"),
    (coop.landings, ({("a", 1, 2), ("b", 2, 1)},), "a set has no order"),
    (coop.landings, ([("a", 1, 2.0)],), "give a whole number, 1 or more"),
    (runways.shapley, ([("a", 1)],), "isn't a row of a name, what a landing needs"),
    (networks.table_of_links, ({"ab": 3},), "ab isn't a pair of names"),
    (networks.table_of_links, ({("source", "a", "b"): 3},), "a link has two ends"),
    (networks.table_of_links, ([("source", "a", 3)],), "aren't a mapping from pairs of names"),
    (readers.claims, (b"a,1\n", 2), "isn't the text of a file"),
    (readers.claims, ("a,1\nb,2\nTotal,3\n", 2), "Total has the sum of all others: .* give it another name"),
    (readers.landings, ("a,1,2\nb,2,3\nTotal,3,5\n",), "leave that row out"),
    (lambda: readers.claims("a,1\n", 1, layout={"skip": 1}), (), "isn't a layout: make one"),  # type: ignore[arg-type]
    (lambda: readers.landings("a,1,2\n", layout=None), (), "isn't a layout: make one"),  # type: ignore[arg-type]
    (sheets.Layout, (";",), "';' isn't a word for a sign: name one of tab, semicolon"),
    (sheets.Layout, (None, ","), "name one of point, comma"),
    (sheets.Layout, (None, None, "no"), "`has_head` is True or False"),
    (sheets.Layout, (None, None, False, -1), "`skip` a number of columns"),
    (sheets.Layout, (None, None, False, "1"), "`skip` a number of columns"),
    # Calls
    (coop.propose, ("x", {"a": 1}), "str isn't a game"),
    (versus.remaining, (AIRPORT, [1, 2]), "2 benefits for 3 players"),
    (variants.without, (AIRPORT, 17), r"write \[17\]"),
    (variants.without, (None, ["a"]), "NoneType isn't a game"),
    (variants.overrun, (None, 1), "NoneType isn't a game"),
    (excesses.excess_list, (AIRPORT, [1, 2]), "2 shares for 3 players"),
    (families.game, (["I"], 5, 1), "is no family"),
    (over.divided, ({"shares": [1]}, 0), "give a whole number, 1 or more"),
    (notebook.series, ({"a": Fraction(1)}, "core", -1), "isn't a number of digits"),
    (server.Server, ("node",), "'node' isn't a list of words"),
    (program.Command, ([],), "isn't a list of words"),
    (coop.many, ("nucleolus", None), "a NoneType isn't a list of games"),
    (coop.many, ("nucleolus", {AIRPORT}), "a set has no order"),
    (coop.many, ([], [AIRPORT]), "is no command: many takes nucleolus"),
    (coop.many, (5, [AIRPORT]), "'5' is no command"),
]


class Hostile(unittest.TestCase):
    def test_what_is_refused(self) -> None:
        for call, given, sentence in REFUSED:
            with self.subTest(given), self.assertRaisesRegex(coop.BadInput, sentence):
                call(*given)

    def test_what_is_taken_whole(self) -> None:
        """Sets of players, whose names stand in the order of their texts; names from a generator; a rounded float."""
        digits: Any = Whole(9)
        pairs: dict[Any, int] = {frozenset({"b", "a"}): 3, frozenset({"b"}): 2, frozenset({"a"}): 1}
        self.assertEqual(coop.table(pairs), coop.table({"a": 1, "b": 2, "a+b": 3}))
        self.assertEqual(coop.table_of(iter("ab"), len).names, ["a", "b"])  # type: ignore[arg-type]
        self.assertEqual(coop.airport([0.1 + 0.2, -0.0], digits=digits), coop.airport([0.3, 0], digits=9))
        self.assertEqual(coop.bankruptcy(9, [5, 9, 14], ["a", "b", "Total"]).names[2], "Total")
        self.assertEqual(coop.airport({"a": 5, "Total": 5}).names, ["a", "Total"])
        links: Any = {("source", 1): 3, (1, 2): 4}
        self.assertEqual(networks.table_of_links(links, names=iter("12")).names, ["1", "2"])  # type: ignore[arg-type]
        self.assertEqual(families.game("I", Whole(5), 1), families.game("I", 5, 1))  # type: ignore[arg-type]
        self.assertEqual(variants.without(AIRPORT, iter("a")).names, ["b", "c"])
        self.assertTrue(propose(iter([1, Fraction(3, 2), "7/2"])))

    def test_benefits_by_their_labels(self) -> None:
        wanted = versus.remaining(AIRPORT, {"a": 1, "b": 5, "c": 9})
        labelled: Any = Series(("c", 9), ("a", 1), ("b", 5))
        for benefits in (labelled, [1, 5, 9]):
            self.assertEqual(versus.remaining(AIRPORT, benefits), wanted)


if __name__ == "__main__":
    unittest.main()
