"""Each constructor against documents made by hand."""
import unittest
from decimal import Decimal
from fractions import Fraction
from itertools import combinations
from typing import Any, Callable

import coop
from coop import BadInput, Game

HALF = Fraction(1, 2)


class Framed(list[Any]):
    """What looks like a data frame."""

    columns = ["A"]


def all_of(letters: str) -> list[str]:
    """All groups, their members without a sign between."""
    return ["".join(some) for size in range(len(letters)) for some in combinations(letters, size + 1)]


class Constructors(unittest.TestCase):
    def expect(self, game: Game, tree: dict[str, Any], factor: int = 1) -> None:
        self.assertEqual((game.tree, game.factor), (tree, factor))

    def test_tables(self) -> None:
        vector = {"class": "table", "players": 2, "worths": [1, "1/2", 3], "version": 2}
        self.expect(coop.table([1, HALF, 3]), vector)
        self.expect(coop.table([0, 1, "0.5", 3]), vector)
        self.expect(coop.table({(): 0, (1,): 1, (2,): Decimal("0.5"), (1, 2): 3}), vector)
        self.expect(coop.table({1: 1, 2: HALF, (2, 1): 3}), vector)
        self.expect(coop.table({(1, 2): 3}, default=0), {"class": "table", "players": 2, "worths": [0, 0, 3]})
        named = {"class": "table", "names": ["Ann", "Bob"], "players": 2, "worths": [1, 2, 4]}
        self.expect(coop.table({"Ann": 1, "Bob": 2, "Ann+Bob": 4}), named)
        self.expect(coop.table({("Ann",): 1, ("Bob",): 2, frozenset(["Bob", "Ann"]): 4}), named)
        self.expect(coop.table([1, 2, 4], ["Ann", "Bob"]), named)
        self.expect(coop.table({1: 1, 2: 2, (1, 2): 4}, ["Ann", "Bob"]), named)
        labels = {"class": "table", "names": ["17", "9"], "players": 2, "worths": [1, 2, 4]}
        self.expect(coop.table({17: 1, 9: 2, "17+9": 4}), labels)
        self.expect(coop.table([0.0, 1e-17, 1], digits=4), {"class": "table", "players": 2, "worths": [0, 0, 1]})
        self.expect(coop.table([0.0, 1e-17, 0.0], digits=4), {"class": "table", "players": 2, "worths": [0, 0, 0]})

    def test_a_rule(self) -> None:
        people = {"A": 5, "B": 3, "C": 2}
        game = coop.table_of(list(people), lambda some: sum(people[name] for name in some) >= 6 and len(some))
        self.expect(game, {"class": "table", "names": ["A", "B", "C"], "players": 3, "worths": [0, 0, 2, 0, 2, 0, 3]})
        costs = coop.table_of("AB", lambda some: "0.5" if len(some) == 1 else 1, costs=True)
        self.expect(
            costs, {"class": "cost-table", "names": ["A", "B"], "players": 2, "worths": ["1/2", "1/2", 1], "version": 2}
        )

    def test_costs_and_measures(self) -> None:
        costs = {"class": "cost-table", "excess": "per-head", "players": 2, "worths": [8, 7, 11]}
        self.expect(coop.cost_table([8, 7, 11], per_head=True), costs)
        by_size = {"class": "cost-table", "players": 3, "worths": [1, 2, 12, 3, 13, 23, 123]}
        self.expect(coop.cost_table([1, 2, 3, 12, 13, 23, 123], order="size"), by_size)

    def test_the_other_classes(self) -> None:
        airport = {"class": "airport", "costs": [2, 4, 6], "names": ["light", "medium", "heavy"]}
        self.expect(coop.airport({"light": 2, "medium": 4, "heavy": 6}), airport)
        self.expect(coop.airport([2, 4, 6], ["light", "medium", "heavy"]), airport)
        landings = {
            "class": "airport",
            "names": ["Aer 1", "Aer 2", "Bee 1"],
            "costs": ["41/2", "41/2", 40],
            "version": 2,
        }
        self.expect(coop.landings([("Aer", "20.50", 2), ("Bee", 40, 1)]), landings)
        estate = {"class": "bankruptcy", "names": ["A", "B"], "claims": [100, "201/2"], "estate": "400/3", "version": 2}
        self.expect(coop.bankruptcy("400/3", {"A": 100, "B": "100.5"}), estate)
        self.expect(
            coop.tree([[0, 10, 10], [10, 0, 1], [10, 1, 0]]),
            {"class": "tree", "matrix": [[0, 10, 10], [10, 0, 1], [10, 1, 0]]},
        )
        self.expect(
            coop.assignment([[5, 8], [7, "6.5"]]),
            {"class": "assignment", "matrix": [[5, 8], [7, "13/2"]], "version": 2},
        )
        self.expect(coop.market([[5]], ["a", "b"]), {"class": "market", "matrix": [[5]], "names": ["a", "b"]})
        self.expect(
            coop.voting(5, {"A": 4, "B": 2}), {"class": "voting", "names": ["A", "B"], "quota": 5, "weights": [4, 2]}
        )

    def test_numbers_too_fine_for_a_document(self) -> None:
        self.expect(
            coop.airport([0.2875775201, 1], digits=9), {"class": "airport", "costs": [287577520, 10**9]}, 10**9
        )
        self.expect(coop.airport(["0.287581", 1]), {"class": "airport", "costs": [287581, 10**6]}, 10**6)
        self.expect(coop.airport([0.25, 1.0], digits=4), {"class": "airport", "costs": ["1/4", 1], "version": 2})

    def test_what_is_refused(self) -> None:
        cases: list[tuple[str, Callable[[], Game]]] = [
            ("Ann.Bob is missing$", lambda: coop.table({"Ann": 1, "Bob": 2})),
            ("and 7 more; is x a player. Only one group", lambda: coop.table(
                {"a": 1, "b": 1, "c": 1, "a+b": 2, "a+c": 2, "b+x": 2, "a+b+c": 3}
            )),
            ("; is A,B the group A.B. Write", lambda: coop.table(dict.fromkeys(["A", "B", "C", "A,B", "B,C"], 1))),
            ("; is A-B the group A.B. Write", lambda: coop.table(dict.fromkeys(["A", "B", "C", "A-B", "B-C"], 1))),
            ("; is A_B the group A.B. Write", lambda: coop.table(dict.fromkeys(["A", "B", "C", "A_B", "B_C"], 1))),
            ("; is A / B the group A.B", lambda: coop.table(dict.fromkeys(["A", "B", "C", "A / B", "B / C"], 1))),
            ("31 players.*; is AB the group A.B", lambda: coop.table(dict.fromkeys(all_of("ABCDE"), 1))),
            ("a member of .*'A', ''.* has no name", lambda: coop.table({("A", "", ""): 1, ("A", "B", ""): 2})),
            ("no group: give a vector, such as .to_numpy", lambda: coop.table(dict.fromkeys(range(7), 1))),
            ("no group: give a vector", lambda: coop.table(dict.fromkeys(range(1, 8), 1))),
            ("'A', 'A ' look the same", lambda: coop.airport({"A": 2, "A ": 4})),
            ("look the same", lambda: coop.airport([2, 4], ["A", "A\u200b"])),
            ("becomes 0 when it is rounded to 4 digits", lambda: coop.table([1e-6, 2e-6, 4e-6], digits=4)),
            ("becomes 0 when it is rounded to 4 digits", lambda: coop.airport({"A": 1e-6}, digits=4)),
            ("isn't a list of rows: .* names=..frame.index,", lambda: coop.assignment(Framed())),
            ("twice", lambda: coop.table({("Ann", "Bob"): 1, ("Bob", "Ann"): 2}, default=0)),
            ("twice", lambda: coop.table({("Ann", "Ann"): 1}, default=0)),
            ("empty group", lambda: coop.table({(): 1, "Ann": 1})),
            ("isn't a player", lambda: coop.table({"Ann": 1}, ["Bob"])),
            ("2.n - 1", lambda: coop.table([1, 2, 3, 4, 5])),
            ("isn't 0", lambda: coop.table([5, 1, 2, 4])),
            ("isn't an order", lambda: coop.table([1, 2, 4], order="lexical")),
            ("names for", lambda: coop.table([1, 2, 4], ["Ann"])),
            ("default", lambda: coop.table([1, 2, 4], default=0)),
            ("17 players", lambda: coop.table({str(i): 1 for i in range(17)}, default=0)),
            ("is a float", lambda: coop.airport([0.5])),
            ("below 0", lambda: coop.airport([-1])),
            ("^b: -1 is below 0", lambda: coop.airport({"a": 1, "b": -1})),
            ("^the estate: -1 is below 0", lambda: coop.bankruptcy(-1, [1])),
            ("^b: 'n/a' isn't a number", lambda: coop.voting(1, {"a": 1, "b": "n/a"})),
            ("^number 2: 0.5 is a float", lambda: coop.airport([1, 0.5])),
            ("1 isn't a player: there are 2, 17; give", lambda: coop.table({(1,): 1, (2,): 2, (1, 2): 3}, ["2", "17"])),
            ("a label is missing .None.", lambda: coop.airport({None: 1})),  # type: ignore[dict-item]
            ("is given twice", lambda: coop.airport([1, 2], ["a", "a"])),
            ("no name", lambda: coop.airport([1, 2], ["a", "ü" * 33])),
            ("no name", lambda: coop.airport([1, 2], ["a", ""])),
            ("less than the estate", lambda: coop.bankruptcy(5, [1, 2])),
            ("one way", lambda: coop.tree([[0, 1], [2, 0]])),
            ("itself", lambda: coop.tree([[0, 1], [1, 1]])),
            ("as many columns", lambda: coop.tree([[0, 1]])),
            ("rows of the same length", lambda: coop.assignment([[1, 2], [3]])),
            ("1.5 is a float", lambda: coop.voting(1.5, [1, 2])),
            ("reach", lambda: coop.voting(1.5, [0.25, 0.5], digits=2)),
            ("64 landings", lambda: coop.landings([("Aer", 1, 65)])),
            ("number of landings", lambda: coop.landings([("Aer", 1, 0)])),
            ("a label is missing .None.", lambda: coop.landings([(None, 1, 2)])),  # type: ignore[list-item]
            ("2.40", lambda: coop.airport([2**40])),
        ]
        for sentence, make in cases:
            with self.assertRaisesRegex(BadInput, sentence):
                make()

    def test_hostile_input(self) -> None:
        """What ran long, took gigabytes or ended with another exception."""
        long: Any = Fraction(10**5000 + 1, 10**5000)
        cases: list[tuple[str, Callable[..., object], Any]] = [
            ("1000000000 players", coop.table, {10**9: 1}),
            ("more than 64 landings", coop.landings, [("a", 1, 10**9)]),
            ("the exponent 9999999", coop.airport, [Decimal("1E+9999999")]),
            ("the exponent -9999999", coop.airport, [Decimal("1E-9999999")]),
            ("more than 4096 bits", coop.airport, [long]),
            ("isn't a player", coop.table, {None: 1}),
            ("isn't a player", coop.table, {1.5: 1}),
            ("isn't a row", coop.landings, [("a", 1)]),
            ("is a text", coop.airport, "12"),
            ("is a text", lambda shares: coop.propose(coop.airport([1, 2]), shares), "11"),
            ("isn't a list of numbers", coop.airport, 5),
            ("isn't a list of rows", coop.landings, 5),
            ("isn't a list of rows", coop.tree, None),
            ("half of a character", lambda names: coop.airport([1], names), ["\ud800"]),
            ("half of a character", coop.check, "\ud800"),
            ("half of a character", lambda tree: coop.Game(tree).document(), {
                "class": "airport", "costs": [1], "names": ["\ud800"]
            }),
        ]
        digits: list[Any] = [10**7, -1, 2.5, "2", float("nan"), True]
        cases += [("isn't a number of digits", lambda some: coop.airport([1], digits=some), some) for some in digits]
        for sentence, call, given in cases:
            with self.assertRaisesRegex(BadInput, sentence):
                call(given)
        self.assertEqual(coop.airport([1, 2], iter("ab")).names, ["a", "b"])  # type: ignore[arg-type]

    def test_integers_of_others(self) -> None:
        """As those of NumPy, which are integers by their `__index__`."""

        class Seven:
            def __index__(self) -> int:
                return 7

        seven: Any = Seven()
        self.expect(coop.airport([seven, 8]), {"class": "airport", "costs": [7, 8]})
        self.assertEqual(coop.table({(1,): 0, (2,): seven, (1, 2): 9}).worth(2), 7)
        self.assertEqual(coop.table({seven: 1}, default=0).n, 7)
        fine = {"class": "airport", "costs": [10**7 // 8, 10**7]}
        self.expect(coop.airport([0.125, 1], digits=seven), fine, 10**7)

        class Row:
            def tolist(self) -> list[Any]:
                """As an array of NumPy, or a Series, has it."""
                return ["A", 2, 1]

        self.assertEqual(coop.landings([Row()]).names, ["A 1"])  # type: ignore[list-item]


if __name__ == "__main__":
    unittest.main()
