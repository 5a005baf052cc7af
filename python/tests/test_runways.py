"""Runways of any number of landings, against the program where it takes them."""
import random
import unittest
from fractions import Fraction

import coop
from coop import runways
from coop.amounts import Amount
from coop.errors import BadInput

from .asking import needs_program


def totals(shares: dict[str, Fraction]) -> dict[str, Fraction]:
    """The shares of landings, added up for each airline."""
    sums: dict[str, Fraction] = {}
    for name, share in shares.items():
        owner = name.rsplit(" ", 1)[0]
        sums[owner] = sums.get(owner, Fraction(0)) + share
    return sums


class Runways(unittest.TestCase):
    def test_by_hand(self) -> None:
        rows = [("a", 2, 1), ("b", 4, 1), ("c", 6, 1)]
        self.assertEqual(runways.nucleolus(rows), {"a": 1, "b": Fraction(3, 2), "c": Fraction(7, 2)})
        self.assertEqual(runways.shapley(rows), {"a": Fraction(2, 3), "b": Fraction(5, 3), "c": Fraction(11, 3)})
        self.assertEqual(runways.nucleolus([("a", "2.50", 4)]), {"a": Fraction(5, 2)})
        twice = runways.shapley([("a", 2, 1), ("b", 6, 1), ("a", 4, 1)])
        self.assertEqual(twice, {"a": Fraction(7, 3), "b": Fraction(11, 3)})

    @needs_program
    def test_against_the_program(self) -> None:
        draw = random.Random(64)
        costs: list[Amount] = [0, 1, 2, 5, 9, "9.25", 40]
        for most, ask, rule in ((64, coop.nucleolus, runways.nucleolus), (32, coop.shapley, runways.shapley)):
            for _ in range(25):
                count = draw.randint(1, 8)
                rows = [(f"p{k}", draw.choice(costs), draw.randint(1, most // count)) for k in range(count)]
                answer = ask(coop.landings(rows))
                assert isinstance(answer, (coop.Nucleolus, coop.Shapley))
                self.assertEqual(rule(rows), totals(dict(answer.shares)), rows)

    def test_many_landings(self) -> None:
        rows = [(f"p{k % 12}", 1000 + k * k, 580 + k) for k in range(48)]
        for rule in (runways.nucleolus, runways.shapley):
            self.assertEqual(sum(rule(rows).values()), 1000 + 47 * 47)

    def test_floats(self) -> None:
        for rule in (runways.nucleolus, runways.shapley):
            self.assertEqual(rule([("a", 0.1 + 0.2, 1)], digits=1), {"a": Fraction(3, 10)})

    def test_what_is_refused(self) -> None:
        for rows, sentence in (
            ([], "the list has no landing"),
            ([("a", 1, 0)], "a: 0 isn't a number of landings"),
            ([("a", -1, 1)], "a: -1 is below 0"),
            ([("a", 1.5, 1)], "a: 1.5 is a float"),
        ):
            for rule in (runways.nucleolus, runways.shapley):
                with self.assertRaisesRegex(BadInput, sentence):
                    rule(rows)  # type: ignore[arg-type]


if __name__ == "__main__":
    unittest.main()
