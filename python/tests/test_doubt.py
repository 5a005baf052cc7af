"""Cores of tables between bounds: by hand, and by all corners of random small tables."""
import random
import unittest
from fractions import Fraction
from itertools import product

import coop
from coop import doubt
from coop.errors import BadInput
from coop.games import made

from . import exact
from .asking import needs_program

TOWNS = ["a", "b", "c"]


def costs(*numbers: object) -> coop.Game:
    """A cost table of three towns, in mask order."""
    return coop.cost_table([Fraction(str(number)) for number in numbers], TOWNS, order="mask")


@needs_program
class Between(unittest.TestCase):
    def test_surely(self) -> None:
        """The worst: each alone at 6, pairs at 10, and all at 13; each pays 4 1/3, and any two at most 10."""
        found = doubt.between(costs(6, 6, 10, 6, 10, 10, 11), costs(7, 9, 12, 8, 10, 11, 13))
        shares = found.shares
        assert shares is not None
        self.assertEqual((found.answer, found.best, found.gap, found.next()), ("surely", None, 0, []))
        self.assertEqual(sum(shares.values()), 13)
        for one, other in (("a", "b"), ("a", "c"), ("b", "c")):
            self.assertTrue(shares[one] <= 6 and shares[one] + shares[other] <= 10)

    def test_never(self) -> None:
        """The best: pairs at 8 and all at 13. Three pairs cost 24, and twice all 26."""
        found = doubt.between(costs(6, 6, 7, 6, 8, 7, 13), costs(7, 9, 8, 8, 8, 8, 15))
        assert isinstance(found.best, coop.EmptyCore)
        self.assertEqual((found.answer, found.shares, found.next()), ("never", None, []))
        self.assertEqual((found.best.value, found.best.against, found.best.k), (24, 26, 2))

    def test_perhaps(self) -> None:
        """The worst: pairs at 7, 8 and 8, 23 for twice 13. Of a+b 3 more may come, of all together twice 1."""
        found = doubt.between(costs(9, 9, 7, 9, 8, 8, 12), costs(9, 9, 10, 9, 8, 8, 13))
        assert isinstance(found.best, coop.CorePoint)
        self.assertEqual((found.answer, found.shares, found.gap), ("perhaps", None, 3))
        self.assertEqual(found.next(), [
            doubt.Asked(("a", "b"), Fraction(7), Fraction(10), Fraction(3)),
            doubt.Asked(("a", "b", "c"), Fraction(12), Fraction(13), Fraction(2)),
        ])

    def test_worths_and_fine_numbers(self) -> None:
        """Gains turn the bounds; a factor is divided out."""
        low = coop.table({"a": 0, "b": 0, "a+b": "1.00000001"})
        found = doubt.between(low, coop.table({"a": "0.5", "b": "0.50000001", "a+b": 3}))
        self.assertEqual((found.answer, found.shares), ("surely", {"a": Fraction(1, 2), "b": Fraction("0.50000001")}))
        found = doubt.between(low, coop.table({"a": "0.5", "b": "0.50000003", "a+b": 3}))
        self.assertEqual((found.answer, found.gap), ("perhaps", Fraction("0.00000002")))
        self.assertEqual([asked.group for asked in found.next()], [("a", "b"), ("b",), ("a",)])

    def test_what_is_refused(self) -> None:
        low = costs(6, 6, 10, 6, 10, 10, 11)
        others = [
            (costs(6, 6, 9, 6, 10, 10, 11), "the least number of a.b is 10, above the greatest, 9"),
            (coop.table([6, 6, 10, 6, 10, 10, 11], TOWNS, order="mask"), "one game has costs, and the other worths"),
            (coop.cost_table([6, 6, 10, 6, 10, 10, 11], ["a", "c", "b"], order="mask"), "players differ: a, b, c"),
            (coop.cost_table([6, 6, 10], ["a", "b"], order="mask"), "players differ: a, b, c; and a, b"),
            (coop.airport({"a": 6, "b": 6, "c": 6}), "class airport has no numbers of groups"),
        ]
        for high, sentence in others:
            with self.assertRaisesRegex(BadInput, sentence):
                doubt.between(low, high)
        with self.assertRaisesRegex(BadInput, "str isn't a game"):
            doubt.between(low, "high")  # type: ignore[arg-type]

    def test_all_corners(self) -> None:
        """Of random bounds for three players, each of the 128 games at the bounds by a solver of its own; and the one
        division in all of them."""
        draw, seen = random.Random(8), {"surely": 0, "never": 0, "perhaps": 0}
        for _ in range(24):
            kind, top = draw.choice(["table", "cost-table"]), draw.choice([1, 2, 5])
            least = [Fraction(draw.randint(0, 5 * bin(group).count("1"))) for group in range(1, 8)]
            most = [number + Fraction(draw.randint(0, top), draw.choice([1, 2])) for number in least]
            low, high = (made(kind, {"players": 3, "worths": numbers}, TOWNS) for numbers in (least, most))
            found, sign = doubt.between(low, high), -1 if low.costs else 1
            seen[found.answer] += 1
            corners = [[Fraction(0), *(sign * q for q in corner)] for corner in set(product(*zip(least, most)))]
            cores = {exact_core(corner) for corner in corners}
            self.assertEqual(cores, {"surely": {True}, "never": {False}, "perhaps": {True, False}}[found.answer])
            if found.shares is not None:
                self.assert_stays(corners, [sign * share for share in found.shares.values()], draw)
            self.assertEqual(sum(asked.by for asked in found.next()) >= found.gap, found.answer != "never")
        self.assertTrue(all(seen.values()), seen)

    def assert_stays(self, corners: "list[list[Fraction]]", shares: "list[Fraction]", draw: random.Random) -> None:
        """No group leaves, however what all together are worth more is given."""
        for worths in corners:
            more = worths[7] - sum(shares)
            parts = [Fraction(draw.randint(0, 3)) for _ in shares]
            given = [q + more * part / (sum(parts) or 1) for q, part in zip(shares, parts)]
            given[0] += worths[7] - sum(given)
            self.assertTrue(more >= 0 and all(
                sum(given[i] for i in exact.members(group)) >= worths[group] for group in range(1, 8)
            ))


def exact_core(v: "list[Fraction]") -> bool:
    """Whether three players have a core point, by the five minimal balanced collections."""
    pairs = [v[1] + v[6], v[2] + v[5], v[4] + v[3], (v[3] + v[5] + v[6]) / 2]
    return v[7] >= max(v[1] + v[2] + v[4], *pairs)


if __name__ == "__main__":
    unittest.main()
