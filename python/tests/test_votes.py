"""Votes with decimals, and of any number of voters, against the program where it takes them."""
import random
import unittest
from fractions import Fraction

import coop
from coop import families, votes
from coop.amounts import Amount
from coop.errors import BadInput

from .asking import needs_program


class Votes(unittest.TestCase):
    def test_games(self) -> None:
        """Votes that fit stay as they are; decimals become the least whole ones; the rest a table."""
        cases = [
            (coop.voting(5, [4, 2, 2]), {"class": "voting", "quota": 5, "weights": [4, 2, 2]}),
            (coop.voting("2.5", {"a": "1.5", "b": 1, "c": "0.5"}), {
                "class": "voting", "names": ["a", "b", "c"], "quota": 5, "weights": [3, 2, 1]
            }),
            (coop.voting(50001, [50000, 30000, 20000]), {"class": "voting", "quota": 6, "weights": [5, 3, 2]}),
            (coop.voting(5001, {"a": 4123, "b": 3877, "c": 2000}), {
                "class": "table", "names": ["a", "b", "c"], "players": 3, "worths": [0, 0, 1, 0, 1, 1, 1]
            }),
            (coop.voting(4, [2, 1]), {"class": "voting", "quota": 4, "weights": [2, 1]}),
        ]
        for game, tree in cases:
            self.assertEqual(game.tree, tree)
        refused: list[tuple[str, Amount, list[int]]] = [
            ("17 voters are too many", 9999, [1001 + k for k in range(17)]),
            ("a quota of 2000.5|within reach", "2000.5", [1000, 1000]),
            ("-1 is below 0", "1.5", [-1, 4]),
        ]
        for sentence, quota, weights in refused:
            with self.assertRaisesRegex(BadInput, sentence):
                coop.voting(quota, weights)

    def test_by_hand(self) -> None:
        self.assertEqual(votes.shapley(5, {"a": 4, "b": 2, "c": 1}), {
            "a": Fraction(2, 3), "b": Fraction(1, 6), "c": Fraction(1, 6)
        })
        self.assertEqual(votes.shapley("0.5", {"a": "0.3", "b": "0.7"}), {"a": 0, "b": 1})
        self.assertEqual(set(votes.shapley(2, [1, "1.5", 1]).items()), {(name, Fraction(1, 3)) for name in "123"})
        self.assertEqual(votes.shapley(0.5, [0.3, 0.7], digits=1), {"1": 0, "2": 1})
        self.assertEqual(coop.voting(0.5, [0.3, 0.7], digits=1), coop.voting(5, [3, 7]))
        hundred = votes.shapley(51, {str(k): 1 for k in range(100)})
        self.assertEqual(set(hundred.values()), {Fraction(1, 100)})
        refused: list[tuple[str, int, dict[str, Amount]]] = [
            ("no votes", 1, {}),
            ("above 0", 0, {"a": 1}),
            ("within reach", 2, {"a": 1}),
            ("below 0", 1, {"a": -1, "b": 3}),
        ]
        for sentence, quota, some in refused:
            with self.assertRaisesRegex(BadInput, sentence):
                votes.shapley(quota, some)
        with self.assertRaisesRegex(BadInput, "round the votes"):
            votes.shapley(10**9, {"a": 10**9, "b": 10**9 - 1, "c": 3})

    def test_published(self) -> None:
        """The Electoral College of 1972 to 1980 (Owen 1975): California, New York, Pennsylvania, Indiana."""
        states = [45, 41, 27, 26, 26, 25, 21, 17, 17, 14, 13, 13, 12, 12, 12, 11, *[10] * 4, *[9] * 3, *[8] * 4]
        states += [*[7] * 3, *[6] * 4, 5, *[4] * 9, *[3] * 7]
        self.assertEqual((len(states), sum(states)), (51, 538))
        power = votes.shapley(270, {str(k): votes_of for k, votes_of in enumerate(states)})
        shown = [f"{float(power[str(k)]):.5f}" for k in (0, 1, 2, 10)]
        self.assertEqual(shown, ["0.08831", "0.07973", "0.05096", "0.02388"])

    @needs_program
    def test_against_the_program(self) -> None:
        draw = random.Random(32)
        for _ in range(20):
            n = draw.randint(1, 32)
            weights = {f"v{k}": Fraction(draw.randint(0, 31), draw.choice([1, 1, 2])) for k in range(n)}
            total = sum(weights.values())
            if not total:
                continue
            quota = total * Fraction(draw.randint(1, 100), 100)
            game = coop.voting(quota, weights)
            if game.kind == "voting":
                self.assertEqual(votes.shapley(quota, weights), coop.shapley(game).shares)


class Families(unittest.TestCase):
    def test_games(self) -> None:
        for kind in families.KINDS:
            game = families.game(kind, 5, 1)
            self.assertEqual((game.n, game.tree), (5, families.game(kind, 5, 1).tree))
            self.assertNotEqual(game.tree, families.game(kind, 6, 1).tree)
        self.assertEqual(families.game("III", 3, 1).tree["worths"], [0, 0, 3, 0, 2, 3, 3])
        for sentence, kind, players in (("is no family", "V", 5), ("2 players", "I", 2), ("3.0 players", "I", 3.0)):
            with self.assertRaisesRegex(BadInput, sentence):
                families.game(kind, players, 1)  # type: ignore[arg-type]


if __name__ == "__main__":
    unittest.main()
