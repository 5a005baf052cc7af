"""Games without some players, and after an overrun."""
import random
import unittest
from fractions import Fraction
from typing import Any

import coop
from coop.masks import mask_of, members
from coop.desk.typed import amount
from coop.variants import overrun, table_of_game, without

from .test_excesses import drawn_games


class Variants(unittest.TestCase):
    def test_those_who_stay_keep_their_worths(self) -> None:
        """Over random games of each class: each group of those who stay is worth what it was."""
        draw = random.Random(8)
        for game in drawn_games(draw):
            for leaving in range(game.n):
                if game.kind == "assignment" and leaving in (3, 4) and len(game.rows[0]) == 1:
                    continue
                found = without(game, [game.names[leaving]])
                stay = [i for i in range(game.n) if i != leaving]
                self.assertEqual((found.n, found.kind, found.per_head), (game.n - 1, game.kind, game.per_head))
                for group in range(1, 2**found.n):
                    self.assertEqual(found.worth(group), game.worth(mask_of(stay[k] for k in members(group))))

    def test_names(self) -> None:
        game = coop.airport({"light": 2, "medium": 4, "heavy": 6})
        self.assertEqual(
            without(game, ["heavy", "light"]).tree, {"class": "airport", "costs": [4], "names": ["medium"]}
        )
        self.assertEqual(without(coop.airport([2, 4]), ["1"]).tree, {"class": "airport", "costs": [4]})
        with self.assertRaisesRegex(coop.BadInput, r"isn't a player: \\u03ac looks like it \(\\u03b1\\u0301\)"):
            without(coop.airport({"\u03ac": 1, "b": 2}), ["\u03b1\u0301"])
        cases: list[tuple[Any, str]] = [
            (["x"], "x isn't a player"), (game.names, "no player stays"), ("heavy", "isn't a list of names"),
            ([1], "1 isn't a player: there are light, medium, heavy; give a name, not a place"),
        ]
        for leaving, sentence in cases:
            with self.assertRaisesRegex(coop.BadInput, sentence):
                without(game, leaving)
        with self.assertRaisesRegex(coop.BadInput, "a buyer and a seller"):
            without(coop.assignment([[1], [2]]), ["3"])

    def test_an_overrun(self) -> None:
        game = coop.cost_table({"a": 2, "b": 3, "a+b": 4})
        self.assertEqual(overrun(game, "0.5").tree["worths"], [2, 3, "9/2"])
        self.assertEqual(overrun(game, -1, per_head=True).tree["excess"], "per-head")
        self.assertEqual(overrun(game, 0).tree, game.tree)
        runway = overrun(coop.airport({"a": 1, "b": 2}), 1)
        self.assertEqual(
            runway.tree, {"class": "cost-table", "players": 2, "names": ["a", "b"], "worths": [1, 2, 3]}
        )
        with self.assertRaisesRegex(coop.BadInput, "17 players: a table has 1 to 16"):
            overrun(coop.airport([1] * 17), 1)

    def test_numbers_that_no_document_has(self) -> None:
        """A document has them times a factor; the games beside it have the same numbers as the game."""
        game = coop.airport({"a": "1.0000001", "b": 2, "c": 3})
        self.assertEqual(game.factor, 10**7)
        for other, whole in ((table_of_game(game), 3), (overrun(game, 1), 4), (overrun(table_of_game(game), 1), 4)):
            numbers = other.whole() / other.factor, other.alone(0) / other.factor
            self.assertEqual(numbers, (whole, Fraction("1.0000001")))
        left = without(game, ["c"])
        self.assertEqual((left.whole() / left.factor, left.alone(0) / left.factor), (2, Fraction("1.0000001")))
        links = without(coop.tree([[0, "1.0000001", 1], ["1.0000001", 0, 1], [1, 1, 0]]), ["2"])
        self.assertEqual(links.whole() / links.factor, Fraction("1.0000001"))

    def test_an_amount_that_is_typed(self) -> None:
        cases = [
            ("400", "400"),
            ("12.50", "25/2"),
            ("12,50", "25/2"),
            ("-0,125", "-1/8"),
            ("1.234,50", "2469/2"),
            ("1,234.50", "2469/2"),
            ("1,234,567", "1234567"),
            ("25/2", "25/2"),
            ("10%", "20"),
            ("-7,5 %", "-15"),
            ("1/3%", "2/3"),
        ]
        for text, wanted in cases:
            self.assertEqual(amount(text, Fraction(200)), Fraction(wanted), text)
        refused = [
            ("356,852", "356,852 may be 356.852 or 356852: write 89213/250 or 356852"),
            ("1.500", "1.500 may be 1.5 or 1500: write 3/2 or 1500"),
            ("1.2345,5", "isn't a number"),
            ("ten%", "'ten' isn't a number"),
            ("%", "isn't a number"),
        ]
        for text, sentence in refused:
            with self.assertRaisesRegex(coop.BadInput, sentence):
                amount(text, Fraction(200))

    def test_the_table_of_a_game(self) -> None:
        for game in drawn_games(random.Random(9)):
            table = table_of_game(game)
            self.assertEqual((table.costs, table.per_head), (game.costs, game.per_head))
            self.assertEqual(
                [table.worth(s) for s in range(1, game.everyone + 1)],
                [game.worth(s) for s in range(1, game.everyone + 1)],
            )


if __name__ == "__main__":
    unittest.main()
