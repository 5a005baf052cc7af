"""Orders of vectors, against each other and against what is written here."""
import random
import unittest
from fractions import Fraction

import coop
from coop import BadInput
from coop.masks import by_mask, by_size, mask_of
from coop.vectors import in_mask_order, in_order, players_of

# Four players by size, as CoopGame writes them.
BY_SIZE = [(1,), (2,), (3,), (4,), (1, 2), (1, 3), (1, 4), (2, 3), (2, 4), (3, 4)]
BY_SIZE += [(1, 2, 3), (1, 2, 4), (1, 3, 4), (2, 3, 4), (1, 2, 3, 4)]


class Orders(unittest.TestCase):
    def test_by_hand(self) -> None:
        self.assertEqual(by_size(4), [mask_of(i - 1 for i in group) for group in BY_SIZE])
        self.assertEqual(by_mask(3), [1, 2, 3, 4, 5, 6, 7])
        digits = [Fraction(text) for text in ("1", "2", "3", "12", "13", "23", "123")]
        self.assertEqual([int(x) for x in in_mask_order(digits, "size")], [1, 2, 12, 3, 13, 23, 123])

    def test_there_and_back(self) -> None:
        draw = random.Random(1)
        for players in range(1, 8):
            worths = [Fraction(draw.randrange(100)) for _ in range(2**players - 1)]
            for order in ("mask", "size"):
                self.assertEqual(in_mask_order(in_order(worths, order), order), worths)
                self.assertEqual(in_mask_order([Fraction(0), *in_order(worths, order)], order), worths)

    def test_random_games_in_each_order_are_one_game(self) -> None:
        draw = random.Random(2)
        for players in range(1, 7):
            worths = {group: draw.randrange(1000) for group in BY_SIZE if max(group) <= players}
            if players > 4:
                worths = {
                    tuple(i + 1 for i in range(players) if s >> i & 1): draw.randrange(1000)
                    for s in range(1, 2**players)
                }
            groups = sorted(worths, key=lambda group: (len(group), group))
            masks = sorted(worths, key=lambda group: mask_of(i - 1 for i in group))
            by_dict = coop.table(worths)
            self.assertEqual(coop.table([worths[group] for group in groups], order="size").tree, by_dict.tree)
            self.assertEqual(coop.table([worths[group] for group in masks], order="mask").tree, by_dict.tree)
            shuffled = list(worths.items())
            draw.shuffle(shuffled)
            self.assertEqual(coop.table(dict(shuffled)).tree, by_dict.tree)

    def test_the_order_has_to_be_named(self) -> None:
        """The numbers of savings-per-head.json, by size: of the two orders only one is that game."""
        for make in (coop.table, coop.cost_table):
            with self.assertRaisesRegex(BadInput, "name the `order` of the vector"):
                make([0, 0, 0, 6, 2, 2, 12])
            with self.assertRaisesRegex(BadInput, "`order` is for a vector"):
                make({1: 1}, order="mask")
            two = [make([1, 2, 4], order=order).tree["worths"] for order in (None, "mask", "size")]
            self.assertEqual(two, [[1, 2, 4]] * 3)

    def test_lengths(self) -> None:
        self.assertEqual([players_of(2**n - 1) for n in range(1, 17)], list(range(1, 17)))
        for length in (0, 2, 4, 6, 8, 2**17 - 1):
            with self.assertRaises(BadInput, msg=length):
                players_of(length)


if __name__ == "__main__":
    unittest.main()
