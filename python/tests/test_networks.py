"""Tables of costs from links."""
import random
import unittest
from itertools import combinations
from typing import Optional

import coop
from coop.networks import table_of_links

# From the source to a costs 5, and from there 3 to b and 4 to c.
LINKS = {("source", "a"): 5, ("a", "b"): 3, ("a", "c"): 4}


class Networks(unittest.TestCase):
    def test_ways_that_share_a_stretch(self) -> None:
        tree = {"class": "cost-table", "players": 3, "names": ["a", "b", "c"], "worths": [5, 8, 8, 9, 9, 12, 12]}
        self.assertEqual(table_of_links(LINKS).tree, tree)

    def test_what_is_refused(self) -> None:
        cases: list[tuple[dict[tuple[str, str], int], bool, str]] = [
            (LINKS, False, "no links join b to the source"),
            ({("a", "b"): 1}, True, "no links join a to"),
            ({**LINKS, ("a", "source"): 6}, True, "is given twice"),
            ({("a", "a"): 1}, True, "to itself"),
            ({("source", "a"): -1}, True, "less than nothing"),
            ({}, True, "0 players"),
        ]
        for links, by_way, sentence in cases:
            with self.assertRaisesRegex(coop.BadInput, sentence):
                table_of_links(links, by_way_of_others=by_way)

    def test_names(self) -> None:
        tree = {"class": "cost-table", "players": 2, "names": ["b", "a"], "worths": [8, 5, 8]}
        links = {("source", "a"): 5, ("a", "b"): 3}
        self.assertEqual(table_of_links(links, names=["b", "a"]).tree, tree)
        both = {("source", "Ash"): 5, ("ash", "Ash"): 3}
        self.assertEqual(table_of_links(both, names=["Ash", "ash"]).names, ["Ash", "ash"])
        cases: list[tuple[dict[tuple[str, str], int], Optional[list[str]], str]] = [
            (both, None, "Ash and ash differ only in capitals"),
            ({("Source", "a"): 5}, None, "source and Source differ"),
            (both, ["Ash"], "a link has ash, which is neither source nor one of the names Ash"),
            (links, ["a", "b", "c"], "no links join c to the source"),
        ]
        for links, names, sentence in cases:
            with self.assertRaisesRegex(coop.BadInput, sentence):
                table_of_links(links, names=names)

    def test_no_network_is_cheaper(self) -> None:
        """Against all sets of links that join a group, over random networks of four; and trees against the class."""
        draw = random.Random(4)
        points = ["source", *"abcd"]
        for density in (1, 1, 0.75, 0.75, 0.5):
            links = {pair: draw.randrange(1, 30) for pair in combinations(points, 2) if draw.random() < density}
            links.update({("source", name): draw.randrange(20, 40) for name in "abcd"})
            game = table_of_links(links)
            names = game.names
            for group in range(1, 16):
                wanted = {"source", *(names[i] for i in range(4) if group >> i & 1)}
                sums = (
                    sum(links[pair] for pair in some)
                    for size in range(1, 5)
                    for some in combinations(links, size)
                    if wanted <= joined(some)
                )
                self.assertEqual(game.amounts[group], min(sums))
            own = table_of_links(links, by_way_of_others=False)
            rows = [[cost_of(links, one, other) for other in ["source", *names]] for one in ["source", *names]]
            self.assertTrue(density < 1 or None not in [cost for row in rows for cost in row])
            if density == 1:
                tree = coop.tree([[cost or 0 for cost in row] for row in rows], names)
                self.assertEqual(own.amounts[1:], [-tree.worth(group) for group in range(1, 16)])


def joined(some: tuple[tuple[str, str], ...]) -> set[str]:
    """What some links join to the source."""
    found = {"source"}
    for _ in some:
        found |= {name for pair in some if found & set(pair) for name in pair}
    return found


def cost_of(links: dict[tuple[str, str], int], one: str, other: str) -> Optional[int]:
    """What the link of two points costs, or None."""
    if one == other:
        return 0
    return links[one, other] if (one, other) in links else links.get((other, one))


if __name__ == "__main__":
    unittest.main()
