"""Documents and lines with their amounts divided: each group's worth, and each amount of a line."""
import json
import os
import unittest
from typing import Any

from coop.errors import BadInput
from coop.game import Game
from coop.desk.over import divided
from coop.program import TOP

EXAMPLES = os.path.join(TOP, "examples")
VOTES = {"council-1958.json", "security-council.json", "votes.json"}
LINES: list[tuple[Any, Any]] = [
    ({"answer": "blocked", "coalition": [7], "excess": "14"}, {"answer": "blocked", "coalition": [7], "excess": 2}),
    (
        {"against": "7", "answer": "empty core", "collection": [[[1, 2], 7]], "k": 7, "value": "21/2"},
        {"against": 1, "answer": "empty core", "collection": [[[1, 2], 7]], "k": 7, "value": "3/2"},
    ),
    (
        {"answer": "bird", "shares": ["7", "1"], "tree": [[0, 1, 7], [1, 2, 1]]},
        {"answer": "bird", "shares": [1, "1/7"], "tree": [[0, 1, 1], [1, 2, "1/7"]]},
    ),
    (
        {"answer": "matching", "buyers best": ["7"], "pairs": [[1, 7]], "sellers best": ["0"], "value": "7"},
        {"answer": "matching", "buyers best": [1], "pairs": [[1, 7]], "sellers best": [0], "value": 1},
    ),
    (
        {"answer": "no imputation", "singles": "14", "total": "7"},
        {"answer": "no imputation", "singles": 2, "total": 1},
    ),
    (
        {"answer": "not convex", "deficit": "7", "i": 7, "j": 14, "set": [7]},
        {"answer": "not convex", "deficit": 1, "i": 7, "j": 14, "set": [7]},
    ),
    (
        {"certificate": {"mode": "players", "levels": [{"excess": "-7", "coalitions": [[[7], 7]], "total": 7}]}},
        {"certificate": {"mode": "players", "levels": [{"excess": -1, "coalitions": [[[7], 7]], "total": 7}]}},
    ),
]


class Over(unittest.TestCase):
    def test_each_group_is_worth_so_much_less(self) -> None:
        names = {name for name in os.listdir(EXAMPLES) if name.endswith(".json")}
        for name in sorted(names - VOTES):
            with open(os.path.join(EXAMPLES, name), encoding="utf-8") as file:
                tree = json.load(file)
            game, less = Game(tree["game"]), Game(divided(tree, 7)["game"])
            for group in range(0, game.everyone + 1, 1 + game.everyone // 64):
                self.assertEqual(game.worth(group) / 7, less.worth(group), name)
            self.assertEqual((less.names, less.per_head), (game.names, game.per_head))

    def test_amounts_of_lines(self) -> None:
        for line, less in LINES:
            self.assertEqual(divided(line, 7), less)
            self.assertEqual(divided(line, 1), line)

    def test_what_is_refused(self) -> None:
        with self.assertRaisesRegex(BadInput, "a vote has no amounts"):
            divided({"game": {"class": "voting", "quota": 1, "weights": [1]}}, 2)
        with self.assertRaisesRegex(BadInput, "an amount: 1.5 is no integer"):
            divided({"shares": [1.5]}, 2)
        trees: list[Any] = [{"tree": [[1, 2]]}, {"tree": 7}, {"certificate": []}, {"certificate": {"levels": [{}]}}]
        for tree in trees:
            with self.assertRaisesRegex(BadInput, "isn't a whole document or line"):
                divided(tree, 2)


if __name__ == "__main__":
    unittest.main()
