"""Slips, which the page's modules find: by what is written here, and against the program."""
import copy
import json
import pickle
import random
import unittest
from typing import Any, Iterator
from unittest.mock import patch

import coop
from coop.calls import COMMANDS
from coop.program import find
from coop.telling import slips

from .asking import Answering, needs_node, needs_program

SLIPS = {
    '{"game":{"class":"airport","cost":[2,4,6]}}': "3 game.cost: The key “cost” has no place here; is it “costs”?",
    '{"class":"airport","costs":[2]}': '3 the document: This is a game alone; write {"game":{…}} around it.',
    '{"game":{"class":"Airport","costs":[2]}}': "3 game.class: The class is none of table, cost-table, airport, "
    "bankruptcy, tree, assignment, market, voting. Is it “airport”?",
    '{"game":{"class":"tree","matrix":[[0,5,8],[5,0,null],[8,null,0]]}}': "3 game.matrix, row 2, item 3: null is where "
    "a number belongs. A link that doesn’t exist needs a number, too.",
    '{"game":{"class":"table","players":2,"worths":[0,1,2,3]}}': "4 game.worths: 2 players have 3 groups, and worths "
    "has 4 items. The empty group has none.",
    '{"game":{"class":"airport","costs":[2,1.5]}}': "5 game.costs, item 2 (the cost of player 2): 1.5 is no whole "
    'number. Write "3/2", and "version":2 in the game.',
    '{"game":{"class":"airport","costs":[2,200.0]}}': "5 game.costs, item 2 (the cost of player 2): 200.0 is no whole "
    "number. Write 200.",
    '{"game":{"class":"airport","costs":[2,0.2875775201],"version":2}}': "5 game.costs, item 2 (the cost of player 2): "
    '0.2875775201 is no whole number. Write fewer decimals, such as "719/2500"; or multiply all numbers (--scaled of '
    "scripts/from-vector).",
    '{"game":{"class":"airport","costs":["2195/100"],"version":2,"names":["Ann"]}}': "5 game.costs, item 1 (the cost "
    'of Ann): “2195/100” isn’t in lowest terms; write "439/20".',
    '{"game":{"class":"airport","costs":["2e30944731"],"version":2}}': "5 game.costs, item 1 (the cost of player 1): "
    '“2e30944731” is no fraction, as "25/2". Write a fraction as a text, "25/2".',
    '{"game":{"class":"airport","costs":["1,5"],"version":2}}': "5 game.costs, item 1 (the cost of player 1): “1,5” is "
    'no fraction, as "25/2". Write "3/2".',
    '{"game":{"class":"airport","costs":[1,2],"names":["bob","bob"]}}': "6 game.names, item 2: The name “bob” occurs "
    "twice.",
    '{"game":{"class":"table","players":2,"sparse":[[[1,2],3],[[2,1],4]]}}': "7 game.sparse, item 2: The group is at "
    "item 1 already.",
    '{"game":{"class":"bankruptcy","claims":[1,2],"estate":4}}': "8 game.estate: The claims add to less than the "
    "estate. Then each gets its claim, and no rule is needed.",
    '{"game":{"class":"tree","matrix":[[0,1],[2,0]]}}': "9 game.matrix, row 2, item 1: A link costs the same in both "
    "directions; these two differ.",
    '{"game":{"class":"voting","quota":600,"weights":[500,300,300]}}': "13 game.weights: The votes add to 1100, and "
    "the program takes 1,000. Divide all by a common divisor.",
    "": "2 the document: It is empty.",
    '{"game":\n{"class":"airport","costs":[2,]}}': "2 line 2, column 31: It is no JSON text: a value is missing. There "
    "is a comma before ].",
    "{'game':1}": "2 line 1, column 2: It is no JSON text: a key in double quotes is missing. JSON has double quotes, "
    "not single ones.",
    '{"game":1} {}': "2 line 1, column 12: It is no JSON text: something stands behind the document.",
    '{"game":{"class":': "2 line 1, column 18: It is no JSON text: it ends too early.",
    '{"game":{"class":"airport","costs":[NaN]}}': "2 line 1, column 37: It is no JSON text: a value is missing.",
    '{"game":{"class":"airport","costs":[1],"names":["\\ud800"]}}': "2 line 1, column 50: It is no JSON text: a text "
    "has half of a character.",
}

GAMES: list[dict[str, Any]] = [
    {"class": "table", "players": 3, "worths": [0, 0, 4, 0, 0, 0, 9]},
    {
        "class": "table",
        "players": 2,
        "names": ["ann", "bob"],
        "default": 1,
        "sparse": [[["bob", 1], 4], [[2], "7/2"]],
        "version": 2,
    },
    {"class": "cost-table", "players": 2, "worths": [8, 7, 11], "excess": "per-head"},
    {"class": "airport", "costs": [2, 4, "13/2"], "names": ["a", "b", "c"], "version": 2},
    {"class": "bankruptcy", "claims": [10, 20, 30], "estate": 45, "version": 1},
    {"class": "tree", "matrix": [[0, 7, 9], [7, 0, 2], [9, 2, 0]]},
    {"class": "assignment", "matrix": [[5, 8, 2], [7, 6, 3]]},
    {"class": "market", "matrix": [[5], [7]]},
    {"class": "voting", "quota": 5, "weights": [4, 2, 1]},
]
LEVEL: dict[str, Any] = {
    "excess": "-1",
    "coalitions": [[[1], 1], [[2, 3], 1]],
    "earlier": [],
    "bounds": [[2, 1]],
    "total": 1,
}
LEVELS = [LEVEL, {**LEVEL, "excess": "-3/2", "coalitions": [[[1, 2], 1]], "earlier": [[[1], -1]]}]
CERTIFICATE: Any = {"mode": "players", "levels": LEVELS}
VALUES: list[Any] = json.loads(
    """[null, true, 0, 1, -1, 2, 3, 17, 65, 2.5, 1e300, 1099511627776, 9223372036854775808, "", "1", "1/2", "2/4", "-0",
    "1.5", "ann", "b", "span", "plain", "1/65537", "1/9223372036854775809", [], {}, [1, 1], [[1], 1], [[], 1],
    [[3, 1], 1], [1, 2, 3], "airport", "table"]"""
)
VALUES += ["é" * 33, "9" * 39, "1/" + "9" * 38]


def checked(game: Any, shares: list[Any], *levels: Any, mode: str = "players") -> tuple[str, bytes]:
    """A document to check."""
    certificate = {"mode": mode, "levels": list(levels)}
    return (
        "check",
        json.dumps({"answer": "nucleolus", "certificate": certificate, "game": game, "shares": shares}).encode(),
    )


def asked(game: Any, command: str = "nucleolus", shares: Any = None) -> tuple[str, bytes]:
    """A document for another command."""
    return command, json.dumps({"game": game} if shares is None else {"game": game, "shares": shares}).encode()


THREE: Any = {"class": "airport", "costs": [2, 4, 6]}
ONE: Any = {"excess": "-1", "coalitions": [[[1], 1]], "earlier": [], "bounds": [], "total": 1}
# Each a step beside a limit, on this side and on that.
EDGES: list[tuple[str, bytes]] = [
    *(
        asked({"class": "airport", "costs": costs, "version": 2})
        for costs in (["1/65535", "1/65536"], ["1/65536", "1/2"])
    ),
    *(
        asked({"class": "airport", "costs": ["1/3", cost], "version": 2})
        for cost in ((2**40 - 1) // 3, 2**40 // 3 + 1)
    ),
    *(asked({"class": "voting", "quota": quota, "weights": [2, 1]}) for quota in (0, 1, 3, 4)),
    *(asked({"class": "voting", "quota": 1, "weights": [weight]}) for weight in (1000, 1001)),
    *(asked({"class": "voting", "quota": 1, "weights": [1] * count}) for count in (32, 33)),
    *(asked({"class": "airport", "costs": [1] * count}) for count in (64, 65)),
    *(asked({"class": "table", "players": players, "sparse": []}) for players in (0, 16, 17, 1.0)),
    *(asked({"class": "tree", "matrix": [[0] * count] * count}) for count in (1, 17, 18)),
    *(asked({"class": "assignment", "matrix": [[1] * count]}) for count in (0, 15, 16)),
    *(asked({"class": "market", "matrix": [[1] * count] * 32}, "matching") for count in (32, 33)),
    *(asked({"class": "market", "matrix": [[1]] * count}, "matching") for count in (32, 33)),
    *(asked({"class": "tree", "matrix": rows}) for rows in ([[0, 1], [1]], [[0, 1], [1, 0, 2]], [[1, 1], [1, 0]])),
    *(asked({"class": "airport", "costs": [1], "names": [name]}) for name in ("é" * 32, "é" * 33, "")),
    *(asked({"class": "airport", "costs": [1, 2], "names": names}) for names in (["a"], ["a", "a"], ["a", "b", "c"])),
    *(
        asked({"class": "bankruptcy", "claims": [1, "1/2"], "estate": estate, "version": 2})
        for estate in ("3/2", "5/3", 2)
    ),
    *(
        asked({"class": "table", "players": 2, "names": ["a", "b"], "sparse": [[group, 1]]})
        for group in ([0], [3], [], [1, 1], [1, "a"], ["c"], [1.5], [2])
    ),
    *(
        asked({"class": "airport", "costs": [1]}, "propose", [share])
        for share in (
            2**63 - 1,
            2**63,
            str(2**110 - 1),
            str(2**110),
            f"1/{2**63}",
            f"1/{2**63 + 1}",
            "9" * 40,
            str(-(2**127)),
        )
    ),
    *(asked({"class": "table", "players": 1, "sparse": [item]}) for item in ([[1], 1], [[1], 1, 1], [[1]], 1)),
    checked(THREE, [1, 2, 3], ONE, ONE),
    checked(THREE, [1, 2, 3], ONE, ONE, ONE),
    *(
        checked(THREE, [1, 2, 3], {**ONE, "excess": excess})
        for excess in ("1", "2/4", "-0", "1.5", "", "9" * 39, str(2**127 - 1))
    ),
    *(
        checked(THREE, [1, 2, 3], {**ONE, "total": total})
        for total in (2**63 - 1, 2**63, -(2**63), 1 - 2**63, 0.5)
    ),
    *(
        checked(THREE, [1, 2, 3], {**ONE, "coalitions": [[group, 1]]})
        for group in ([], [1, 2, 3], [2, 1], [1, 1], [0], [4], [1.0], [1, 3])
    ),
    *(
        checked(THREE, [1, 2, 3], {**ONE, "coalitions": pairs})
        for pairs in ([], [[[2], 1], [[1], 1]], [[[1], 1], [[1], 1]], [[[1], 1], [[2], 1]])
    ),
    *(checked(THREE, [1, 2, 3], ONE, {**ONE, "earlier": [[group, 1]]}) for group in ([1], [2])),
    checked(THREE, [1, 2, 3], {**ONE, "earlier": [[[1], 1]]}),
    *(
        checked(THREE, [1, 2, 3], {**ONE, "bounds": bounds})
        for bounds in ([[1, 1], [2, 0]], [[2, 1], [1, 1]], [[1, 1], [1, 1]], [[4, 1]], [[0, 1]], [[1, 2**63]])
    ),
    *(checked({"class": "airport", "costs": [1] * count}, [0] * count, mode="span") for count in (16, 17)),
]


def spoilt(document: Any, draw: random.Random) -> None:
    """Puts another value, another place or nothing in the place of some part."""
    tree: Any = document
    parent: Any = None
    key: Any = None
    while isinstance(tree, (dict, list)) and tree and (parent is None or draw.random() < 0.8):
        parent, key = tree, draw.choice(sorted(tree) if isinstance(tree, dict) else range(len(tree)))
        tree = parent[key]
    if parent is None:
        return
    way = draw.random()
    if way < 0.15:
        del parent[key]
    elif way < 0.25 and isinstance(parent, list):
        parent.append(copy.deepcopy(draw.choice(parent)))
    elif way < 0.35 and isinstance(parent, dict):
        parent[draw.choice(["version", "excess", "names", "worths", "default", "estate", "x"])] = draw.choice(VALUES)
    else:
        parent[key] = copy.deepcopy(draw.choice(VALUES))


def documents(count: int) -> Iterator[tuple[str, bytes]]:
    """Commands and documents, whole and spoilt once or twice, the same at each call."""
    draw = random.Random(5)
    for number in range(count):
        game: Any = copy.deepcopy(GAMES[number % len(GAMES)])
        document: dict[str, Any] = {"game": game}
        command = draw.choice(COMMANDS)
        if command in ("propose", "kernel", "check") or draw.random() < 0.3:
            document["shares"] = [1, "3/2", "7/2"][: draw.choice([2, 3, 3, 3])]
        if command == "check" or draw.random() < 0.2:
            document.update(answer="nucleolus", certificate=copy.deepcopy(CERTIFICATE))
        for _ in range(draw.randrange(3)):
            spoilt(document, draw)
        yield command, json.dumps(document).encode()


@needs_node
class Slips(unittest.TestCase):
    def test_by_hand(self) -> None:
        for text, wanted in SLIPS.items():
            slip, _ = slips(text.encode())
            self.assertEqual(f"{slip.number} {slip}" if slip else None, wanted)
        self.assertEqual(slips(b'{"game":{"class":"airport","costs":[2,4,6]}}'), (None, None))
        for data, number in ((b"\xff", 2), (b"\xef\xbb\xbf{}", 2), (b" " * 2097153, 1), (b"[" * 128 + b"]" * 128, 2)):
            slip, _ = slips(data)
            self.assertEqual(slip and slip.number, number)

    def test_a_key_that_stands_twice(self) -> None:
        """The first place in the order of the text, however the key is written; none in what is no JSON."""
        sentence = "the key {} is given twice, and the last one counts"
        for text, place, key in (
            ('{"game":{"class":"airport","costs":[2],"costs":[3]}}', "game", '"costs"'),
            ('{"x":[0,{"a":{"b":1,"\\u0062":2}}],"y":{"c":1,"c":1}}', "x, item 2.a", '"b"'),
            ('{"a\u202e":1,"a\u202e":2}', "the document", '"a\\\\u202e"'),
        ):
            self.assertEqual(str(slips(text.encode())[1]), f"{place}: {sentence.format(key)}")
        long = f'{{"{"k" * 500}":{{"{"k" * 500}":1,"{"k" * 500}":1}}}}'
        self.assertLess(len(str(slips(long.encode())[1])), 220)
        for text in ('{"a":1,"b":[{"a":1},{"a":1}]}', "", "[" * 5000, '{"a":1,"a":2} x', "\ufeff{}", "7"):
            self.assertIsNone(slips(text.encode())[1])

    def test_large(self) -> None:
        """What is longer than any document is too long; and one of millions of parts is read."""
        slip, _ = slips(b" " * 8388609, "check")
        self.assertEqual(slip and (slip.number, slip.name), (1, "TooLong"))
        for part in (b"[]", b"{}", b'{"a":1}'):
            slip, _ = slips(b"[" + b",".join([part] * (8388608 // (len(part) + 1) - 2)) + b"]", "check")
            self.assertEqual(slip and slip.number, 3)

    @needs_program
    def test_the_program_refuses_the_same(self) -> None:
        program, seen = find(), set()
        texts = [(command, text.encode()) for text in SLIPS for command in ("nucleolus", "propose")]
        fine = b'{"game":{"class":"airport","costs":[1]},"shares":["1/9223372036854775809"]}'
        texts += [("propose", fine), ("core", b" " * 2097153)]
        for command, text in [*texts, *EDGES, *documents(2000)]:
            status, line = program.run([command], text)
            found = json.loads(line) if status == 3 else {"number": None, "refused": None}
            slip, _ = slips(text, command)
            number, name = (slip.number, slip.name) if slip else (None, None)
            self.assertEqual((number, name), (found["number"], found["refused"]), (command, text, slip))
            seen.add(number)
        self.assertEqual(seen, {None, *range(1, 14)})


class Refusals(unittest.TestCase):
    """The place of a mistake is sought when it is asked for, and no answer needs Node."""

    def refused(self) -> coop.Refused:
        """A document that was refused."""
        with self.assertRaises(coop.Refused) as found:
            program = Answering(3, '{"number":5,"refused":"Number"}')
            coop.propose(coop.airport([1]), ["1/170141183460469231731687303715884105728"], program=program)
        return found.exception

    @needs_node
    def test_where(self) -> None:
        place = "shares, item 1 (the share of player 1)"
        one, other = self.refused(), pickle.loads(pickle.dumps(self.refused()))
        for fault in (one, other):
            self.assertEqual(fault.where and fault.where.place, place)
            self.assertTrue(str(fault).startswith(f"refused, 5 Number: {place}: "))

    def test_without_node(self) -> None:
        with patch("coop.telling.page_server", lambda: None):
            fault = self.refused()
            self.assertEqual((str(fault), fault.where), ("refused, 5 Number", None))
            with self.assertRaisesRegex(coop.NotFound, "no Node on the path .* answers don't need it"):
                slips(b"{}")

    @needs_node
    def test_another(self) -> None:
        """A place of another refusal isn't the document's."""
        with self.assertRaises(coop.Refused) as found:
            coop.core(coop.airport([1]), program=Answering(3, '{"number":3,"refused":"Shape"}'))
        self.assertEqual((str(found.exception), found.exception.where), ("refused, 3 Shape", None))


if __name__ == "__main__":
    unittest.main()
