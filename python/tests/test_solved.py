"""The examples of the literature: read, compared, and refused."""
import json
import os
import tempfile
import unittest
from fractions import Fraction
from typing import Any, Union

import coop
from coop import solved
from coop.errors import BadInput
from coop.program import TOP


class Solved(unittest.TestCase):
    def test_examples(self) -> None:
        found = list(solved.examples())
        self.assertEqual((len(found), len({one.id for one in found})), (122, 122))
        self.assertEqual(sum(one.numbers == "published" for one in found), 60)
        for one in found:
            self.assertTrue(one.game.n >= 1 and one.expected and json.loads(one.document) == one.tree, one.id)

    def test_differences(self) -> None:
        lund = solved.example("lund-nucleolus")
        self.assertEqual((lund.command, lund.game.names[:2], lund.unit), ("nucleolus", ["A", "H"], 100))
        line: dict[str, Any] = {**lund.expected, "certificate": {}}
        self.assertEqual((lund.differences(json.dumps(line)), lund.misprints(json.dumps(line))), ([], []))
        shares = line["shares"]
        self.assertEqual(round(Fraction(shares[0]) / 100, 2), Fraction("20.35"))
        wrong = json.dumps({**line, "shares": [str(Fraction(shares[0]) + 1), *shares[1:]]})
        self.assertRegex(lund.differences(wrong)[0], r"^shares: expected \['2035', .* and not \['2036', ")
        self.assertEqual(lund.misprints(wrong), ["published 20.35, and 509/25 is exact"])
        self.assertEqual(lund.misprints("{}"), ["6 published numbers for 0"])
        lines_of_none: list[Union[str, bytes]] = ["", "[]", b"\xff", "[" * 100000]
        for line_of_none in lines_of_none:
            self.assertEqual(lund.differences(line_of_none), ["it isn't an object of JSON"])
        horses = solved.example("boehm-bawerk")
        self.assertEqual(len(horses.differences('{"buyers best":7}')), len(horses.expected))
        self.assertRegex(horses.misprints("{}")[0], r"^\d+ published numbers for 0$")

    def test_what_is_refused(self) -> None:
        with self.assertRaisesRegex(BadInput, "'lund' is no example"):
            solved.example("lund")
        first = open_first()
        with tempfile.TemporaryDirectory() as folder:
            some: list[dict[str, Any]] = [{"numbers": "seen"}, {"source": ""}, {"published": None}, {"other": 1}]
            for changes in some:
                row = {key: part for key, part in {**first, **changes}.items() if part is not None}
                path = os.path.join(folder, "some.jsonl")
                with open(path, "w", encoding="utf-8") as file:
                    file.write(f"{json.dumps(first)}\n{json.dumps(row)}\n")
                with self.assertRaisesRegex(BadInput, "line 2 isn't an example"):
                    list(coop.solved.examples(path))


def open_first() -> "dict[str, object]":
    """The first row of the file."""
    with open(os.path.join(TOP, solved.FILE), encoding="utf-8") as file:
        row: dict[str, object] = json.loads(next(file))
    return row


if __name__ == "__main__":
    unittest.main()
