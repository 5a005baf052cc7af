"""Names that try to forge."""
import json
import subprocess
import unittest
from pathlib import Path
from string import ascii_letters
from unicodedata import category

import coop
from coop import telling
from coop.names import alike, apart, caseless, is_unseen, looks, safe, visible, warning
from coop.program import TOP
from coop.desk.tables import aligned

from .asking import needs_node

CAPITALS = "2 names differ only in capitals: HARTMANN KG, Hartmann KG"
ZERO_WIDTH, OVERRIDE, ESCAPE = "\u200b", "\u202e", "\x1b"


ALIKE_ON_THE_PAGE = """
import { differenceOf, withEscapes } from "FILE";
const [names, others, codes] = JSON.parse(await new Response(process.stdin).text());
const pairs = names.map((one) => others.map((other) => one === other || differenceOf(one, other) !== null));
const hidden = codes.filter((k) => withEscapes(String.fromCodePoint(k)) !== String.fromCodePoint(k));
console.log(JSON.stringify([pairs, hidden]));
"""


@needs_node
class OnThePage(unittest.TestCase):
    def test_page_and_package_find_the_same(self) -> None:
        """Which names look alike: letters of all alphabets that have a twin, beside Latin ones, and some names; and
        which letters aren't seen, but for those that this Python doesn't know."""
        others = [*ascii_letters, *"01|", "rn", "é", "a ", " a  b", "a b", "a\u00a0b"]
        others += [*(f"{one}\u200b" for one in others[:9]), "e\u0301", "\uff21", "Bern", "Bem", "Hartmann KG"]
        names = [*others, *map(chr, range(0xC0, 0x590))]
        codes = [code for code in [*range(0x20000), *range(0xE0000, 0xE2000)] if not 0xD800 <= code < 0xE000]
        code = ALIKE_ON_THE_PAGE.replace("FILE", Path(TOP, "page/src/game/names.js").as_uri())
        words = ["node", "--input-type=module", "-e", code]
        asked = json.dumps([names, others, codes]).encode()
        done = subprocess.run(words, input=asked, stdout=subprocess.PIPE, check=True)
        pairs, hidden = json.loads(done.stdout)
        for one, row in zip(names, pairs):
            found = [looks(one) == looks(other) or caseless(one) == caseless(other) for other in others]
            differing = [ascii(other) for other, *both in zip(others, row, found) if both[0] != both[1]]
            self.assertEqual(differing, [], ascii(one))
        mine = {code for code in codes if is_unseen(chr(code))}
        differ = mine.symmetric_difference(hidden)
        self.assertEqual({hex(code) for code in differ if category(chr(code)) != "Cn"}, set())


class Names(unittest.TestCase):
    def test_escapes(self) -> None:
        cases = {
            "Adler  40.00\nBrandt": "Adler  40.00\\u000aBrandt",
            f"A{ESCAPE}[2K": "A\\u001b[2K",
            f"A{ZERO_WIDTH}B{OVERRIDE}": "A\\u200bB\\u202e",
            "A\u3164\ufe0f\u2028": "A\\u3164\\ufe0f\\u2028",
            "\U000e0041": "\\U000e0041",
            "R\\D": "R\\\\D",
            "Müller, Söhne 李 é": "Müller, Söhne 李 é",
        }
        for name, shown in cases.items():
            self.assertEqual(safe(name), shown)
        self.assertEqual(visible(f"a\\b{ZERO_WIDTH}"), "a\\b\\u200b")

    def test_no_two_names_are_shown_alike(self) -> None:
        self.assertNotEqual(safe(f"A{ZERO_WIDTH}"), safe("A\\u200b"))

    def test_names_that_look_alike(self) -> None:
        self.assertEqual(alike(["Adler", f"Adler{ZERO_WIDTH}", "Brandt"]), [["Adler", f"Adler{ZERO_WIDTH}"]])
        for other in ("Ａdler", "Adler ", f"{OVERRIDE}Adler", "Ad\u00adler", " Adler"):
            self.assertEqual(looks(other), "Adler", other)
        self.assertEqual(alike(["é", "e\u0301"]), [["é", "e\u0301"]])
        self.assertEqual(alike(["bob", "Bob", "Zoë", "Zoe"]), [])

    def test_twins_of_other_alphabets(self) -> None:
        """Cyrillic and Greek letters, digits for letters, and rn for m."""
        for name, other in (
            ("Hartmann", "H\u0430rtmann"),
            ("HOLM", "\u041dOLM"),
            ("Holm", "Ho1m"),
            ("Holm", "HoIm"),
            ("Olm", "0lm"),
            ("Io", "I\u03bf"),
            ("Bern", "Bem"),
        ):
            self.assertEqual(alike([name, "Brandt", other]), [[name, other]])
            self.assertIn(f"2 names look alike: {name}, ", warning([name, "Brandt", other]) or "")
        self.assertIn("H\\u0430rtmann", warning(["H\u0430rtmann", "Hartmann"]) or "")
        self.assertIn("mixes letters of two alphabets: H\\u0430rtmann", warning(["H\u0430rtmann KG"]) or "")
        own_alphabets = ["\u0418\u0432\u0430\u043d", "\u039d\u03af\u03ba\u03b7"]
        self.assertIsNone(warning([*own_alphabets, "M\u00fcller 1", "M\u00fcller 2"]))
        self.assertEqual(warning(["HARTMANN KG", "Hartmann KG"]), CAPITALS)

    def test_warnings(self) -> None:
        self.assertIsNone(warning(["Adler", "Brandt", "Müller"]))
        self.assertIn("Adler, Adler\\u200b", warning(["Adler", f"Adler{ZERO_WIDTH}"]) or "")
        self.assertIn("escapes in A\\u000aB", warning(["A\nB", "C"]) or "")
        self.assertIn("2 names look alike", warning(["A", "A "]) or "")

    def test_what_takes_no_room(self) -> None:
        for letter in "\u2800\u2065\ufff0\ufff8\U000e0000\U000e0fff":
            self.assertIn("2 names look alike", warning(["Ann", f"Ann{letter}"]) or "", hex(ord(letter)))
            self.assertIn("\\", safe(letter))

    @needs_node
    def test_names_from_the_right(self) -> None:
        """Else a terminal or a browser moves the numbers beside them."""
        names = ["\u05d0\u05d1", "Ann"]
        inside = f"\u2068{names[0]}\u2069"
        self.assertEqual([apart(name) for name in names], [inside, "Ann"])
        self.assertEqual(aligned(list(zip(names, ["1", "10"]))), f"{inside}    1\nAnn  10\n")
        game = coop.airport([1, 2], names)
        line = json.dumps({"answer": "blocked", "coalition": [1], "excess": "1"})
        told = telling.parts(line, game.document().decode(), "", {})[0]["sentences"]
        self.assertIn(f"{inside} alone", told[0])


if __name__ == "__main__":
    unittest.main()
