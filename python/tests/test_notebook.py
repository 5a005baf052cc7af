"""What notebooks show: HTML that is whole, with exact shares and decimals that add up; and pandas."""
import sys
import types
import unittest
from fractions import Fraction
from html.parser import HTMLParser
from typing import Any, Optional
from unittest.mock import patch

import coop
from coop import answers

from .asking import needs_program

THREE = coop.airport({"light": 2, "medium": 4, "heavy": 6})
MAJORITY = coop.table([0, 0, 1, 0, 1, 1, 1], ["Ann", "Bob", "Cem"], order="mask")
FINE = coop.airport(["0.00001", 2, 3])


class Whole(HTMLParser):
    """Sees that each element is closed, and keeps which there are, and the text."""

    def __init__(self, shown: str):
        super().__init__()
        self.open: list[str] = []
        self.seen: set[str] = set()
        self.text = ""
        self.feed(shown)
        self.close()
        if self.open:
            raise ValueError(f"{self.open} isn't closed")

    def handle_starttag(self, tag: str, attrs: Any) -> None:
        """An element begins."""
        self.seen.add(tag)
        self.open.append(tag)

    def handle_startendtag(self, tag: str, attrs: Any) -> None:
        """An element without a part."""
        self.seen.add(tag)

    def handle_endtag(self, tag: str) -> None:
        """An element ends."""
        if not self.open or self.open.pop() != tag:
            raise ValueError(f"{tag} isn't open")

    def handle_data(self, data: str) -> None:
        """A text."""
        self.text += data


@needs_program
class Answers(unittest.TestCase):
    def shown(self, thing: Any) -> Whole:
        """What a notebook shows of a thing."""
        return Whole(thing._repr_html_())

    def test_shares(self) -> None:
        found = self.shown(coop.nucleolus(THREE))
        self.assertLessEqual({"table", "svg"}, found.seen)
        white = r'<rect width="\d+" height="\d+" fill="#ffffff">'  # for notebooks that are dark
        self.assertRegex(coop.nucleolus(THREE)._repr_html_(), white)
        for word in ("nucleolus", "pays", "light", "3/2", "7/2", "3.50", "together"):
            self.assertIn(word, found.text)
        thirds = self.shown(coop.shapley(coop.airport([1, 1, 1]))).text
        self.assertIn("0.34", thirds)  # so that the decimals add up to 1
        self.assertIn("1/3", thirds)
        self.assertIn("1/300000", self.shown(coop.shapley(FINE)).text)  # over the factor
        self.assertNotIn("svg", self.shown(coop.nucleolus(coop.airport([1] * 13))).seen)
        both = self.shown(coop.convex(THREE)).text
        self.assertTrue("Shapley shares" in both and "marginal shares" in both)
        self.assertIn("best for buyers", self.shown(coop.matching(coop.market([[3, 4], [5, 2]]))).text)
        per_head = coop.airport({"a": 1, "b": 2}, per_head=True)
        self.assertIn("nucleolus per head", self.shown(coop.nucleolus(per_head)).text)

    def test_sentences(self) -> None:
        answers: list[tuple[Any, str]] = [
            (coop.propose(THREE, [3, 1, 2]), "light alone could do better without the others, by 1"),
            (coop.propose(THREE, [1, 1, 1]), "aren’t a division"),
            (coop.core(MAJORITY), "Ann and Bob together"),
            (coop.convex(MAJORITY), "isn’t convex"),
            (coop.nucleolus(coop.table([1, 1, 1])), "There is no nucleolus"),
            (coop.propose(FINE, ["1/100000", 1, "1.99999"]), "could do better"),
            (coop.check(coop.prenucleolus(THREE)), "meets all conditions"),
        ]
        for answer, sentence in answers:
            found = self.shown(answer)
            self.assertIn(sentence, found.text)
            self.assertNotIn("svg", found.seen)

    def test_games(self) -> None:
        self.assertIn("Ann + Bob", self.shown(MAJORITY).text)
        self.assertIn("1/100000", self.shown(FINE).text)
        self.assertNotIn("table", self.shown(coop.table({1: 1, 6: 1}, default=0)).seen)
        self.assertIn("A network", self.shown(coop.tree([[0, 1], [1, 0]])).text)

    def test_without_node(self) -> None:
        """A table stays a table, without its picture; what would be told is the line."""
        shares, core = coop.nucleolus(THREE), coop.propose(THREE, [1, 1, 1])
        with patch("coop.telling.page_server", lambda: None):
            found = self.shown(shares)
            self.assertEqual(("table" in found.seen, "svg" in found.seen), (True, False))
            self.assertIn('"answer":"not efficient"', self.shown(core).text)

    def test_hostile_names(self) -> None:
        game = coop.airport({"<b>": 2, "x&y</td>": 4, "\u202ec": 6})
        for thing in (game, coop.nucleolus(game), coop.propose(game, [2, 2, 2])):
            found = self.shown(thing)
            self.assertNotIn("b", found.seen)
            self.assertNotIn("\u202e", found.text)


class Pandas(unittest.TestCase):
    @needs_program
    def test_a_series(self) -> None:
        """By a stand-in, since pandas may not be here."""
        made: list[Any] = []

        def series(values: list[Any], index: list[str], name: str, dtype: Optional[type]) -> str:
            made.append((values, index, name, dtype))
            return "a series"

        with patch.dict(sys.modules, {"pandas": types.SimpleNamespace(Series=series)}):
            answer = coop.shapley(coop.airport({"a": 1, "b": 1, "c": 1}))
            self.assertEqual(answer.to_pandas(), "a series")
            answer.to_pandas(places=2)
        names = ["a", "b", "c"]
        self.assertEqual(made[0], ([Fraction(1, 3)] * 3, names, "shapley", object))
        self.assertEqual(made[1], ([0.34, 0.33, 0.33], names, "shapley", float))

    def test_what_has_no_shares(self) -> None:
        """An empty Series, so that rows of all kinds make a data frame."""
        made: list[Any] = []
        series = types.SimpleNamespace(Series=lambda values, **more: made.append((values, *more.values())))
        blocked = answers.Blocked("", 1, THREE, ("Ann",), Fraction(1))
        with patch.dict(sys.modules, {"pandas": series}):
            blocked.to_pandas()
            coop.Failure(coop.Fault("no", 70)).to_pandas(places=2)
        self.assertEqual(made, [([], [], "blocked", object), ([], [], "fault", float)])


if __name__ == "__main__":
    unittest.main()
