"""Documents, their points, whether two games are the same, and the printed page."""
import hashlib
import json
import os
import quopri
import re
import tempfile
import unittest
import xml.etree.ElementTree as ElementTree
from fractions import Fraction
from html.parser import HTMLParser
from typing import Any
from unittest.mock import patch

import coop
from coop import BadInput
from coop.desk.documents import Point, game_in, points_in, read_documents, short_names
from coop.desk.pictures import core_alone, picture
from coop.desk.reasons import checked, reasons
from coop.desk.report import report
from coop.styles import Style
from coop.telling import same

from .asking import needs_node, needs_program
from .test_reasons import AIRPORT, solved

RUNWAY = coop.airport({"light": 2, "medium": 4, "heavy": 6})


class Files(unittest.TestCase):
    def setUp(self) -> None:
        self.folder = tempfile.TemporaryDirectory()
        self.addCleanup(self.folder.cleanup)

    def file(self, name: str, *texts: Any) -> str:
        """A file of some documents."""
        path = os.path.join(self.folder.name, name)
        with open(path, "w", encoding="utf-8") as file:
            file.writelines(text if isinstance(text, str) else json.dumps(text) for text in texts)
        return path

    def points(self, *paths: str) -> list[Point]:
        """The points of some files."""
        return points_in(read_documents(paths))


class Points(Files):
    def test_names(self) -> None:
        lines = self.file(
            "lines", solved(), {"answer": "shapley", "shares": [1, 2, 3]}, {"shares": [3, 2, 1]}, {"shares": [1, 2, 3]}
        )
        names = ["nucleolus", "Shapley shares", "proposal 1", "proposal 2"]
        self.assertEqual([point.name for point in self.points(lines)], names)
        self.assertEqual([point.game.names for point in self.points(lines) if point.game], [AIRPORT["names"]] * 4)

    def test_plain_beside_per_head(self) -> None:
        lines = self.file("lines", solved(), solved(game={**AIRPORT, "excess": "per-head"}), {"shares": [1, 2, 3]})
        self.assertEqual([point.name for point in self.points(lines)], ["nucleolus", "nucleolus per head", "proposal"])

    def test_per_head_is_named_alone_too(self) -> None:
        line = self.file("line", solved(game={**AIRPORT, "excess": "per-head"}))
        self.assertEqual([point.name for point in self.points(line)], ["nucleolus per head"])
        page = Page(report(solved(game={**AIRPORT, "excess": "per-head"}), "", Style()))
        self.assertIn("By the nucleolus per head.", page.texts)
        self.assertIn("nucleolus per head", page.texts)

    def test_before_and_after(self) -> None:
        before, after = self.file("before", solved()), self.file("after", solved(game={**AIRPORT, "costs": [2, 4, 9]}))
        points = self.points(before, after)
        self.assertEqual([point.name for point in points], ["nucleolus, before", "nucleolus, after"])
        self.assertIn("<svg", picture(points))
        self.assertEqual(short_names(["a/x", "b/x", "y"]), {"a/x": "a/x", "b/x": "b/x", "y": "y"})
        with self.assertRaisesRegex(BadInput, "no game, and the other documents have several"):
            self.points(before, after, self.file("line", {"answer": "shapley", "shares": [1, 2, 3]}))

    def test_what_is_refused(self) -> None:
        others = self.file("others", solved(game={**AIRPORT, "names": ["a", "b", "c"]}))
        with self.assertRaisesRegex(BadInput, "other players"):
            self.points(self.file("line", solved()), others)
        for game, sentence in (
            ({key: AIRPORT[key] for key in ("class", "costs")}, "no names, but some in .*line"),
            ({"class": "bankruptcy", "claims": [2, 4, 6], "estate": 6, "names": AIRPORT["names"]}, "but costs"),
        ):
            with self.assertRaisesRegex(BadInput, sentence):
                self.points(self.file("line", solved()), self.file("other", solved(game=game)))
        twice = self.file("twice", '{"game":{"class":"airport","costs":[1],"costs":[2]},"shares":[1]}')
        with self.assertRaisesRegex(BadInput, 'twice: the key "costs" is given twice'):
            self.points(twice)
        with self.assertRaisesRegex(BadInput, "2 shares for 3 players"):
            self.points(self.file("line", solved(), {"shares": [1, 2]}))


@needs_node
class Pictures(Files):
    GLOVES = coop.assignment([[1], [1]], ["left 1", "left 2", "right"])

    def test_a_long_title_has_rows(self) -> None:
        """Of both pictures: all words are there, and what stands below is moved."""
        title = " ".join(["A runway of three airlines, as it was told in the lecture"] * 3)
        for wants_bars in (False, True):
            points = self.points(self.file("line", solved()))
            text, plain = (picture(points, wants_bars=wants_bars, title=one) for one in (title, "A runway"))
            rows = [row.text or "" for row in texts_of(text) if "title" in row.attrib.get("class", "")]
            self.assertEqual((" ".join(rows), len(rows) > 1), (title, True))
            self.assertEqual(high_of(text) - high_of(plain), 22 * (len(rows) - 1))
            self.assertIn("nucleolus", [row.text for row in texts_of(text)])

    def test_many_divisions(self) -> None:
        """Each has a mark of its own, up to eight; a sum that is another has no place in a triangle."""
        game = coop.airport([2, 4, 6])
        points = [Point(f"proposal {k}", [Fraction(1), Fraction(k), Fraction(5 - k)], game) for k in range(8)]
        marks = re.findall('class="own mark" data-point="([a-z]+)"', picture(points))
        self.assertEqual(len(set(marks)), 8)
        self.assertEqual(len(set(re.findall('data-point="([a-z]+)"', picture(points, wants_bars=True)))), 8)
        with self.assertRaisesRegex(BadInput, "9 divisions: a picture shows at most 8"):
            picture([*points, points[0]])
        wrong = Point("proposal", [Fraction(3), Fraction(1), Fraction(3)], game)
        with self.assertRaisesRegex(BadInput, "the shares of proposal add to 7"):
            picture([wrong])

    def test_numbers_beside_the_bars(self) -> None:
        """Decimals add up, and their sums are there; on the axis numbers have the mark of the style."""
        points = [Point("nucleolus", [Fraction(1, 3)] * 3, coop.airport([1, 1, 1]))]
        texts = [row.text for row in texts_of(picture(points, wants_bars=True, style=Style(2, "kr", ",")))]
        shown = [text for text in texts if text and text.endswith(" kr")]
        self.assertEqual(shown[-4:], ["0,34 kr", "0,33 kr", "0,33 kr", "1,00 kr"])
        self.assertIn("0,2", texts)

    def test_the_core_alone(self) -> None:
        """Of a game of three without shares; of more players shares are asked for."""
        text = core_alone(read_documents([self.file("game", {"game": AIRPORT})]), "A runway")
        self.assertIn("No shares are given: this is the core alone.", text)
        self.assertEqual((text.count("<circle"), text.count('class="core"')), (0, 1))
        for game in ({"class": "airport", "costs": [1, 2]}, None):
            with self.assertRaisesRegex(BadInput, "no shares: give a line"):
                core_alone(read_documents([self.file("other", {"game": game} if game else {"answer": "core"})]))


def texts_of(picture_text: str) -> list[ElementTree.Element]:
    """The texts of a picture."""
    return list(ElementTree.fromstring(picture_text).iter("{http://www.w3.org/2000/svg}text"))


def high_of(picture_text: str) -> float:
    """How high a picture is."""
    return float(ElementTree.fromstring(picture_text).attrib["height"])


@needs_node
class Mail(Files):
    def test_what_mail_spoils_is_told(self) -> None:
        """By the texts as they come: with > in front, broken, as quoted-printable, and below a greeting."""
        line = json.dumps(solved())
        halves = line[:60], line[60:]
        spoilt_lines = {
            f"> {halves[0]}\n> {halves[1]}\n": "Its lines begin with “>”, as in the answer to a mail.",
            f"> {line}\n": "Its lines begin with “>”, as in the answer to a mail.",
            quopri.encodestring(line.replace("light", "l=t").encode()).decode(): "with “=” at the ends of lines.",
            line.replace("light", "li\nght"): "It was broken into lines in the middle of a word.",
            f"Dear Ann,\n{line}\nYours, Ben\n": "Other words come after the last }.",
            line.replace('"', "“"): "typographic quote marks (“ ”) where plain ones (\") belong.",
        }
        for text, done in spoilt_lines.items():
            for is_document in (True, False):
                with self.assertRaisesRegex(BadInput, "isn't JSON.*mail has changed it") as caught:
                    if is_document:
                        game_in(self.file("line", text))
                    reasons(text.encode())
                self.assertIn("button", str(caught.exception))
                self.assertIn(done, str(caught.exception))
        for text in ("", "{", "{'game':1}", "hello\nthere"):
            with self.assertRaises(BadInput) as caught:
                game_in(self.file("line", text))
            self.assertNotIn("mail", str(caught.exception))
        with patch("coop.telling.page_server", lambda: None), self.assertRaisesRegex(BadInput, "[0-9]\\)$"):
            game_in(self.file("line", f"> {line}\n"))


@needs_node
class Sameness(Files):
    """What two games are to each other; page/test/lines.mjs tries more."""

    def said(self, one: Any, other: Any) -> tuple[str, str]:
        """The outcome, and all that is told."""
        found = same(json.dumps({"game": one}), json.dumps({"game": other}))
        return found.outcome, "\n".join([found.sentence, *found.items, *found.entries])

    def test_outcomes(self) -> None:
        swapped = {**AIRPORT, "costs": [4, 2, 6], "names": ["medium", "light", "heavy"]}
        table = {"class": "cost-table", "players": 3, "names": AIRPORT["names"]}
        cases: list[tuple[Any, str, str]] = [
            (AIRPORT, "same", "entry for entry"),
            (swapped, "same", "in another order"),
            ({**AIRPORT, "costs": ["2", 4, 6], "version": 2}, "same", "what medium needs (item 2): 4"),
            ({**table, "worths": [2, 4, 4, 6, 6, 6, 6]}, "worth the same", "what each needs may give other shares"),
            ({**table, "worths": [2, 4, 4, 6, 6, 6, 7]}, "another", "all together cost 7"),
            ({**AIRPORT, "costs": [2, 4, 7]}, "another", "What heavy needs (item 3): the line has 7"),
            ({**AIRPORT, "names": ["light", "medium", "heavy\u200b"]}, "another", "look alike"),
            ({**AIRPORT, "excess": "per-head"}, "another", "the line has “per head”"),
            ({**AIRPORT, "costs": [2, 4, 6.0]}, "nobody can say", "the program refuses the line"),
        ]
        for game, outcome, told in cases:
            found = self.said(game, AIRPORT)
            self.assertEqual(found[0], outcome, found)
            self.assertIn(told, found[1])

    def test_files(self) -> None:
        self.assertEqual(game_in(self.file("line", solved())).names, AIRPORT["names"])
        twice = self.file("agreed", '{"game":{"class":"bankruptcy","estate":4,"claims":[1,2],"claims":[2,9]}}')
        with self.assertRaisesRegex(BadInput, 'the key "claims" is given twice'):
            game_in(twice)
        for texts, sentence in (((solved(), solved()), "2 documents"), (({"answer": "yes"},), "has no game")):
            with self.assertRaisesRegex(BadInput, sentence):
                game_in(self.file("file", *texts))
        refused = self.file("file", {"game": {**AIRPORT, "costs": [2, 4, -6]}})
        with self.assertRaisesRegex(BadInput, "refuses it, 5 Number, at game.costs, item 3"):
            game_in(refused)


class Page(HTMLParser):
    """The tags, texts and cells of a page, whose tags have to be closed in their order."""

    def __init__(self, text: str):
        super().__init__()
        self.open: list[str] = []
        self.texts: list[str] = []
        self.tags: set[str] = set()
        self.feed(text)

    def handle_starttag(self, tag: str, attrs: Any) -> None:
        self.tags.add(tag)
        if tag != "meta":
            self.open.append(tag)

    def handle_startendtag(self, tag: str, attrs: Any) -> None:
        self.tags.add(tag)

    def handle_endtag(self, tag: str) -> None:
        assert self.open.pop() == tag, tag

    def handle_data(self, data: str) -> None:
        self.texts.append(data)


@needs_program
@needs_node
class OfAnswers(unittest.TestCase):
    """Pictures, papers and reasons of answers as the calls give them, with the shares that they have now."""

    def test_pictures(self) -> None:
        nucleolus, shapley = coop.nucleolus(RUNWAY), coop.shapley(RUNWAY)
        seen = [row.text or "" for row in texts_of(picture([nucleolus, shapley, nucleolus]))]
        for name in ("nucleolus 1", "Shapley shares", "nucleolus 2"):
            self.assertTrue(any(text.startswith(name) for text in seen), (name, seen))
        self.assertEqual(picture(nucleolus), picture(nucleolus.line))
        self.assertEqual(picture(nucleolus.line.encode()), picture([nucleolus]))
        fine = coop.shapley(coop.airport(["0.00001", 2, 3, 4]))
        self.assertIn("1/400000", picture(fine))
        core = coop.core(coop.airport([1, 2]))
        none = coop.nucleolus(coop.table([1, 2, 2]))
        for given, sentence in (
            (none, "NoImputation has no shares to draw"),
            ([none, shapley], "NoImputation has no shares to draw"),
            (coop.Failure(coop.Usage("too many", 2)), "Failure isn't an answer or a line"),
            ([RUNWAY], "Game isn't an answer or a line"),
            (5, "int isn't an answer or a line"),
        ):
            with self.assertRaisesRegex(BadInput, sentence):
                picture(given)  # type: ignore[arg-type]
        self.assertIn("<svg", picture(core))

    def test_papers(self) -> None:
        answer = coop.nucleolus(RUNWAY)
        assert isinstance(answer, coop.Nucleolus)
        page = Page(report(answer))
        self.assertIn("3/2", page.texts)
        self.assertEqual(report(answer), report(answer.line, "", Style()))
        fine = coop.prenucleolus(coop.airport(["0.00001", 2, 3, 4]))
        self.assertIn("1/200000", Page(report(fine)).texts)
        with self.assertRaisesRegex(BadInput, "Shapley has no certificate to check"):
            report(coop.shapley(RUNWAY))
        answer.shares["light"] += 1
        with self.assertRaisesRegex(BadInput, "the line: "):
            report(answer)
        self.assertEqual(reasons(answer)[1], 1)
        self.assertIn("2.00", answer._repr_html_())


class Reports(unittest.TestCase):
    def test_a_page(self) -> None:
        game = {**AIRPORT, "names": ["<b>light", "medium & co", "heavy\u202e"]}
        document = checked(json.dumps(solved(game=game)).encode(), "the line")
        text = report(document, "A <title>", Style(2, "EUR"))
        page = Page(text)
        self.assertEqual(page.open, [])
        for wanted in (
            "A <title>",
            "<b>light",
            "medium & co",
            "heavy\\u202e",
            "pays, EUR",
            "1.50",
            "3/2",
            "6.00",
            "How to check",
        ):
            self.assertIn(wanted, page.texts)
        self.assertNotIn("\u202e", text)
        self.assertFalse({"script", "img", "link", "b"} & page.tags)
        line = next(text for text in page.texts if text.startswith("{"))
        self.assertEqual(json.loads(line), document)
        svg = text[text.index("<svg") : text.index("</svg>") + 6]
        self.assertIn("heavy\\u202e", [element.text for element in ElementTree.fromstring(svg).iter()])

    def test_a_line_too_long_to_print(self) -> None:
        document = solved(game={**AIRPORT, "names": ["a" * 9000, "b", "c"]})
        line = json.dumps(document, ensure_ascii=False, separators=(",", ":"), sort_keys=True) + "\n"
        self.assertIn(hashlib.sha256(line.encode()).hexdigest(), Page(report(document, "", Style())).texts)

    def test_an_estate_has_its_claims(self) -> None:
        game = {"class": "bankruptcy", "claims": [1000, 200], "estate": 200, "names": ["a", "b"]}
        level = {"excess": "-100", "coalitions": [[[1], 1], [[2], 1]], "earlier": [], "bounds": [], "total": 1}
        document = solved(game=game, shares=[100, 100], certificate={"mode": "players", "levels": [level]})
        page = Page(report(document, "", Style(2, "EUR"), "One claim < is disputed."))
        for wanted in ("claims", "1,000.00", "1,200.00", "One claim < is disputed."):
            self.assertIn(wanted, page.texts)
        self.assertIn("is left if all others are paid in full", page.texts)  # in the picture

    def test_lists_are_whole(self) -> None:
        document = solved()
        texts = " ".join(" ".join(Page(report(document, "", Style())).texts).split())
        self.assertIn(
            "medium pays 1.50, 0.50 more than the earlier ones. What it and the earlier one need costs 4. The "
            "earlier one pays 1, so 3 is left.",
            texts,
        )

    def test_what_is_refused(self) -> None:
        for document, sentence in (
            (solved(shares=[3, 1, 2]), "condition 2"),
            ({"refused": "Shape", "number": 3}, "answered"),
        ):
            with self.assertRaisesRegex(BadInput, sentence):
                checked(json.dumps(document).encode(), "the line")


if __name__ == "__main__":
    unittest.main()
