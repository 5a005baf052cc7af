"""Games from CSV."""
import unittest
from fractions import Fraction
from io import StringIO
from itertools import combinations
from pathlib import Path
from random import Random
from typing import Callable, Iterable
from unittest.mock import patch

from coop import BadInput
from coop.desk.costing import doubts, filled_text, remarks
from coop.filling import above_larger, cheapest
from coop.readers import claims, groups, landings, left_out, vectors
from coop.sheets import Layout, notes
from coop.desk.typed import number
from coop.styles import EXACT, Plainly

from .asking import needs_node

APART = (("a+c", "8.1 = a | c"), ("b+c", "9.1 = b | c"))
COSTS = "a,3\nb,4\nc,5\na+b,6\na+b+c,9\n"


class Readers(unittest.TestCase):
    def test_groups(self) -> None:
        game = groups("Sales,8\n Ops , 7.50\n\nSales+Ops,49/4\n").game
        sparse = [[["Sales"], 8], [["Ops"], "15/2"], [["Sales", "Ops"], "49/4"]]
        names = ["Sales", "Ops"]
        self.assertEqual(
            game.tree, {"class": "cost-table", "names": names, "players": 2, "sparse": sparse, "version": 2}
        )
        self.assertEqual(groups("a,1\n", kind="table").game.kind, "table")

    def test_a_name_that_looks_alike(self) -> None:
        """A member without a line of its own, where the line of one that looks like it is there."""
        for text, sentence in (
            ("A,1\nB,1\n\u0421,1\nA+C,2\n", r"the cost of C alone, but one has \\u0421, which looks like it \(C\)"),
            ("A,1\nC,1\nA+\u0421,2\n", r"alone, but one has C, which looks like it \(\\u0421\)"),
            ("A,1\nops,1\nA+Ops,2\n", "no line has the cost of Ops alone, but one has ops: is that"),
            ("A,1\nA+C,2\n", "no line has the cost of C alone$"),
        ):
            with self.assertRaisesRegex(BadInput, sentence):
                groups(text)

    def test_a_row_of_no_player(self) -> None:
        """Where groups lack, since a row is no player's: a group by another sign, or the sum."""
        for text, fill, sentence in (
            ("a,3\nb,4\na & b,6\n", False, "; is a & b, in line 3, the group a\\+b\\? Write \\+ between members"),
            ("a;3\nb;4\na und b;6\n", True, "; is a und b, in line 3, the group a\\+b"),
            ("a,3\nb,4\na+b,6\nTotal,13\n", False, "; is Total, in line 4, the row of the sum"),
            ("a,3\nb,4\nc,4\na+b,6\nAll,9\n", False, "; is All, in line 5, all of them together\\? Write a\\+b\\+c"),
            ("a,3\nb,4\n", False, "takes the cheapest split\\)$"),
        ):
            with self.assertRaisesRegex(BadInput, sentence):
                groups(text, fill=fill)
        self.assertEqual(groups("a,3\nb & a,4\na+b & a,6\n").game.names, ["a", "b & a"])

    def test_filling(self) -> None:
        costed = groups(COSTS, fill=True)
        self.assertEqual(
            [(item.group, item.amount, item.parts) for item in costed.filled], [(5, 8, [1, 4]), (6, 9, [2, 4])]
        )
        self.assertEqual([costed.game.worth(group) for group in (5, 6, 7)], [-8, -9, -9])
        told = [filled_text(costed.game.names, item, EXACT) for item in costed.filled]
        self.assertEqual(told, ["a+c: 8 = a | c", "b+c: 9 = b | c"])
        with self.assertRaisesRegex(BadInput, "a\\+c has no line, and 1 more groups"):
            groups(COSTS)
        with self.assertRaisesRegex(BadInput, "a\\+b has no line: the cost of all together"):
            groups("a,1\nb,2\n", fill=True)

    def test_the_cheapest_split_is_the_cheapest(self) -> None:
        """Against all ways to put costed groups together, in random tables of five."""
        draw = Random(3)
        for _ in range(40):
            amounts = {1 << i: Fraction(draw.randint(1, 20)) for i in range(5)}
            amounts.update({s: Fraction(draw.randint(1, 30)) for s in range(1, 32) if draw.random() < 0.3})
            missing = [s for s in range(1, 32) if s not in amounts]
            for item in cheapest(amounts, missing):
                splits = (some for size in range(1, 6) for some in combinations(amounts, size))
                whole = [some for some in splits if sum(some) == item.group and is_split(some)]
                self.assertEqual(item.amount, min(sum(amounts[part] for part in some) for some in whole))
                self.assertEqual(
                    (sum(item.parts), sum(amounts[part] for part in item.parts)), (item.group, item.amount)
                )

    def test_a_cover_is_the_cheapest(self) -> None:
        """Against all ways to cover a group by costed ones, in random tables of four."""
        draw = Random(5)
        for _ in range(20):
            amounts = {1 << i: Fraction(draw.randint(1, 20)) for i in range(4)}
            amounts.update({s: Fraction(draw.randint(1, 30)) for s in range(1, 16) if draw.random() < 0.3})
            for item in cheapest(amounts, [s for s in range(1, 16) if s not in amounts], within=True):
                covers = (some for size in range(1, 5) for some in combinations(amounts, size))
                whole = [some for some in covers if item.group & ~union(some) == 0]
                self.assertEqual(item.amount, min(sum(amounts[part] for part in some) for some in whole))
                self.assertEqual(item.amount, sum(amounts[part] for part in item.parts))
                self.assertEqual(item.group & ~union(item.parts), 0)

    def test_groups_dearer_than_a_larger_one(self) -> None:
        costs = [Fraction(cost) for cost in (0, 3, 4, 6, 5, 8, 9, 7)]
        self.assertEqual(above_larger(costs), [(5, 8, 7, 7), (6, 9, 7, 7)])
        self.assertEqual(above_larger(costs[:4]), [])
        text = "a,3\nb,4\nc,5.125\na+b,6\na+b+c,7\n"
        plain, lesser = groups(text, fill=True), groups(text, within=True)
        said = list(remarks(plain, False, Plainly()))
        self.assertEqual(said[2:4], ["a+c: 8.125 = a | c", "b+c: 9.125 = b | c"])
        self.assertIn("2 groups cost more than a larger group", said[4])
        self.assertEqual(said[5:], ["a+c: 8.125, and a+b+c: 7", "b+c: 9.125, and a+b+c: 7"])
        self.assertIn('"core" and "core point" hold only against the filled numbers', said[1])
        self.assertEqual([lesser.game.worth(group) for group in (5, 6)], [-7, -7])
        said = list(remarks(lesser, True, Plainly(1)))
        self.assertIn("2 of these cost less with the works of a larger group", said[4])
        self.assertEqual(said[5:], [f"{s}: 7.0 = a + b + c, and not {t}" for s, t in APART])

    @needs_node
    def test_numbers_that_look_like_slips(self) -> None:
        """The one that is in most that don't fit is told, by its line; of groups that were filled in none is."""
        text = "a,3000.5\nb,900\nc,955.77\nb+c,15598.10\na+c,12\na+b,-4\na+b+c,3500\n"
        wanted = [
            "line 6: a+b costs −4, less than b, which it holds: 900 (2 more such)",
            "line 5: a+c costs 12, less than c, which it holds: 955.77 (2 more such)",
            "line 4: b+c costs 15,598.10, more than c and b cost apart: 955.77 + 900 (1 more such)",
        ]
        self.assertEqual(doubts(groups(text), Plainly()), wanted)
        self.assertEqual(list(remarks(groups(text), False, Plainly())), wanted)
        self.assertIn("costs 15,598.1, more than", doubts(groups(text), Plainly(1))[2])
        gains = doubts(groups("a,5\nb,4\na+b,8\n", kind="table"), Plainly())
        self.assertEqual(gains, ["line 3: a+b gains 8, less than b and a gain apart: 4 + 5"])
        filled = list(remarks(groups(COSTS, fill=True), False, Plainly()))
        self.assertEqual(filled[2:], ["a+c: 8 = a | c", "b+c: 9 = b | c"])
        names = "abcdef"
        few = "".join(f"{name},1\n" for name in names) + f"{'+'.join(names)},7\n"
        self.assertRegex(doubts(groups(few, fill=True), Plainly())[0], "^line 7: a.b.c.d.e.f costs 7, more than ")
        dear = "".join(f"{'+'.join(some)},2\n" for some in combinations(names, 2))
        said = list(remarks(groups(few.replace("7", "6") + dear.replace("2", "3"), fill=True), False, Plainly()))
        told_of = [sentence[:8] for sentence in said if sentence.startswith("line ")]
        self.assertEqual(told_of, ["line 2: ", "line 3: ", "line 4: ", "line 5: ", "line 12:"])
        cheap = groups("".join(f"{name},3\n" for name in names) + f"{'+'.join(names)},4\n", fill=True)
        self.assertEqual(list(remarks(cheap, False, Plainly()))[-1], "and 46 more (--all lists them)")
        steep = "".join(f"{'+'.join(some)},{len(some) ** 2}\n" for k in range(1, 7) for some in combinations(names, k))
        [general] = doubts(groups(steep), Plainly())
        self.assertRegex(general, "^line [0-9]+: 57 groups cost more than parts of theirs apart")
        above = list(remarks(groups("a,3\nb,4\nc,5\na+b,6\na+b+c,7\n", fill=True), False, Plainly()))
        self.assertFalse([sentence for sentence in above if sentence.startswith("line ")])
        with patch("coop.telling.page_server", lambda: None):
            [sentence] = doubts(groups(text), Plainly())
            self.assertRegex(sentence, "nobody looked for numbers that may be mistakes: there is no Node")

    def test_vectors(self) -> None:
        games = list(vectors("0,0,0,6,2,2,12\n1,2,3,4,5,6,7\n", "size", names=["a", "b", "c"]))
        self.assertEqual([game.tree["worths"] for game in games], [[0, 0, 6, 0, 2, 2, 12], [1, 2, 4, 3, 5, 6, 7]])
        self.assertEqual(games[0].names, ["a", "b", "c"])
        with_head = vectors('"V1","V2","V3"\n1,2,4\n', "size", layout=Layout(has_head=True))
        self.assertEqual([game.tree["worths"] for game in with_head], [[1, 2, 4]])
        self.assertEqual(next(vectors("0.25,1,1", "mask", digits=1, kind="cost-table")).tree["worths"], ["1/5", 1, 1])
        for text in ("V1,V2,V3\n1,2,4\n", "\ufeffA,B,A+B\n1,2,4\n", "\ufeff1,2,4\n\n"):
            self.assertEqual([game.tree["worths"] for game in vectors(text, "size")], [[1, 2, 4]], text)
        self.assertEqual(left_out("V1,V2,V3\n1,2,4\n", Layout()), ["left out the first row, which has headings"])

    def test_headings_that_name_the_groups(self) -> None:
        """As a pivot has them by the alphabet: they give names and order, or are refused, and are never left out."""
        head, row = "A,A+B,A+B+C,A+C,B,B+C,C", "1,12,123,13,2,23,3"
        by_mask = [1, 2, 12, 3, 13, 23, 123]
        for text, order in (
            (f"{head}\n{row}", None), (f",{head}\nP1,{row}", None), (f"project,{head}\nP1,{row}", None),
            (f"{head}\n0,{row}".replace(",", " "), None), (f"{{}},{head}\n0,{row}", None),
            ("A,B,C,A+B,A+C,B+C,A+B+C\n1,2,3,12,13,23,123", "size"), ("A,B,AB,C,AC,BC,ABC\n1,2,12,3,13,23,123", "mask"),
        ):
            game, = vectors(text, order)
            self.assertEqual((game.names, game.tree["worths"]), (["A", "B", "C"], by_mask), text)
        digits, = vectors(",1,12,2\nP1,1,4,2", names=["Ann", "Bob"])
        self.assertEqual((digits.names, digits.tree["worths"]), (["Ann", "Bob"], [1, 2, 4]))
        for text, order, names, sentence in (
            (f",{head}\nP1,{row}", "size", None, "the headings name the groups in another order than size: leave"),
            (f",{head}\nP1,{row}", None, ["A", "B", "D"], "the headings name other players: A, B, C"),
            (",Ash,Bray,Ash.Bray\nP1,1,2,4", "size", None, "the headings don't name the groups .Ash, Bray, Ash.Bray"),
            (",A,B,A+C\nP1,1,2,4", "size", None, "name each group once, as Ann, Bob, Ann.Bob, or leave the row of"),
            (f"{head}\n{row},4,5", None, None, "9 numbers below 7 headings"),
            (f",V1,V2,V3,V4,V5,V6,V7\nP1,{row}", None, None, "name the `order` of the vector"),
        ):
            with self.assertRaisesRegex(BadInput, sentence):
                list(vectors(text, order, names=names))

    def test_claims_and_landings(self) -> None:
        estate = claims("Adler,1200.50\nBrandt,800\n", "2000")
        tree = {
            "class": "bankruptcy",
            "names": ["Adler", "Brandt"],
            "claims": ["2401/2", 800],
            "estate": 2000,
            "version": 2,
        }
        self.assertEqual(estate.tree, tree)
        self.assertEqual(landings("Aer,20,2\nBee,40,1\n").tree["names"], ["Aer 1", "Aer 2", "Bee 1"])

    def test_what_is_refused(self) -> None:
        name = Path(__file__).name
        cases: list[tuple[str, Callable[[], object]]] = [
            ("line 1 has a semicolon", lambda: groups("Sales;7,50\nOps,8\n")),
            ("line 1: 'cost' isn't a number.*; if this line has headings", lambda: groups("group,cost\na,1\n")),
            ("line 2 has 3 columns", lambda: groups("a,1\nb,1,5\n")),
            ("line 2: 'x' isn't a number", lambda: groups("a,1\nb,x\n")),
            ("line 2: no line has the cost of b alone", lambda: groups("a,1\na+b,2\n")),
            ("line 3: a is already in line 1", lambda: groups("a,1\nb,1\na,2\n")),
            ("line 2: Adler is already in line 1", lambda: claims("Adler,1\nAdler,2\n", 2)),
            ("line 1 has no name", lambda: claims(",1\n", 1)),
            ("less than the estate", lambda: claims("Adler,1\n", 2)),
            ("isn't a number of landings", lambda: landings("Aer,20,2.5\n")),
            ("64 landings", lambda: landings("Aer,20,65\n")),
            ("line 1: 5 numbers: a vector has", lambda: list(vectors("1,2,3,4,5\n", "mask"))),
            ("line 1: .* isn't a number.*use Layout.has_head", lambda: list(vectors("v1,v2,3\n1,2,3\n", "mask"))),
            ("line 2 has 2 numbers, and line 1 has 3: write", lambda: list(vectors("0,0,3\n0,0\n", "size"))),
            ("line 3 has 1 numbers, and line 2 has 3: write", lambda: list(vectors("A,B,A+B\n0,0,3\n0\n"))),
            ("line 2 has no numbers: leave it out", lambda: list(vectors("0,0,3\n,,\n1,1,4\n", "size"))),
            ("line 3 has no numbers: leave it out", lambda: list(vectors(",A,B,A+B\n0,0,0,3\n,,,\n"))),
            ("line 2 has no numbers: leave it out", lambda: list(vectors("0,0,3\n\n1,1,4\n", "size"))),
            ("the group A has two columns: name each", lambda: list(vectors("A,B,A,A+B\n3,0,1,4\n"))),
            ("the group A.B has two columns: name", lambda: list(vectors("A+B,A,B,A+B\n3,0,1,4\n"))),
            ("the group B.A has two columns: name", lambda: list(vectors("B+A,A,B,A+B\n3,0,1,4\n"))),
            ("the headings don't name the groups .A, B, A.B, year", lambda: list(vectors("A,B,A+B,year\n0,0,3,9\n"))),
            ("the headings don't name the groups", lambda: list(vectors("A,B,C,A+B,A+B+C\n0,0,0,3,9\n", "size"))),
            ("a StringIO isn't the text of a file", lambda: list(vectors(StringIO("1,2,4")))),  # type: ignore[arg-type]
            ("a bytes isn't the text of a file: give", lambda: groups(b"a,1\n")),  # type: ignore[arg-type]
            ("line 1: each number becomes 0 when", lambda: list(vectors("1e-6,2e-6,4e-6\n", "mask", digits=4))),
            ("'games.csv' is the name of a file", lambda: list(vectors("games.csv", "mask"))),
            ("no line", lambda: list(vectors("\n", "mask"))),
            (f"is the name of a file: give its text, such as open.*{name}", lambda: list(vectors(__file__, "mask"))),
            (f"is the name of a file: give its text, such as open.*{name}", lambda: groups(__file__)),
            (f"is the name of a file: give its text, such as open.*{name}", lambda: landings(__file__)),
            ("is the name of a file", lambda: claims(Path(__file__), 1)),  # type: ignore[arg-type]
        ]
        for sentence, read in cases:
            with self.assertRaisesRegex(BadInput, sentence):
                read()


class Sheets(unittest.TestCase):
    """Files as spreadsheets, R and pandas save them."""

    GERMAN = "Hartmann KG;480.000,50\nWeber Bank;900.000,75\nKr\u00fcger AG;150.000\n"

    def claims(self, text: str, layout: Layout = Layout()) -> dict[str, object]:
        """The claims of a text by names."""
        tree = claims(text, 1, layout=layout).tree
        return dict(zip(tree["names"], tree["claims"]))

    def test_semicolons_and_decimal_commas(self) -> None:
        german = {"Hartmann KG": "960001/2", "Weber Bank": "3600003/4", "Kr\u00fcger AG": 150000}
        self.assertEqual(self.claims(self.GERMAN), german)
        self.assertEqual(self.claims(self.GERMAN.replace(";", "\t")), german)
        self.assertEqual(self.claims('A,"1,200.50"\nB,"7"\n'), {"A": "2401/2", "B": 7})
        self.assertEqual(self.claims('A,"7,50"\nB,"0,001"\n'), {"A": "15/2", "B": "1/1000"})
        self.assertEqual(self.claims("A;480.000\nB;900\n", Layout(decimal="comma")), {"A": 480000, "B": 900})
        self.assertEqual(self.claims("A;480.000\nB;900\n", Layout(decimal="point")), {"A": 480, "B": 900})
        self.assertEqual(self.claims("A;1.234.567\nB;1e-01\n"), {"A": 1234567, "B": "1/10"})
        self.assertEqual(self.claims("Name\tClaim\n\t\nA+B\t3387,4\n", Layout(has_head=True)), {"A+B": "16937/5"})
        self.assertEqual(groups("a\t1,5\nb\t2\na+b\t3\n").game.tree["sparse"][0], [["a"], "3/2"])
        self.assertEqual(landings("Aer;20,5;2\n").tree["costs"], ["41/2", "41/2"])

    def test_numbers_that_may_be_two(self) -> None:
        for text, sentence in (
            ("A;480.000\nB;900\n", "line 1: 480.000 may be 480 or 480000"),
            ("A\t3,387\n", "line 1: 3,387 may be 3.387 or 3387"),
            ("A;3387,4\nB;12.5\n", "3387,4 in line 1 and 12.5 in line 2 have different decimal marks"),
            ('A,"3,387"\n', "may be"),
        ):
            with self.assertRaisesRegex(BadInput, sentence):
                self.claims(text)
        with self.assertRaisesRegex(BadInput, "'12.5' isn't a number with a decimal comma"):
            self.claims("A;12.5\n", Layout(decimal="comma"))

    def test_the_estate_is_read_as_the_claims_are(self) -> None:
        comma = Layout(decimal="comma")
        for text, estate, layout, wanted in (
            ("A;40.123,83\nB;900.000\n", "400.000", Layout(), 400000),
            ("A;1.200,50\nB;900\n", "1.500", Layout(), 1500),
            ("A;480.000\nB;400.000\n", "500.000", comma, 500000),
            ("A;480.000\nB;400.000\n", "500.000,50", Layout(), "1000001/2"),
            ("A,480.50\nB,400\n", "400.000", Layout(), 400),
            ("A,480\nB,400\n", "1,5", Layout(), "3/2"),
            ("A;480\nB;400\n", "200/3", Layout(), "200/3"),
            ("A;1.200,50\nB;900\n", "2000/3", Layout(), "2000/3"),
            ("A,480\nB,400\n", "400.000", Layout(decimal="point"), 400),
        ):
            self.assertEqual(claims(text, estate, layout=layout).tree["estate"], wanted, (text, estate))
        for text, estate, layout, sentence in (
            ("A,480\nB,400\n", "400.000", Layout(), "the estate: 400.000 may be 400 or 400000.*decimal=.."),
            ("A;480\nB;400\n", "1.500", Layout(), "the estate: 1.500 may be 1.5 or 1500"),
            ("A;480.000\nB;400.000\n", "500.000", Layout(), "line 1: 480.000 may be"),
            (
                "A;40.123,83\n",
                "12.5",
                Layout(),
                "40.123,83 in line 1 and 12.5 in the estate have different decimal marks",
            ),
            ("A;480\n", "12.50", comma, "the estate: '12.50' isn't a number with a decimal comma"),
            ("A;480\n", "much", Layout(), "the estate: 'much' isn't a number"),
        ):
            with self.assertRaisesRegex(BadInput, sentence):
                claims(text, estate, layout=layout)
        self.assertEqual(notes("A;480.000\nB;1\n", 2, Layout(), [("the estate", "1.500,25")]), [])

    def test_a_break_within_a_name_stays(self) -> None:
        for end in ("\n", "\r\n", "\r"):
            text = f'A;100{end}{end}"Brandt{end}999";200{end}'
            self.assertEqual(self.claims(text), {"A": 100, f"Brandt{end}999": 200})
        with self.assertRaisesRegex(BadInput, "line 4: 'x' isn't a number"):
            self.claims('A;100\n"Brandt\n999";200\nB;x\n')

    def test_typed_numbers(self) -> None:
        """A number beside a document is refused where it may be two."""
        for word, wanted in (("400", 400), ("12.50", Fraction(25, 2)), ("0.125", Fraction(1, 8)), ("12,50", 12.5)):
            self.assertEqual(number(word, "the amount"), wanted)
        for word, sentence in (
            ("400.000", "the amount: 400.000 may be 400 or 400000: write 400 or 400000"),
            ("-1.500", "the amount: -1.500 may be -1.5 or -1500: write -3/2 or -1500"),
            ("twelve", "the amount: 'twelve' isn't a number"),
        ):
            with self.assertRaisesRegex(BadInput, sentence):
                number(word, "the amount")

    def test_notes(self) -> None:
        self.assertEqual(
            notes("A,480.000\nB,900\n", 2, Layout()),
            ["480.000 is read as 480: the point is the decimal mark"],
        )
        for text in ("A,480.000\nB,900.5\n", "A,0.125\n", "A,480\n", self.GERMAN):
            self.assertEqual(notes(text, 2, Layout()), [])
        self.assertEqual(notes("A,480.000\n", 2, Layout(decimal="point")), [])
        self.assertIn("Sum has the sum of all others", notes("A,1\nB,2\nSum,3\n", 2, Layout())[0])
        self.assertEqual(notes("A,1\nB,2\nA+B,3\n", 2, Layout()), [])

    def test_names_of_rows(self) -> None:
        """R's write.csv and write.csv2, and pandas: below an empty corner a column that isn't meant."""
        wanted = {"Adler": "2401/2", "Brandt": 800}
        for text in (
            '"","name","claim"\n"1","Adler",1200.5\n"2","Brandt",800\n',
            '"";"name";"claim"\n"1";"Adler";1200,5\n"2";"Brandt";800\n',
            ",name,claim\n0,Adler,1200.5\n1,Brandt,800.0\n",
            ",0,1\n0,Adler,1200.5\n1,Brandt,800\n",
        ):
            for layout in (Layout(), Layout(has_head=True)):
                self.assertEqual(self.claims(text, layout), wanted)
            self.assertIn("left out the first row and the first column", notes(text, 2, Layout())[0])
        self.assertEqual(self.claims("1,Adler,1200.5\n2,Brandt,800\n", Layout(skip=1)), wanted)
        for text, sentence in (
            ("1,Adler,1200.5\n2,Brandt,800\n", "line 1 has 3 columns instead of 2: is the first one .*skip=1"),
            (",5,7\nAdler,1,2\n", "line 1 has 3 columns instead of 2: is 5,7 one number, with a decimal comma"),
            (
                "Adler,1200,50\nBrandt,800\n",
                "line 1 has 3 columns instead of 2: is 1200,50 one number, with a decimal comma",
            ),
            ("2024-01-15,Adler,1200\n", "line 1 has 3 columns instead of 2: write Adler.*Layout.skip="),
            (",name,claim\nAdler,1\n", "line 1 has 3 columns"),
        ):
            with self.assertRaisesRegex(BadInput, sentence):
                self.claims(text)
        game = groups('"","group","cost"\n"1","a",1\n"2","b",2\n"3","a+b",2.5\n').game
        self.assertEqual(game.tree["sparse"], [[["a"], 1], [["b"], 2], [["a", "b"], "5/2"]])

    def test_what_excel_adds(self) -> None:
        """A line that names the sign, empty columns behind, and blanks or apostrophes between thousands."""
        wanted = {"A,B;C": "2401/2", "B": 8000000}
        self.assertEqual(self.claims('sep=;\r\n"A,B;C";1200,5\r\nB;8000000\r\n'), wanted)
        self.assertEqual(self.claims('"A,B;C";1200,5;;\n;;;\nB;8000000;;\n'), wanted)
        with self.assertRaisesRegex(BadInput, "line 3: 'x' isn't a number"):
            self.claims("sep=;\nA;1\nB;x\n")
        with self.assertRaisesRegex(BadInput, "line 2 has 3 columns"):
            self.claims("A;1\nB;2;\nC;3;4\n")
        for blank in (" ", "\u00a0", "\u202f", "'", "\u2019"):
            text = f'"A,B;C";1{blank}200,5\nB;8{blank}000{blank}000\n'
            self.assertEqual(self.claims(text), wanted, blank)
        self.assertEqual(self.claims("A;1 200.50\n"), {"A": "2401/2"})
        self.assertEqual(groups("a;\u22121 200,50\n").game.tree["sparse"], [[["a"], "-2401/2"]])
        for cell in ("1 20", "12 00,5", "1'200 300", "1200 300", "1 200 EUR"):
            with self.assertRaisesRegex(BadInput, "isn't a number"):
                self.claims(f"A;{cell}\n")
        for cell in ("1.200,50 \u20ac", "\u20ac 12", "12 EUR", "$12"):
            with self.assertRaisesRegex(BadInput, "isn't a number.*; leave out units and currency signs"):
                self.claims(f"A;{cell}\n")
        for text, sentence in (("Cost 2024;x\nA;1\n", "'x' isn't a .*has_head=True.$"), ("A;2024-01-15\n", "=True.$")):
            with self.assertRaisesRegex(BadInput, sentence):
                self.claims(text)
        with self.assertRaisesRegex(BadInput, "65 claims: an estate has at most 64"):
            self.claims("".join(f"p{i};1\n" for i in range(65)))
        dated = "date,v1,v2,v3\n2024-01-15,1,2,4\n"
        with self.assertRaisesRegex(BadInput, "line 2: '2024-01-15' isn't a number.*skip=1.$"):
            list(vectors(dated, "size", layout=Layout(has_head=True)))
        vector = next(vectors("sep=;\n1;2;1\u00a0200,5\n", "mask"))
        self.assertEqual(vector.tree["worths"], [1, 2, "2401/2"])

    def test_vectors_of_r_and_pandas(self) -> None:
        """write.csv, write.table, write.csv2, and to_csv; with names of rows and without."""
        rows = ["0.5,2,3,4,5,6,1e+05", "1,2,3,4,5,6,7"]
        head = ",".join(f'"V{i + 1}"' for i in range(7))
        named = [f'"{i + 1}",{row}' for i, row in enumerate(rows)]
        wanted = [["1/2", 2, 4, 3, 5, 6, 100000], [1, 2, 4, 3, 5, 6, 7]]
        tables: list[tuple[str, Layout]] = [
            ("\n".join(['"",' + head, *named]), Layout()),
            ("\n".join([head, *named]).replace(",", " "), Layout()),
            ("\n".join(['"",' + head, *named]).replace(",", ";").replace(".", ","), Layout()),
            ("\n".join(rows).replace(",", "   "), Layout()),
            ("\n".join([head, *rows]), Layout(has_head=True)),
            ("\n".join(named), Layout(skip=1)),
            ("\n".join([",0,1,2,3,4,5,6", "0," + rows[0], "1," + rows[1]]), Layout()),
        ]
        for text, layout in tables:
            self.assertEqual([game.tree["worths"] for game in vectors(text, "size", layout=layout)], wanted, text)
        self.assertIn("left out the first row and the first column", left_out(tables[0][0], Layout())[0])
        for first in ("0,1,2,3,4,5,6", "1,2,12,3,13,23,123"):
            with self.assertRaisesRegex(BadInput, "line 1: are [01], [12], (2|12), .. headings, and no game"):
                list(vectors(f"{first}\n{rows[1]}", "size"))
        self.assertEqual(left_out("\n".join(rows), Layout()), [])
        self.assertEqual(left_out("project,Ann,Bob,Ann+Bob\nP1,1,2,4\n", Layout()), [
            "left out the first column, which has names"
        ])
        with self.assertRaisesRegex(BadInput, "it isn't 0; if the first column has names, use Layout.skip=1"):
            list(vectors("\n".join(named), "size"))


def union(parts: Iterable[int]) -> int:
    """The players of all the parts."""
    together = 0
    for part in parts:
        together |= part
    return together


def is_split(parts: tuple[int, ...]) -> bool:
    """Whether no player stands in two of the parts."""
    together = 0
    for part in parts:
        if together & part:
            return False
        together |= part
    return True


if __name__ == "__main__":
    unittest.main()
