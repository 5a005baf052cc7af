"""Lists of landings by airline, and tables in which rows and airlines' sums agree."""
import random
import unittest
from fractions import Fraction

from coop import BadInput, games, runways
from coop.airlines import landings_in, remarks
from coop.desk.documents import Point
from coop.readers import landings
from coop.sheets import Layout
from coop.styles import Style, rounded
from coop.desk.tables import put_together, rounded_by, shares_csv, shares_table
from coop.names import airline_of, row_of

FEW = "Aer,DH8,3,20.50\nAer,A320,2,40\nBee,DH8,1,20.50\nCargo,B744,2,60\n"
HEADED = Layout(has_head=True)
WANTED = [("Aer, DH8", Fraction(41, 2), 3), ("Aer, A320", 40, 2), ("Bee, DH8", Fraction(41, 2), 1)]
WANTED.append(("Cargo, B744", 60, 2))


def read(text: str, layout: Layout = Layout()) -> list[tuple[str, Fraction, int]]:
    """The rows of a list as games take them."""
    return [(row.name, row.need, row.landings) for row in landings_in(text, layout=layout)]


class Lists(unittest.TestCase):
    def test_four_columns(self) -> None:
        self.assertEqual(read(FEW), WANTED)
        self.assertEqual(read(FEW.replace(",", ";").replace(".", ",")), WANTED)
        self.assertEqual(read(FEW.replace(",", "\t")), WANTED)
        names = landings(FEW).names
        self.assertEqual(names[:4], ["Aer, DH8 1", "Aer, DH8 2", "Aer, DH8 3", "Aer, A320 1"])
        self.assertEqual([airline_of(row_of(name)) for name in names], ["Aer"] * 5 + ["Bee"] + ["Cargo"] * 2)
        self.assertEqual(read("Aer,20.50,3\nBee,40,2\n"), [("Aer", Fraction(41, 2), 3), ("Bee", 40, 2)])

    def test_headings_tell_the_columns(self) -> None:
        for text in (
            "Airline,Cost,Aircraft,Landings\nAer,20.50,DH8,3\nAer,40,A320,2\nBee,20.50,DH8,1\nCargo,60,B744,2\n",
            "Landungen;Kosten der Piste;Fluggesellschaft;Typ\n3;20,50;Aer;DH8\n2;40;Aer;A320\n1;20,50;Bee;DH8\n"
            "2;60;Cargo;B744\n",
            "Date;Compagnie;Avion;Vols;Prix\n1/5;Aer;DH8;3;20,5\n1/6;Aer;A320;2;40\n1/7;Bee;DH8;1;20,5\n"
            "1/8;Cargo;B744;2;60\n",
            'x,airline,type,n,EUR\n,Aer,DH8,3,20.50\n,Aer,A320,2,40\n,Bee,DH8,1,20.50\n,Cargo,B744,2,60\n'.replace(
                "n,EUR", "flights,\u20ac"
            ),
        ):
            self.assertEqual(read(text, HEADED), WANTED, text)
        three = [("Aer", 20, 3), ("Bee", 40, 2)]
        self.assertEqual(read("Airline,Landings,Cost\nAer,3,20\nBee,2,40\n", HEADED), three)
        self.assertEqual(read("a,b,c\nAer,20,3\nBee,40,2\n", HEADED), three)
        saved = '"","airline","cost","landings"\n"1","Aer",20,3\n"2","Bee",40,2\n'
        self.assertEqual(read(saved), three)
        self.assertIn("left out the first row and the first column", remarks(saved, Layout())[0])
        dated = ",date,airline,type,landings,cost\n0,2024-01-15,Aer,DH8,3,20\n1,2024-01-16,Bee,DH8,2.0,40.0\n"
        self.assertEqual(read(dated), [("Aer, DH8", 20, 3), ("Bee, DH8", 40, 2)])
        self.assertEqual(read("1;Aer;20;3\n2;Bee;40;2\n", Layout(skip=1)), three)
        self.assertEqual(read("Aer;20;3.0\nBee;40;2,00\n"), three)

    def test_what_is_told(self) -> None:
        whole = "Aer,A320,3,20\nBee,A320,2,40\n"
        self.assertIn("3 is read as landings, and 20 as what one needs", remarks(whole, Layout())[0])
        self.assertEqual(remarks(FEW, Layout()), [])
        half = remarks("Airline,ICAO,n,Cost\nAer,A320,3,20\n", HEADED)
        self.assertEqual(half, ["the columns are read as airline, type, landings, need: not all headings are known"])
        dated = "Date,Airline,Type,Landings,Cost\n1/5,Aer,A320,3,20\n"
        self.assertEqual(remarks(dated, HEADED), ["left out these columns: Date"])
        comma = remarks("\"M, S\u00f6hne\",20.5,3\n", Layout())
        self.assertIn("M, S\u00f6hne has a comma, and `shares --by` reads what follows it as a type", comma[0])
        summed = "Aer,20,3\nBee,40,2\nTotal,60,5\n"
        self.assertIn("Total has as many landings as all others", remarks(summed, Layout())[0])
        self.assertIn("480.000 is read as 480", remarks("Aer,480.000,3\n", Layout())[0])

    def test_what_is_refused(self) -> None:
        for text, layout, sentence in (
            ("Aer,20,50,3\nBee,40,25,2\n", Layout(), "line 1: is 20,50 one number, with a decimal comma"),
            ("1;Aer;20;3\n2;Bee;40;2\n", Layout(), "line 1: is 1 the number of the row.*skip=1"),
            ("id;airline;need;n\n0;Aer;20;3\n1;Bee;40;2\n", HEADED, "line 2: is 0 the number of the row.*skip=1"),
            ("Aer,A320,20.50,3\n", Layout(), "20.50 isn't a number of landings; four columns are airline, type, land"),
            ("Aer,20,3\nAer,40,2\n", Layout(), "line 2: Aer is already in line 1; .* give their types"),
            ("Aer,A,3,20\n,B,3,20\n", Layout(), "line 2 has no name"),
            ('Aer,"A320, neo",3,20\n', Layout(), "line 1: the type A320, neo has a comma"),
            ('"Aer, Ltd",,3,20\nBee,B,1,2\n', Layout(), "line 1: Aer, Ltd has a comma but no type"),
            ("Aer,20\n", Layout(), "line 1 has 2 columns instead of 3 or 4"),
            ("Aer,A,3,20,x\n", Layout(), "line 1 has 5 columns instead of 3 or 4.*has_head=True"),
            ("Aer,3,20\nBee,4,10\n", Layout(), "are 20 the landings of Aer, and does one need 3. Name the columns"),
            (
                "Airline,Landings,Cost\nAer,3,20\n",
                Layout(),
                "line 1: Cost isn't a number of landings; if this line has head",
            ),
            ("Airline,Type,Cost\nAer,A320,20\n", HEADED, "no heading names the column of landings"),
            ("", Layout(), "the file has no lines"),
        ):
            with self.assertRaisesRegex(BadInput, sentence):
                landings_in(text, layout=layout)

    def test_numbers_go_on(self) -> None:
        """Rows of one airline and type, as of two months, are counted on; and runways add up an airline's types."""
        twice = landings("Aer,A320,2,40\nBee,A320,1,40.5\nAer,A320,1,41\n")
        self.assertEqual(twice.names, ["Aer, A320 1", "Aer, A320 2", "Bee, A320 1", "Aer, A320 3"])
        self.assertEqual(games.landings([("a", 1, 1), ("a", 2, 1)]).names, ["a 1", "a 2"])
        paid = runways.nucleolus((row.airline, row.need, row.landings) for row in landings_in(FEW))
        self.assertEqual((list(paid), sum(paid.values())), (["Aer", "Bee", "Cargo"], 60))
        with self.assertRaisesRegex(BadInput, "a label is missing"):
            runways.shapley([(None, 1, 2)])  # type: ignore[list-item]


class Sums(unittest.TestCase):
    NAMES = ["Aer, DH8 1", "Aer, DH8 2", "Aer, A320 1", "Bee, DH8 1"]

    def test_rows_and_sums_agree(self) -> None:
        point = Point("nucleolus", [Fraction(1, 3)] * 3 + [Fraction(1)])
        rows, points = put_together(self.NAMES, [point])
        table = shares_table(rows, points, Style(), [airline_of(row) for row in rows])
        lines = [line.split("  ") for line in table.splitlines()[1:6]]
        wanted = [("Aer, DH8", "0.67"), ("Aer, A320", "0.33"), ("Aer, together", "1.00"), ("Bee, DH8", "1.00")]
        self.assertEqual([(line[0].strip(), line[-1]) for line in lines], [*wanted, ("together", "2.00")])
        self.assertNotIn("together", shares_csv(rows, points, Style(), [airline_of(row) for row in rows]))

    def test_who_gets_the_odd_cent(self) -> None:
        """First the airlines' sums: by themselves the rows' cents would go to others, and make other sums."""
        names, shares = ["a, x", "a, y", "b, x"], [Fraction(2, 5), Fraction(2, 5), Fraction(3, 5)]
        owners = ["a", "a", "b"]
        self.assertEqual((rounded(shares, 0), rounded_by(owners, shares, 0)), ([0, 0, 1], [1, 0, 0]))
        text = shares_table(names, [Point("nucleolus", shares)], Style(0), owners)
        self.assertIn("first each airline's sum, then its rows", text)
        self.assertIn("among equals to the upper row", text)

    def test_random_sums(self) -> None:
        draw = random.Random(9)
        for _ in range(200):
            owners = [draw.choice("abc") for _ in range(draw.randint(1, 9))]
            shares = [Fraction(draw.randint(-50, 400), draw.randint(1, 30)) for _ in owners]
            rows, points = put_together(owners, [Point("x", shares)], lambda name: name)
            for places in (0, 1, 2):
                steps = rounded_by(owners, shares, places)
                sums = [sum(step for step, own in zip(steps, owners) if own == row) for row in rows]
                self.assertEqual(sums, rounded_by(rows, points[0].shares, places))
                self.assertTrue(all(abs(step - share * 10**places) < 1 for step, share in zip(steps, shares)))
                self.assertLessEqual(abs(sum(steps) - sum(shares) * 10**places), Fraction(1, 2))


if __name__ == "__main__":
    unittest.main()
