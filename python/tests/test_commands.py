"""The scripts that tools/gate/try-scripts doesn't try: what they print, how they end, and what they refuse."""
import csv
import html
import io
import json
import os
import re
import subprocess
import sys
import tempfile
import unittest
from fractions import Fraction
from typing import Any

import coop
from coop import BadInput, Game
from coop.program import TOP

from .asking import needs_program
from .test_reasons import AIRPORT, solved

SCRIPTS = sorted(name for name in os.listdir(os.path.join(TOP, "scripts")) if not name.startswith("_"))
PROPOSAL = os.path.join(TOP, "examples", "airport-proposal.json")
MAJORITY = os.path.join("examples", "majority.json")


def script(name: str, *words: str, text: str = "", output: Any = subprocess.PIPE) -> tuple[int, str, str]:
    """The status, the output and the errors of a script, by an environment of a path and what finds the program."""
    command = [sys.executable, os.path.join(TOP, "scripts", name), *words]
    kept = {key: os.environ[key] for key in ("COOP", "COOP_LIBRARY") if key in os.environ}
    settings = {"PATH": "/usr/bin:/bin", **kept}
    done = subprocess.run(command, input=text.encode(), stdout=output, stderr=subprocess.PIPE, env=settings, cwd=TOP)
    return done.returncode, (done.stdout or b"").decode(), done.stderr.decode()


class Scripts(unittest.TestCase):
    def refused(self, found: tuple[int, str, str], *sentences: str) -> None:
        """Status 2, nothing on standard output, and one line of error."""
        status, text, errors = found
        self.assertEqual((status, text, errors.count("\n")), (2, "", 1), errors)
        for sentence in sentences:
            self.assertIn(sentence, errors)

    def test_help_and_words(self) -> None:
        self.assertEqual(len(SCRIPTS), 18)
        for name in SCRIPTS:
            status, text, errors = script(name, "--help")
            self.assertEqual((status, errors), (0, ""), name)
            self.assertIn(f"scripts/{name}", text)
            if name != "check-anew":
                self.refused(script(name, "--no-such-word"), f"{name}: ", f"usage: scripts/{name}")
        with open("/dev/full", "wb") as full:
            for name, words in (
                ("slip", [PROPOSAL]),
                ("same-game", [PROPOSAL, PROPOSAL]),
                ("proposal", [PROPOSAL, "1", "2", "3"]),
            ):
                self.refused(script(name, *words, output=full), f"{name}: ")

    def test_what_is_too_large(self) -> None:
        """Of numbers and units, in a sentence."""
        game = '{"class":"airport","costs":[2]}'
        line = f'{{"answer":"nucleolus","game":{game},"shares":["%s"],"certificate":{{"levels":[]}}}}'
        for share in ("1" * 4301, "1" * 401):
            for text in (line % share, (line % share).replace(f'"{share}"', share)):
                for words in (["shares"], ["picture"], ["shares", "--csv"]):
                    self.refused(script(*words, text=text), f"{words[0]}: ")
        solved = os.path.join("examples", "airport-solved.json")
        for words in (["shares", solved], ["report", solved], ["shares", "--csv", solved]):
            self.refused(script(*words, "--unit", "\udcff"), "the unit has half of a character")
        self.assertNotIn("\x1b", script("shares", solved, "--unit", "\x1b[31m")[1])

    def test_from_vector(self) -> None:
        status, text, errors = script("from-vector", "--order", "size", "--names", "a,b,c", text="0,0,0,6,2,2,12\n")
        self.assertEqual((status, errors), (0, ""))
        game = {"class": "table", "names": ["a", "b", "c"], "players": 3, "worths": [0, 0, 6, 0, 2, 2, 12]}
        self.assertEqual(json.loads(text), {"game": game})
        status, text, errors = script(
            "from-vector", "--order", "mask", "--costs", "--digits", "9", "--scaled", text="1,2,2.5\n"
        )
        self.assertEqual(
            json.loads(text)["game"],
            {"class": "cost-table", "players": 2, "worths": [10**9, 2 * 10**9, 25 * 10**8]},
        )
        self.assertIn("--over 1000000000", errors)
        per_head = script("from-vector", "--order", "mask", "--per-head", text="1,2,4\n")[1]
        self.assertEqual(json.loads(per_head)["game"]["excess"], "per-head")
        self.refused(script("from-vector", text="0,0,0,6,2,2,12\n"), "name the --order of the vector")
        headed = script("from-vector", text="P,A,B,A+B\n1,1,2,4\n")
        self.assertEqual(json.loads(headed[1])["game"]["names"], ["A", "B"])
        self.assertIn("left out the first column, which has names", headed[2])
        self.refused(script("from-vector", "--order", "size", text="a,b,3\n1,2,3\n"), "has headings, use --head")
        self.refused(script("from-vector", "--order", "size", text="a,b\n1,2\n"), "don't name the groups")
        self.refused(script("from-vector", "--order", "mask", text="1,2,0.00001\n"), "--digits 4", "--scaled")
        self.refused(
            script("from-vector", "--order", "mask", "--scaled", text="1,2,0.00001\n1,2,3\n"), "different factors"
        )

    def test_from_claims_and_landings(self) -> None:
        claims = "Adler,1200.50\nBrandt,800\n"
        game = json.loads(script("from-claims", "--estate", "1999.50", text=claims)[1])["game"]
        self.assertEqual(
            (game["estate"], game["claims"], game["names"]), ("3999/2", ["2401/2", 800], ["Adler", "Brandt"])
        )
        self.refused(script("from-claims", text=claims), "--estate")
        self.refused(script("from-claims", "--estate", "3000", text=claims), "less than the estate")
        game = json.loads(script("from-landings", text="Aer,20,2\nBee,40,1\n")[1])["game"]
        self.assertEqual((game["costs"], game["names"]), ([20, 20, 40], ["Aer 1", "Aer 2", "Bee 1"]))
        self.refused(script("from-landings", text="Aer,20\n"), "line 1 has 2 columns")
        self.refused(script("from-landings", text="Aer,20,65\n"), "at most 64 players", "coop.runways")

    def test_files_of_spreadsheets(self) -> None:
        """Semicolons and decimal commas are read, and what may be meant otherwise is told or refused."""
        text = "Hartmann KG;480.000,50\nWeber Bank;900.000,75\n"
        game = json.loads(script("from-claims", "--estate", "100", text=text)[1])["game"]
        self.assertEqual((game["names"], game["claims"]), (["Hartmann KG", "Weber Bank"], ["960001/2", "3600003/4"]))
        status, _, errors = script("from-claims", "--estate", "100", text="A,480.000\nB,900\n")
        self.assertEqual((status, "480.000 is read as 480" in errors), (0, True))
        self.refused(script("from-claims", "--estate", "9", text="A;480.000\n"), "480 or 480000", "--decimal")
        found = script("from-claims", "--estate", "9", "--decimal", "comma", "--head", text="Name;Claim\nA;480.000\n")
        self.assertEqual(json.loads(found[1])["game"]["claims"], [480000])
        broken = script("from-claims", "--estate", "100", text='A;100\n"Brandt\n999";200\n')
        self.assertEqual(json.loads(broken[1])["game"]["names"], ["A", "Brandt\n999"])
        self.assertIn("shown as escapes in Brandt\\u000a999", broken[2])
        found = script("from-claims", "--head", "--estate", "400.000", text="Name;Claim\nA;440.123,83\n")
        self.assertEqual(json.loads(found[1])["game"]["estate"], 400000)
        self.refused(script("from-claims", "--estate", "400.000", text="A;480000\n"), "400 or 400000", "--decimal")
        self.refused(script("overrun", PROPOSAL, "1.500"), "1.500 may be 1.5 or 1500")
        self.refused(script("proposal", PROPOSAL, "1.500", "1", "2"), "the share of player 1: 1.500 may be")
        self.refused(script("proposal", PROPOSAL, "light=1", "medium=1.500", "heavy=2"), "the share of medium: 1.500")
        game = json.loads(script("from-costs", "--head", text="Group\tkEUR\na\t3387,4\n")[1])["game"]
        self.assertEqual(game["sparse"], [[["a"], "16937/5"]])
        game = json.loads(script("from-landings", text="Aer;20,50;1\n")[1])["game"]
        self.assertEqual(game["costs"], ["41/2"])
        saved = '"";"V1";"V2";"V3"\n"1";0,5;1e-04;2\n'
        status, text, errors = script("from-vector", "--order", "size", text=saved)
        self.assertEqual((status, json.loads(text)["game"]["worths"]), (0, ["1/2", "1/10000", 2]))
        self.assertIn("left out the first row and the first column", errors)
        named = script("from-vector", "--order", "size", "--skip", "1", text="1,1,2,4\n")[1]
        self.assertEqual(json.loads(named)["game"]["worths"], [1, 2, 4])

    def test_shares(self) -> None:
        game = {"class": "airport", "costs": [2, 2, 4], "names": ["Aer 1", "Aer 2", "Bee 1"]}
        text = json.dumps({"game": game, "shares": [1, "1/2", 1500]})
        together = "player,proposal,proposal rounded\nAer,3/2,1.50\nBee,1500,1500.00\n"
        self.assertEqual(script("shares", "--csv", "--together", text=text)[1], together)
        over = script("shares", "--csv", "--over", "10", text=text)[1].splitlines()
        self.assertEqual(over[1:], ["Aer 1,1/10,0.10", "Aer 2,1/20,0.05", "Bee 1,150,150.00"])
        self.assertIn("1,500.00 EUR", script("shares", "--unit", "EUR", text=text)[1])
        thirds = '{"shares":["1/3","1/3","1/3"]}'
        for words in ((), ("--csv",)):
            status, text, errors = script("shares", *words, text=thirds)
            told = errors if words else text
            self.assertEqual((status, told.count("Decimals are rounded so that they add up")), (0, 1))
            self.assertNotIn("Decimals", "".join(script("shares", *words, text='{"shares":["1/4","1/3"]}')[1:]))
        after = '{"shares":["2/3","2/3","2/3"]}'
        rows = [row.split()[1:] for row in script("shares", "--change", text=thirds + after)[1].splitlines()[1:4]]
        wanted = [["0.34", "0.67", "0.33"], ["0.33", "0.67", "0.34"], ["0.33", "0.66", "0.33"]]
        self.assertEqual([row[1::2] for row in rows], wanted)
        both = script("shares", text='{"game":{"class":"airport","costs":[1],"names":["together"]},"shares":[1]}')[1]
        self.assertIn("\nall together", both)
        self.refused(script("shares", "--over", "0", text=text), "isn't a whole number from 1 up")

    def test_landings_by_airline(self) -> None:
        """Four columns in, and rows and airlines' sums out, which agree; a CSV has no sums."""
        text = "Aer,DH8,2,20.50\nAer,A320,1,40\nBee,DH8,1,20.50\n"
        status, made, errors = script("from-landings", text=text)
        names = ["Aer, DH8 1", "Aer, DH8 2", "Aer, A320 1", "Bee, DH8 1"]
        self.assertEqual((status, json.loads(made)["game"]["names"], errors), (0, names, ""))
        line = json.dumps({**json.loads(made), "shares": ["13/3", "13/3", "27", "13/3"]})
        status, table, errors = script("shares", "--by", "row", text=line)
        rows = [(row[:13].strip(), row.split()[-1]) for row in table.splitlines()[1:6]]
        wanted = [("Aer, DH8", "8.67"), ("Aer, A320", "27.00"), ("Aer, together", "35.67"), ("Bee, DH8", "4.33")]
        self.assertEqual((status, rows, errors), (0, [*wanted, ("together", "40.00")], ""))
        found = script("shares", "--by", "airline", "--csv", text=line)
        self.assertEqual(found[1].splitlines()[1:], ["Aer,107/3,35.67", "Bee,13/3,4.33"])
        cells = list(csv.reader(io.StringIO(script("shares", "--by", "row", "--csv", text=line)[1])))
        self.assertEqual([row[-1] for row in cells[1:]], ["8.67", "27.00", "4.33"])
        fifths = json.dumps({**json.loads(made), "shares": ["21/5", "21/5", "132/5", "26/5"]})
        for words in (["--by", "row"], ["--by", "row", "--csv"]):
            _, table, errors = script("shares", "--places", "0", *words, text=fifths)
            self.assertIn("first each airline's sum, then its rows", table + errors)
        self.refused(script("shares", "--by", "row", "--together", text=line), "give one")
        self.refused(script("from-landings", text="Aer,20,50,3\n"), "is 20,50 one number")
        known = script("from-landings", "--head", text="Date,Airline,Landings,Cost\n1/5,Aer,3,20\n")
        self.assertEqual((known[0], known[2]), (0, "from-landings: left out these columns: Date\n"))

    def test_files_for_spreadsheets(self) -> None:
        """Semicolons and decimal commas on the way out, as they are read on the way in."""
        game = {"class": "airport", "costs": [2, 2000], "names": ["M\u00fcller", "a;b"]}
        text = json.dumps({"game": game, "shares": ["1/2", "3999/2"]})
        wanted = 'player;proposal;proposal rounded\nM\u00fcller;1/2;0,50\n"a;b";3999/2;1999,50\n'
        self.assertEqual(script("shares", "--csv", "--decimal", "comma", text=text), (0, wanted, ""))
        tabs = script("shares", "--csv", "--rounded", "--decimal", "comma", "--sep", "tab", "--bom", text=text)[1]
        self.assertEqual(tabs, "\ufeffplayer\tproposal rounded\nM\u00fcller\t0,50\na;b\t1999,50\n")
        semicolons = script("shares", "--csv", "--sep", "semicolon", text=text)[1]
        self.assertEqual(semicolons.splitlines()[1], "M\u00fcller;1/2;0.50")
        for words in (["--decimal", "comma"], ["--sep", "tab"], ["--bom"], ["--rounded"]):
            self.refused(script("shares", *words, text=text), "--csv")
        lines = json.dumps(solved()) + json.dumps({"answer": "shapley", "shares": ["2/3", "5/3", "11/3"]})
        words = ["--csv", "--places", "2", "--decimal", "comma", "--unit", "EUR"]
        rows = script("compare", *words, text=lines)[1].splitlines()
        heads = ["place", "group of nucleolus", "nucleolus, EUR", "group of Shapley shares", "Shapley shares, EUR"]
        self.assertEqual(rows[0].split(";"), heads)
        self.assertEqual(rows[1], "1;light alone;-1,00;medium and heavy together;-0,67")
        self.refused(script("compare", "--sep", "tab", text=lines), "--csv")

    def test_what_is_told_once_and_how_to_save(self) -> None:
        """Names that look alike are told once for all rows; and what isn't UTF-8 is told with what to choose."""
        rows = script("from-vector", "--order", "mask", "--names", "A,a", text="1,2,4\n" * 30)
        self.assertEqual((rows[0], rows[1].count("\n"), rows[2].count("only in capitals")), (0, 30, 1))
        with tempfile.TemporaryDirectory() as folder:
            path = os.path.join(folder, "claims.csv")
            with open(path, "wb") as file:
                file.write("M\u00fcller;1\n".encode("cp1252"))
            self.refused(script("from-claims", "--estate", "1", path), "isn't UTF-8", "CSV UTF-8")
        self.refused(script("from-costs", text="\u0394" * 33 + ",1\n"), "64 bytes; letters beyond ASCII have several")
        twice = '{"game":{"class":"airport","costs":[1],"costs":[1.5]}}'
        with tempfile.TemporaryDirectory() as folder:
            path = os.path.join(folder, "twice.json")
            with open(path, "w", encoding="utf-8") as file:
                file.write(twice)
            told = script("explain", "-", path, text='{"number":5,"refused":"Number"}')
        self.assertIn('Besides, at game: the key "costs" is given twice', " ".join(told[1].split()))

    @needs_program
    def test_columns_of_many(self) -> None:
        """A file's name with blanks keeps its column by tabs; a CSV may have decimal commas."""
        with tempfile.TemporaryDirectory() as folder:
            path = os.path.join(folder, "our two games.json")
            with open(path, "w", encoding="utf-8") as file:
                file.write('{"game":{"class":"airport","costs":[1]}}')
            row = script("many", "core", "--sep", "tab", path)[1].rstrip("\n").split("\t")
            self.assertEqual(row, ["0", path, "core", '{"answer":"core point","shares":["1"]}'])
            text = script("many", "core", "--csv", "--places", "2", "--decimal", "comma", path)[1]
            self.assertEqual(text, f"status;document;command;player 1;reason\n0;{path};core;1,00;\n")
            wide = script("many", "core", "--wide", "--places", "2", "--decimal", "comma", path)[1]
            self.assertEqual(wide.splitlines()[1], f"{path};0;1,00;")
        pairs = (("a", "b"), ("b", "a"))
        one, other = ('{"game":{"class":"airport","costs":[1,3],"names":["%s","%s"]}}\n' % pair for pair in pairs)
        for text, option, head, said in (
            (one + one, "--csv", "status,document,command,a,b,reason", ""),
            (one + one, "--wide", "document,shapley status,shapley a,shapley b,reason", ""),
            (one + other, "--csv", "status,document,command,player 1,player 2,reason", "another order: columns count"),
        ):
            status, found, errors = script("many", "shapley", option, text=text)
            self.assertEqual((status, found.split("\n")[0]), (0, head))
            self.assertIn(said, errors)
        for word in (["--sep", "comma"], ["--decimal", "comma"], ["--sep", "tab", "--bom"]):
            self.refused(script("many", "core", *word, PROPOSAL), "--csv")

    def test_overrun_without_and_change(self) -> None:
        table = '{"game":{"class":"cost-table","names":["a","b"],"players":2,"worths":[2,3,4]}}'
        worths = [json.loads(script("overrun", "-", by, text=table)[1])["game"]["worths"] for by in ("12.50", "-1")]
        self.assertEqual(worths, [[2, 3, "33/2"], [2, 3, 3]])
        for word, whole in (("10%", "22/5"), ("-25%", 3), ("12,50", "33/2"), ("-0,5", "7/2")):
            self.assertEqual(json.loads(script("overrun", "-", word, text=table)[1])["game"]["worths"], [2, 3, whole])
        self.refused(script("overrun", "-", "356,852", text=table), "356,852 may be 356.852 or 356852")
        runway = json.loads(script("overrun", PROPOSAL, "1")[1])["game"]
        self.assertEqual((runway["class"], runway["worths"]), ("cost-table", [2, 4, 4, 6, 6, 6, 7]))
        game = json.loads(script("without", PROPOSAL, "light")[1])["game"]
        self.assertEqual(game, {"class": "airport", "costs": [4, 6], "names": ["medium", "heavy"]})
        self.refused(script("without", PROPOSAL, "bright"), "bright isn't a player")
        dear = '{"game":{"class":"cost-table","names":["a","b","c"],"players":3,"worths":[3,4,7,5,5,9,6]}}'
        status, text, errors = script("without", "-", "c", text=dear)
        self.assertEqual((status, json.loads(text)["game"]["worths"]), (0, [3, 4, 7]))
        self.assertIn("those who stay cost 7, and all together cost 6", errors)
        self.assertEqual(script("without", "-", "b", text=dear)[2], "")
        cents = dear.replace('"players"', '"version":2,"players"').replace("[3,4,7", '[3,4,"37074/25"')
        for words, cost in ((["-"], "1,482.96"), (["--places", "1", "-"], "1,483.0")):
            self.assertIn(f"those who stay cost {cost}, and", script("without", *words, "c", text=cents)[2])
        lines = '{"shares":[1,2]} {"shares":[3,7]} {"shares":["3/2",1]}'
        rows = script("shares", "--change", "--csv", text=lines)[1].splitlines()
        self.assertEqual(rows[0].split(",")[-2:], ["change", "change rounded"])
        self.assertEqual([row.split(",")[-2:] for row in rows[1:]], [["1/2", "0.50"], ["-1", "-1.00"]])
        self.refused(script("shares", "--change", text='{"shares":[1,2]}'), "there is one")

    def test_change_where_one_has_left(self) -> None:
        """Those who stay stand by their names, whatever their places; names are needed, and somebody who stays."""
        three = '{"game":{"class":"airport","costs":[2,4,6],"names":["a","b","c"]},"shares":[1,"3/2","7/2"]}'
        two = '{"game":{"class":"airport","costs":[6,2],"names":["c","a"]},"shares":[5,1]}'
        status, text, errors = script("shares", "--change", text=three + two)
        rows = [row.split() for row in text.splitlines()[1:]]
        wanted = [["a", "1", "1", "0"], ["c", "7/2", "5", "3/2"], ["together", "9/2", "6", "3/2"]]
        self.assertEqual((status, [row[:1] + row[1::2] for row in rows]), (0, wanted))
        self.assertIn("left out, since they aren't in all games: b\n", errors)
        self.refused(script("shares", text=three + two), "other players than those of")
        nobody = two.replace('"c","a"', '"d","e"')
        self.refused(script("shares", "--change", text=three + nobody), "no player is in all the games")
        gains = two.replace('"airport","costs"', '"voting","quota":2,"weights"')
        self.refused(script("shares", "--change", text=three + gains), "worths, but costs")
        unnamed = '{"game":{"class":"airport","costs":[2,4]},"shares":[1,3]}'
        self.refused(script("shares", "--change", text=three + unnamed), "other players")

    def test_from_costs_fills(self) -> None:
        costs = "a,3\nb,4\nc,5\na+b,6\na+b+c,9\n"
        status, text, errors = script("from-costs", "--fill", text=costs)
        self.assertEqual((status, json.loads(text)["game"]["sparse"][-2:]), (0, [[["a", "c"], 8], [["b", "c"], 9]]))
        self.assertIn("2 groups were filled in", errors)
        self.assertIn("as long as none of these groups could build cheaper together than apart", errors)
        self.assertNotIn("a larger group", errors)
        dear = script("from-costs", "--fill", text="a,3\nb,4\nc,5\na+b+c,6\n")[2]
        self.assertIn("3 groups cost more than a larger group that contains them", dear)
        self.assertIn("from-costs: b+c: 9, and a+b+c: 6\n", dear)
        self.assertIn('"core" and "core point" hold only against the filled numbers', dear)
        within = script("from-costs", "--fill-within", "--places", "1", text="a,3\nb,4\nc,5\na+b+c,6\n")
        self.assertEqual([item[1] for item in json.loads(within[1])["game"]["sparse"]], [3, 4, 5, 6, 6, 6, 6])
        self.assertIn("b+c: 6.0 = a + b + c, and not 9.0 = b | c\n", within[2])
        told = "from-costs: line 3: a+b costs 1,559.81,"
        odd = script("from-costs", text="a,9\nb,9.27\na+b,1559.81\n")
        self.assertEqual((odd[0], odd[2]), (0, f"{told} more than b and a cost apart: 9.27 + 9\n"))
        self.assertEqual(script("from-costs", "--gains", text="a,9\nb,9.27\na+b,1559.81\n")[2], "")
        less = script("from-costs", "--gains", "--places", "1", text="a\x1b,9\nb,9.27\na\x1b+b,18\n")
        hostile = "from-costs: line 3: a\\u001b+b gains 18.0, less than b and a\\u001b gain apart: 9.3 + 9.0\n"
        self.assertEqual(less[2].splitlines(True)[1:], [hostile])
        self.assertIn("from-costs: a+c: 8 = a | c\nfrom-costs: b+c: 9 = b | c\n", errors)
        self.refused(script("from-costs", text=costs), "a+c has no line, and 1 more groups", "--fill")
        gains = json.loads(script("from-costs", "--gains", text="a,1\n")[1])["game"]
        self.assertEqual(gains["class"], "table")
        for word in ("--fill", "--fill-within"):
            self.refused(script("from-costs", "--gains", word, text=costs), "are for costs")

    def test_same_game(self) -> None:
        with tempfile.TemporaryDirectory() as folder:
            line, agreed, twice = (os.path.join(folder, name) for name in ("line", "agreed", "twice"))
            other = {**AIRPORT, "costs": [2, 4, 7]}
            texts = (
                json.dumps(solved()),
                json.dumps({"game": AIRPORT}),
                json.dumps({"game": other})[:-2] + ', "costs": [2, 4, 6]}}',
            )
            for path, text in zip((line, agreed, twice), texts):
                with open(path, "w", encoding="utf-8") as file:
                    file.write(text)
            self.assertEqual(script("same-game", line, agreed)[::2], (0, ""))
            self.assertEqual(
                script("same-game", "-", agreed, text=json.dumps({"game": other}))[:2],
                (1, "No. What heavy needs (item 3): the line has 7, the agreed file 6.\n"),
            )
            status, text, _ = script("same-game", line, twice)
            self.assertEqual((status, text[:47]), (2, "In the agreed file a key occurs twice: costs. N"))
            table = {"class": "cost-table", "players": 3, "names": AIRPORT["names"], "worths": [2, 4, 4, 6, 6, 6, 6]}
            status, text, _ = script("same-game", "-", agreed, text=json.dumps({"game": table}))
            self.assertEqual((status, text[:14]), (3, "Worth the same"))
            marked = "\ufeff" + json.dumps({"game": AIRPORT})
            self.refused(script("same-game", "-", agreed, text=marked), "standard input begins with a byte order mark")
            with open(twice, "w", encoding="utf-8") as file:
                file.write(marked)
            self.refused(script("same-game", line, twice), "without one")
            self.assertEqual(script("shares", line, twice)[0], 0)
            self.refused(script("same-game", line), "AGREED")

    def test_same_game_of_what_is_refused(self) -> None:
        """The program would refuse one of the two, so nobody can say what game was meant."""
        table: dict[str, Any] = {"class": "table", "players": 2, "sparse": [[[2], 7], [[1, 2], 9]]}
        slips = [
            ({**AIRPORT, "excess": "perhead"}, AIRPORT, "3 Shape"),
            ({**table, "sparse": [*table["sparse"], [[2], 5]]}, {**table, "sparse": [[[2], 5], [[1, 2], 9]]}, "7 Coal"),
            ({**table, "sparse": [[[1, 1], 5]]}, {**table, "sparse": [[[1], 5]]}, "7 Coalition"),
        ]
        with tempfile.TemporaryDirectory() as folder:
            path = os.path.join(folder, "agreed")
            for wrong, right, told in slips:
                for one, other in ((wrong, right), (right, wrong)):
                    with open(path, "w", encoding="utf-8") as file:
                        json.dump({"game": one}, file)
                    found = script("same-game", "-", path, text=json.dumps({"game": other}))
                    self.assertEqual((found[0], found[1][:40]), (2, "Nobody can say: the program refuses the "), told)
            named = {**table, "players": 3, "names": ["a", "b", "c"], "sparse": [[["a", "b"], 4], [["b", "c"], 5]]}
            with open(path, "w", encoding="utf-8") as file:
                json.dump({"game": named}, file)
            found = script("same-game", "-", path, text=json.dumps({"game": {**named, "names": ["a", "b", "d"]}}))
            self.assertIn("they differ at:\n  Name 3: the line has “d”, the agreed file “c”.\n", found[1])
            self.assertNotIn("the group", found[1])

    def test_a_share_of_many_zeros(self) -> None:
        """It is no fraction, and no traceback with the status of a no."""
        spoilt = json.dumps({**solved(), "shares": ["1/" + "0" * 5000 + "7", "1", "1"]})
        for words in (("check-anew",), ("shares",), ("explain",)):
            self.refused(script(*words, text=spoilt), "")
        with self.assertRaises(BadInput):
            Game({"class": "airport", "costs": ["1/" + "0" * 5000 + "7"], "version": 2})

    def test_slip(self) -> None:
        slip = '{"game":{"class":"airport","cost":[2,4,6]}}'
        self.assertEqual(script("slip", text=slip)[0], 1)
        self.assertEqual(script("slip", PROPOSAL), (0, "no mistake found\n", ""))
        self.assertIn(
            "3 Shape, at the document: The key “shares” is missing.",
            script("slip", "--command", "kernel", text='{"game":1}')[1],
        )
        twice = '{"game":{"class":"airport","costs":[2,4,6],"costs":[2,4,%s]}}'
        told = 'at game: the key "costs" is given twice, and the last one counts\n'
        self.assertEqual(script("slip", text=twice % 7), (1, f"no refusal, but {told}", ""))
        both = script("slip", text=twice % 1.5)
        self.assertEqual((both[0], both[1].count("\n"), both[1].splitlines(True)[1]), (1, 2, f"also {told}"))
        self.assertTrue(both[1].startswith("5 Number, at game.costs, item 3 (the cost of player 3): 1.5 is no whole "))

    def test_compare(self) -> None:
        lines = json.dumps(solved()) + json.dumps({"shares": ["2/3", "5/3", "11/3"]})
        status, text, errors = script("compare", "--places", "2", "--unit", "EUR", text=lines)
        self.assertEqual((status, errors), (0, ""))
        self.assertIn("1      light alone  −1.00 EUR  medium and heavy together  −0.67 EUR", text)
        rows = list(csv.reader(io.StringIO(script("compare", "--csv", text=lines)[1])))
        self.assertEqual((len(rows), rows[1][:3], rows[1][4]), (7, ["1", "light alone", "-1"], "-2/3"))
        self.refused(script("compare", text=json.dumps(solved())), "1 divisions")

    def test_marks_at_what_each_adds(self) -> None:
        """They are left out where nobody knows what each adds, and of a table of costs the key says whose they are."""
        table = '{"game":{"class":"cost-table","players":4,"worths":[8,7,10,6,10,10,10,5,10,10,10,10,10,10,13]}}'
        shares = table[:-1] + ',"shares":[4,3,3,3]}'
        status, text, errors = script("picture", text=shares)
        self.assertEqual((status, errors, text.count(">adds to the cost"), text.count("filled ones")), (0, "", 1, 1))
        marks = text.count('class="adds"')
        status, text, errors = script("picture", "--no-added", text=shares)
        self.assertEqual((status, errors, text.count(">adds to the cost"), text.count("filled ones")), (0, "", 0, 0))
        self.assertEqual((marks, text.count('class="adds"'), text.count(">costs alone<")), (5, 0, 1))
        self.assertNotIn("filled ones", script("picture", "--bars", text=json.dumps(solved()))[1])
        levels = [{"excess": "-1/2", "coalitions": [[[1], 1], [[2], 1]], "earlier": [], "bounds": [], "total": 1}]
        two = {
            "answer": "nucleolus",
            "certificate": {"mode": "span", "levels": levels},
            "game": {"class": "airport", "costs": [1, 1]},
            "shares": ["1/2", "1/2"],
        }
        self.assertEqual(script("report", text=json.dumps(two))[1].count(">adds to the cost"), 1)
        self.assertEqual(script("report", "--no-added", text=json.dumps(two))[1].count(">adds to the cost"), 0)

    def test_report(self) -> None:
        status, text, errors = script("report", "--title", "A runway", text=json.dumps(solved()))
        self.assertEqual((status, errors, text[:15], text.count("A runway</h1>")), (0, "", "<!DOCTYPE html>", 1))
        noted = script("report", "--note", "215 groups were filled in.", text=json.dumps(solved()))[1]
        self.assertEqual((noted.count("215 groups were filled in."), "215 groups" in text), (1, False))
        self.refused(script("report", text=json.dumps(solved(shares=[3, 1, 2]))), "condition 2")
        self.refused(script("report", "--decimal", "dot", text=json.dumps(solved())), "invalid choice: 'dot'")

    def test_a_decimal_comma_everywhere(self) -> None:
        """In paper and picture no number keeps a decimal point."""
        great, words = solved(), ["--places", "2", "--unit", "EUR", "--decimal", "comma", "--over", "1000"]
        paper = script("report", *words, text=json.dumps(great))[1]
        told = html.unescape(re.sub("(?s)<style>.*?</style>|<pre>.*?</pre>|<[^>]*>", " ", paper))
        self.assertEqual(re.findall(r"[0-9]+\.[0-9]+", told), [])
        self.assertIn("amounts are divided by 1000:", told)
        plain = script("report", "--places", "2", "--decimal", "comma", text=json.dumps(great))[1]
        self.assertIn("<td>1,50</td><td>3/2</td><td>4,00</td>", plain)
        self.assertIn("medium pays 1,50, 0,50 more than", plain)
        self.assertIn("nucleolus: 1,00; 1,50; 3,50</text>", plain)
        drawn = script("picture", "--places", "2", "--decimal", "comma", text=json.dumps(great))[1]
        self.assertIn("nucleolus: 1,00; 1,50; 3,50</text>", drawn)
        self.refused(script("report", text='{"answer":"core"}'), "isn't a line of nucleolus")

    def test_over(self) -> None:
        """A line that was multiplied is told as one that wasn't, but for the line on the report."""
        whole = solved(game={**AIRPORT, "costs": [20, 40, 60]}, shares=[10, 15, 35])
        for level in whole["certificate"]["levels"]:
            level["excess"] = str(Fraction(level["excess"]) * 10)
        small, great = json.dumps(solved()), json.dumps(whole)
        other, others = ('{"shares":["2/3","5/3","11/3"]}', '{"shares":["20/3","50/3","110/3"]}')
        blocked = '{"answer":"blocked","coalition":[1],"excess":"%d"}'
        cases: list[tuple[str, list[str], str, str]] = [
            ("explain", [], small, great),
            ("explain", ["-"], blocked % 1, blocked % 10),
            ("compare", [], small + other, great + others),
            ("picture", [], small, great),
            ("picture", ["--bars", "--places", "2"], small, great),
        ]
        for name, words, one, ten in cases:
            self.assertEqual(script(name, "--over", "10", *words, text=ten), script(name, *words, text=one), name)
        paper = script("report", "--over", "10", "--places", "2", text=great)[1]
        plain = script("report", "--places", "2", text=small)[1]
        self.assertEqual(paper.split("How to check")[0], plain.split("How to check")[0])
        self.assertIn("in the line they are so many times as great", paper)
        self.assertIn("&quot;costs&quot;:[20,40,60]", paper)
        self.assertNotIn("so many times", plain)
        false = great.replace('"-10"', '"-20"')
        self.assertIn("the excess −2, and it is −1.", script("explain", "--over", "10", text=false)[1])
        vote = '{"answer":"shapley","shares":["1"],"game":{"class":"voting","quota":1,"weights":[1]}}'
        self.refused(script("explain", "--over", "10", text=vote), "a vote has no amounts")
        self.refused(script("picture", "--over", "10", text='{"shares":[1],"game":{"class":"table"}}'), "1 to 64")

    def test_explain_beside_a_document(self) -> None:
        line = '{"answer":"blocked","coalition":[1],"excess":"1"}'
        self.assertIn(
            "It pays 3, where by itself it would cost 2.",
            " ".join(script("explain", "-", PROPOSAL, text=line)[1].split()),
        )

    def test_explain_names_who_judges_shares(self) -> None:
        self.refused(script("explain", PROPOSAL), "bin/coop propose", "scripts/compare")
        line, asked = '{"answer":"shapley","shares":["2/3","5/3","11/3"]}', "give the document beside it"
        self.assertIn(asked, " ".join(script("explain", text=line)[1].split()))
        self.assertNotIn(asked, " ".join(script("explain", "-", PROPOSAL, text=line)[1].split()))

    def test_names_that_forge(self) -> None:
        names = ["light  9.00\nheavy", "medium", "medium\u200b"]
        text = json.dumps(solved(game={**AIRPORT, "names": names}))
        for name in ("shares", "explain", "picture", "report", "compare"):
            status, found, errors = script(name, text=text * 2 if name == "compare" else text)
            self.assertEqual(status, 0, errors)
            self.assertNotIn("\u200b", found + errors)
            self.assertIn("\\u000aheavy", found)
            self.assertIn("2 names look alike: medium, medium\\u200b", errors)
        self.assertIn("\\u000aheavy", script("shares", "--csv", text=text)[1])
        game = {"class": "cost-table", "names": names, "players": 3, "worths": [8, 7, 10, 6, 10, 11, 12]}
        answer = coop.nucleolus(coop.Game(game))
        for name, word, given in (("margins", "--places=2", answer.line), ("versus", "-", json.dumps({"game": game}))):
            status, found, errors = script(name, word, text=given)
            self.assertEqual((status, "\u200b" in found + errors, "\\u000aheavy" in found), (0, False, True), name)
            self.assertIn("2 names look alike: medium, medium\\u200b", errors)

    @needs_program
    def test_thousands_of_many(self) -> None:
        """In a CSV nothing stands between thousands, and the help says so."""
        one = '{"game":{"class":"airport","costs":[1234]}}'
        self.assertIn(",1234.00,", script("many", "nucleolus", "--csv", "--places", "2", text=one)[1])
        self.assertIn("in plain digits", script("many", "--help")[1].split("--places N")[-1])
        self.assertNotIn("thousands separated", script("many", "--help")[1])

    def test_many_names_each_line(self) -> None:
        """A line has its status, its file and its rule; a file that can't be read stops none of the others."""
        status, text, errors = script("many", "core,shapley", MAJORITY, "lost.json")
        rows = [row.split(" ", 3) for row in text.splitlines()]
        self.assertEqual(
            [row[:3] for row in rows],
            [
                ["1", MAJORITY, "core"],
                ["0", MAJORITY, "shapley"],
                ["-", "lost.json", "core"],
                ["-", "lost.json", "shapley"],
            ],
        )
        self.assertEqual((status, json.loads(rows[0][3])["answer"], "lost.json" in errors), (1, "empty core", True))
        self.assertEqual(script("many", "nucleolus-per-head", text="{}")[0], 1)
        self.refused(script("many", "core,sharply", MAJORITY), "'sharply' isn't one of")

    def test_many_as_csv(self) -> None:
        lines = '{"game":{"class":"airport","costs":[2,4,6]}}\n{"game":{"class":"airport","costs":[1]}}\n'
        rows = [
            "status,document,command,player 1,player 2,player 3,reason",
            "0,standard input:1,nucleolus,1,3/2,7/2,",
            "0,standard input:2,nucleolus,1,,,",
        ]
        self.assertEqual(script("many", "--csv", "nucleolus", text=lines)[:2], (0, "\n".join([*rows, ""])))
        mixed = script("many", "nucleolus", "--places", "1", "--csv", PROPOSAL, "--over", "10")[1]
        self.assertEqual(mixed.splitlines()[1], f"0,{PROPOSAL},nucleolus,0.1,0.2,0.4,")
        great = '{"game":{"class":"airport","costs":[4000000]}}'
        row = script("many", "nucleolus", "--csv", "--places", "2", "--unit", "EUR", text=great)[1].splitlines()[1]
        self.assertEqual(row, "0,standard input,nucleolus,4000000.00,")
        self.refused(script("many", "core", "--over", "0", MAJORITY), "isn't a whole number from 1 up")
        self.refusals_have_reasons()
        self.two_lists_have_names(MAJORITY)

    def test_many_wide(self) -> None:
        """A row a document has each rule's status and shares, and the reasons of all."""
        rules = "nucleolus,nucleolus-per-head,core"
        wide = script("many", rules, "--wide", PROPOSAL, MAJORITY, "lost.json")[1]
        shares = [f"{word} {i}" for word in rules.split(",") for i in ("status", 1, 2, 3)]
        self.assertEqual(
            wide.splitlines(),
            [
                ",".join(["document", *shares, "reason"]),
                f"{PROPOSAL},0,1,3/2,7/2,0,4/3,4/3,10/3,0,1,3/2,7/2,",
                f"{MAJORITY},0,1/3,1/3,1/3,0,1/3,1/3,1/3,1,,,,core: empty core",
                "lost.json,-,,,,-,,,,-,,,,nucleolus: not read; nucleolus-per-head: not read; core: not read",
            ],
        )

    def test_proposal(self) -> None:
        """Shares come by name, by place or as a document, and there is one for each player."""
        game = script("proposal", PROPOSAL, "heavy=2", "light=0.50", "medium=7/2")
        self.assertEqual(json.loads(game[1])["shares"], ["1/2", "7/2", 2])
        self.assertEqual(json.loads(script("proposal", PROPOSAL, "1", "1.5", "3.5")[1])["shares"], [1, "3/2", "7/2"])
        self.assertEqual(json.loads(script("proposal", PROPOSAL, text='{"shares":[1,2,3]}')[1])["shares"], [1, 2, 3])
        self.refused(script("proposal", PROPOSAL, "1", "2"), "2 shares for 3 players")
        self.refused(script("proposal", PROPOSAL, "light=1", "light=2", "heavy=3"), "each once")

    def two_lists_have_names(self, other: str) -> None:
        """The two lists of a convex game stand in rows of their own, and in columns of their own."""
        text = script("many", "convex,nucleolus", "--csv", PROPOSAL)[1]
        self.assertEqual(
            text.splitlines(),
            [
                "status,document,command,light,medium,heavy,reason",
                f"0,{PROPOSAL},convex (Shapley shares),2/3,5/3,11/3,",
                f"0,{PROPOSAL},convex (marginal shares),2,2,2,",
                f"0,{PROPOSAL},nucleolus,1,3/2,7/2,",
            ],
        )
        players = ("light", "medium", "heavy")
        named = [f"convex {name} shares {i}" for name in ("Shapley", "marginal") for i in players]
        self.assertEqual(
            script("many", "convex", "--wide", PROPOSAL, other)[1].splitlines(),
            [
                ",".join(["document", "convex status", *named, "reason"]),
                f"{PROPOSAL},0,2/3,5/3,11/3,2,2,2,",
                f"{other},1,,,,,,,convex: not convex",
            ],
        )

    def refusals_have_reasons(self) -> None:
        """Each row without shares says why there are none."""
        game = '{"class":"airport","costs":[2]}'
        lines = ['{"game":%s}' % game, '{"game":1}', "", '{"game":{"class":"table","players":2,"worths":[1,1,1]}}']
        status, text, _ = script("many", "--csv", "bird,nucleolus,kernel", text="\n".join(lines))
        reasons = [row[-1] for row in csv.reader(io.StringIO(text))][1:]
        refused = ["3 Shape"] * 3 + ["2 NotJson"] * 3
        last = ["usage class", "no imputation", "3 Shape"]
        self.assertEqual((status, reasons), (1, ["usage class", "", "3 Shape", *refused, *last]))


if __name__ == "__main__":
    unittest.main()
