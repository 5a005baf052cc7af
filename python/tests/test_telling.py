"""What the page tells, asked of Node: where there is none, where its process dies, hangs or is another, and long or
hostile texts."""
import json
import os
import subprocess
import sys
import tempfile
import unittest
from typing import Any
from subprocess import PIPE
from unittest.mock import patch

from coop import BadInput, Fault, Game, NotFound, checking, telling
from coop.answers import answer_of
from coop.desk.reasons import reasons
from coop.program import TOP
from coop.server import Server

from .asking import needs_node
from .test_reasons import AIRPORT, solved

ANSWERS = (
    "import os, struct\nos.write(1, bytes(8))\nwhile head := os.read(0, 8):\n"
    "    os.read(0, sum(struct.unpack('<II', head)))\n    {}\n"
)
ANOTHER = "line = b'{\"usage\":\"words\"}'; os.write(1, struct.pack('<II', 2, len(line)) + line)"


def by(code: str) -> Any:
    """The processes of Node in the place of which one of Python runs some code at each request."""
    return patch("coop.telling.page_server", lambda: Server([sys.executable, "-c", ANSWERS.format(code)]))


class Told(unittest.TestCase):
    @needs_node
    def test_however_it_is_given(self) -> None:
        """A line or a game as a text, as bytes, as an answer or as itself."""
        line = json.dumps(solved())
        game = Game(AIRPORT)
        answer = answer_of(line, 0, game)
        things: list[Any] = [line, line.encode(), answer]
        for thing in things:
            self.assertTrue(telling.same(game, thing))
            self.assertEqual(checking.verdict(thing)["answer"], "yes")
            self.assertEqual(reasons(thing), reasons(line.encode()))
        with self.assertRaisesRegex(BadInput, "NoneType isn't a line, a document, an answer or a game"):
            telling.same(game, None)


class Processes(unittest.TestCase):
    def refused(self, kind: type[Exception], sentence: str) -> None:
        """What is told where nothing can be."""
        with self.assertRaisesRegex(kind, f"(?s){sentence}.*answers don't need it"):
            telling.same("{}", "{}")

    def test_none(self) -> None:
        with patch("coop.telling.page_server", lambda: None):
            self.refused(NotFound, "no Node on the path")
            with patch("coop.telling.path_of", lambda *words: None):
                self.refused(NotFound, "the folders runtime and page, .* are missing beside the package")

    def test_one_that_ends(self) -> None:
        with patch("coop.telling.page_server", lambda: Server([sys.executable, "-c", ""])):
            self.refused(Fault, "failed: .* ended with 0 when it began")
        with by("raise SystemExit(3)"):
            self.refused(Fault, "failed: .* ended with 3 before it answered")
        with patch("coop.telling.page_server", lambda: Server(["/nowhere/node"])):
            self.refused(Fault, "/nowhere/node doesn't run")

    def test_one_that_hangs(self) -> None:
        with by("import time; time.sleep(60)"), patch("coop.telling.SECONDS", 5.0):
            self.refused(Fault, "didn't tell this within 5 s")

    def test_one_of_another_version(self) -> None:
        with by(ANOTHER):
            self.refused(Fault, "of another version of coop")
        with by("os.write(1, struct.pack('<II', 0, 3) + b'abc')"):
            self.refused(Fault, "of another version of coop")

    def test_one_without_memory(self) -> None:
        with by("os.write(1, struct.pack('<II', 7, 0))"):
            self.refused(Fault, "ran out of memory")

    def test_scripts_without_node(self) -> None:
        """Each ends with 2 and one sentence; what needs no Node goes on."""
        with tempfile.TemporaryDirectory() as tools:
            for name in TELLING:
                self.fails(name, tools, b"there is no Node on the path")
            self.assertEqual(script("shares", tools)[::2], (0, b""))
            status, text, errors = script("from-costs", tools, data=b"a,1\nb,2\na+b,9\n")
            self.assertEqual((status, text[:8], errors.count(b"\n")), (0, b'{"game":', 1))
            self.assertIn(b"nobody looked for numbers that may be mistakes: there is no Node", errors)

    def test_scripts_with_a_node_that_fails(self) -> None:
        """One that ends at once, or in the middle, and one of another version."""
        ends, dies = "raise SystemExit(3)", ANSWERS.format("raise SystemExit(3)")
        kinds = [(ends, b"ended with 3 when it began"), (dies, b"ended with 3 before it answered"),
                 (ANSWERS.format(ANOTHER), b"is of another version of coop")]
        for code, sentence in kinds:
            with tempfile.TemporaryDirectory() as tools:
                node = os.path.join(tools, "node")
                with open(node, "w") as file:
                    file.write(f"#!{sys.executable}\n{code}\n")
                os.chmod(node, 0o755)
                for name in TELLING:
                    self.fails(name, tools, sentence)

    def fails(self, name: str, tools: str, sentence: bytes) -> None:
        """A script ends with 2 and one sentence."""
        status, text, errors = script(name, tools)
        self.assertEqual((status, text, errors.count(b"\n")), (2, b"", 1), (name, errors))
        self.assertIn(sentence, errors, name)


TELLING = ("explain", "report", "picture", "slip", "same-game", "compare")


def script(name: str, tools: str, data: bytes = b"") -> tuple[int, bytes, bytes]:
    """What a script prints of a line, or of other bytes, where only the tools of a folder are found."""
    line = data or json.dumps(solved()).encode() * (2 if name == "compare" else 1)
    words = [sys.executable, os.path.join(TOP, "scripts", name)]
    words += ["-", os.path.join(TOP, "examples", "airport.json")] if name == "same-game" else []
    done = subprocess.run(words, input=line, env={"PATH": tools}, stdout=PIPE, stderr=PIPE)
    return done.returncode, done.stdout, done.stderr


@needs_node
class Texts(unittest.TestCase):
    def test_words_that_are_none(self) -> None:
        for words in (["nothing"], ["line", "{}", "more"], ["constructor"]):
            with self.assertRaisesRegex(BadInput, "there is no such word"):
                telling.told(words, b"")

    def test_what_cant_be_told(self) -> None:
        """Texts that Python reads and the page doesn't, and parts that are missing."""
        for line in ('{"answer":"shapley","shares":["1/0"]}', '{"answer":"shapley","shares":[NaN]}', "[" * 200,
                     '{"answer":"shapley","shares":["x"]}', '{"answer":"shapley"}', '{"answer":"constructor"}'):
            with self.assertRaises(BadInput, msg=line):
                telling.parts(line, "", "", {})
        with self.assertRaisesRegex(BadInput, "at most"):
            telling.told(["slip", "check"], b" " * (telling.MOST + 1))

    def test_settings(self) -> None:
        """Places, unit and mark reach each sentence, and the next question has its own."""
        line, document = '{"answer":"blocked","coalition":[1],"excess":"4/3"}', json.dumps({"game": solved()["game"]})
        spelled: list[dict[str, Any]] = [{"places": 1, "unit": "kr", "mark": ",", "thousands": "."}, {}]
        first, second = (telling.parts(line, document, "", settings)[0]["sentences"][0] for settings in spelled)
        self.assertEqual(first, "light alone could do better without the others, by about 1,3 kr.")
        self.assertEqual(second, "light alone could do better without the others, by 1.33 (exactly 4/3).")

    def test_a_document_of_8_mb(self) -> None:
        """Of a line as long as any there may be, and one that is longer."""
        shares = ",".join(['"12345678901/2147483647"'] * 320_000)
        long = f'{{"game":{{"class":"airport","costs":[1]}},"shares":[{shares}]}}'.encode()
        self.assertLess(len(long), 8 * 1024 * 1024)
        slip, twice = telling.slips(long, "check")
        self.assertEqual((slip and slip.number, twice), (3, None))
        slip, twice = telling.slips(long + b" " * 1024 * 1024, "check")
        self.assertEqual(slip and slip.name, "TooLong")


if __name__ == "__main__":
    unittest.main()
