"""The package as a command: python -m coop."""
import os
import subprocess
import sys
import tempfile
import unittest

from coop.program import TOP, path_of
from coop.version import VERSION

from .asking import needs_program

AIRPORT = b'{"game":{"class":"airport","costs":[2,4,6]}}'


def ended(words: list[str], document: bytes = b"", **settings: str) -> tuple[int, bytes, bytes]:
    """How the command ends: the status, the line, and what it says beside it."""
    environment = {**os.environ, "PYTHONPATH": os.path.join(TOP, "python"), **settings}
    words = [sys.executable, "-m", "coop", *words]
    pipe = subprocess.PIPE
    done = subprocess.run(words, input=document, env=environment, cwd="/", stdout=pipe, stderr=pipe)
    return done.returncode, done.stdout, done.stderr


class Command(unittest.TestCase):
    @needs_program
    def test_answers(self) -> None:
        core = b'{"answer":"core point","shares":["1","3/2","7/2"]}\n'
        self.assertEqual(ended(["core"], AIRPORT), (0, core, b""))
        self.assertEqual(ended(["core"]), (3, b'{"number":2,"refused":"NotJson"}\n', b""))

    @needs_program
    def test_words(self) -> None:
        """Wrong ones get the program's line, and a sentence."""
        cases: list[tuple[list[str], str]] = [
            ([], "which command?"),
            (["nuclolus"], '"nuclolus" is no command'),
            (["core", "/nowhere/game.json"], 'there is no file "/nowhere/game.json"'),
            (["core", "core", "core"], '"core core core" is no command'),
            (["\x1b" * 99], '"' + "\\u001b" * 60 + '.." is no command'),
        ]
        for words, said in cases:
            found = ended(words)
            self.assertEqual(found[:2], (2, b'{"usage":"words"}\n'))
            self.assertTrue(found[2].startswith(f"coop: {said}".encode()), found)
            self.assertEqual(found[2].count(b"\n"), 1)
        status, said_of_help, fault = ended(["--help"])
        self.assertEqual((status, said_of_help[:26], fault), (0, b"usage: coop COMMAND FILE\n ", b""))

    @needs_program
    def test_a_file_as_a_word(self) -> None:
        core = b'{"answer":"core point","shares":["1","3/2","7/2"]}\n'
        self.assertEqual(ended(["core", os.path.join(TOP, "examples", "airport.json")]), (0, core, b""))
        status, line, said = ended(["core", TOP])
        self.assertEqual((status, line, said[:17]), (5, b"", b"coop: can't read "))

    @unittest.skipUnless(sys.platform == "linux", "there are no terminals")
    @needs_program
    def test_on_a_terminal(self) -> None:
        """It says what it waits for."""
        import pty

        parent, child = pty.openpty()
        environment = {**os.environ, "PYTHONPATH": os.path.join(TOP, "python")}
        words = [sys.executable, "-m", "coop", "core"]
        process = subprocess.Popen(words, stdin=child, stdout=child, stderr=child, env=environment)
        os.write(parent, b"\x04")
        self.assertEqual(process.wait(), 3)
        os.close(child)
        self.assertIn(b"coop: type or paste the document, then Ctrl-D", os.read(parent, 10000))
        os.close(parent)

    @needs_program
    def test_hostile_ports(self) -> None:
        ends = [("core <&-", 5), ("core >&-", 6), ("core >/dev/full", 6)]
        ends += [(f"{word} {end}", 6) for word in ("--version", "--help") for end in (">&-", ">/dev/full")]
        for end, status in ends:
            command = f"'{sys.executable}' -m coop {end}"
            settings = {**os.environ, "PYTHONPATH": os.path.join(TOP, "python")}
            words = ["sh", "-c", command]
            done = subprocess.run(words, input=AIRPORT, env=settings, stdout=subprocess.PIPE, stderr=subprocess.PIPE)
            self.assertEqual((done.returncode, done.stdout, done.stderr), (status, b"", b""), end)

    def test_without_an_answer(self) -> None:
        status, line, said = ended(["core"], AIRPORT, COOP="/nowhere/coop")
        self.assertEqual((status, line), (70, b""))
        self.assertIn(b"coop: no answer: /nowhere/coop doesn't run", said)

    def test_the_page(self) -> None:
        with tempfile.TemporaryDirectory() as folder:
            browser, opened = os.path.join(folder, "browser"), os.path.join(folder, "opened")
            with open(browser, "w", encoding="utf-8") as file:
                file.write(f'#!/bin/sh\necho "$1" > {opened}\n')
            os.chmod(browser, 0o755)
            page = path_of("page", "coop.html")
            self.assertEqual(ended(["page"], BROWSER=f"{browser} %s"), (0, f"{page}\n".encode(), b""))
            with open(opened, encoding="utf-8") as file:
                self.assertEqual(file.read(), f"file://{page}\n")

    def test_the_version(self) -> None:
        said = f"coop {VERSION}, answered by ".encode()
        self.assertEqual(ended(["--version"], COOP="/nowhere/coop"), (0, said + b"/nowhere/coop\n", b""))
        library = ended(["--version"], COOP="", COOP_LIBRARY="/nowhere/libcoop.so")
        self.assertEqual((library[0], library[1][: len(said) + 6]), (0, said + b"nobody"))


if __name__ == "__main__":
    unittest.main()
