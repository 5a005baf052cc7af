"""Where the program is found, and how it is run."""
import ctypes
import os
import pickle
import signal
import subprocess
import sys
import tempfile
import time
import unittest
from concurrent.futures import FIRST_COMPLETED, ThreadPoolExecutor, wait
from typing import Any

from coop import Fault, NotFound
from coop.library import Call, Library, _running, end_calls
from coop.machine import spawned, which
from coop.program import TOP, Command, find, named, said
from coop.version import VERSION

PACKAGE = os.path.join(TOP, "python")
FIND = "import coop; print(coop.find().command)"
SAY = "import coop; print(coop.program.said(coop.find()))"


def executable(folder: str, name: str, text: str) -> str:
    """A script of the shell."""
    path = os.path.join(folder, name)
    with open(path, "w", encoding="utf-8") as file:
        file.write(f"#!/bin/sh\n{text}\n")
    os.chmod(path, 0o755)
    return path


def stub(path: str, version: str) -> str:
    """Builds a library that says a version, and answers nothing: its source."""
    with open(f"{path}.c", "w", encoding="utf-8") as file:
        says = f"const char *coop_version(void) {{ return \"{version}\"; }}"
        file.write(f"int coop_run(void) {{ return 0; }} {says}")
    subprocess.run(["cc", "-shared", "-fPIC", "-o", path, f"{path}.c"], check=True)
    return f"{path}.c"


class Finding(unittest.TestCase):
    def found(self, package: str, code: str = FIND, **environment: str) -> str:
        """What a new Python finds, by an environment alone."""
        settings = {"PYTHONPATH": package, "PATH": "/nowhere", **environment}
        words = [sys.executable, "-B", "-c", code]
        done = subprocess.run(words, env=settings, cwd="/", stdout=subprocess.PIPE, stderr=subprocess.PIPE)
        return done.stdout.decode().strip() or done.stderr.decode().strip().split("\n")[-1]

    def test_the_order(self) -> None:
        with tempfile.TemporaryDirectory() as folder:
            one, two = executable(folder, "coop", "exit 1"), executable(folder, "other", "exit 1")
            self.assertEqual(self.found(PACKAGE, PATH=folder, COOP=two), str([two]))
            self.assertEqual(self.found(PACKAGE, PATH=folder), str([one]))
            self.assertEqual(self.found(PACKAGE, COOP=f"{two} --x 'a b'"), str([two, "--x", "a b"]))
            self.assertEqual(self.found(PACKAGE, PATH=f"/nowhere:{folder}", COOP=""), str([one]))

    def test_in_a_repository(self) -> None:
        with tempfile.TemporaryDirectory() as top:
            os.mkdir(os.path.join(top, "python"))
            os.symlink(os.path.join(PACKAGE, "coop"), os.path.join(top, "python", "coop"))
            package = os.path.join(top, "python")
            self.assertIn("NotFound: no program found", self.found(package))
            for folder in ("page", "runtime", "bin", "kit", "tools"):
                os.mkdir(os.path.join(top, folder))
            builder = executable(os.path.join(top, "bin"), "coop", "exit 0")
            kit, tools = os.path.join(top, "kit"), os.path.join(top, "tools")
            executable(kit, "rt", "exit 0")
            self.assertIn("NotFound", self.found(package))
            self.assertEqual(self.found(package, PATH=kit), str([builder]))
            page = executable(os.path.join(top, "runtime"), "serve.mjs", "exit 0")
            executable(os.path.join(top, "page"), "coop.html", "")
            self.assertIn("NotFound: no program found: put Node 18 or later on the path", self.found(package))
            for name in ("nodejs", "node"):
                node = executable(tools, name, "exit 0")
                self.assertEqual(self.found(package, PATH=f"{kit}:{tools}"), str([node, page, "--tell"]))
            out = os.path.join(top, "crates", "coop_program", "out")
            os.makedirs(out)
            built = executable(out, "coop_program", "exit 0")
            self.assertEqual(self.found(package, PATH=f"{kit}:{tools}"), str([built]))

    def test_by_name(self) -> None:
        self.assertEqual(named("/a/coop").command, ["/a/coop"])  # type: ignore[attr-defined]
        self.assertEqual(named("node 'a b.mjs'").command, ["node", "a b.mjs"])  # type: ignore[attr-defined]
        program = Command(["x"])
        self.assertIs(find(program), program)
        for name in ("libcoop.so", "libcoop.so.1", "libcoop.so.1.0.0", "libcoop.dylib", "coop.dll"):
            with self.assertRaisesRegex(NotFound, "isn't a library of coop"):
                named(f"/nowhere/{name}")
        self.assertEqual(repr(program), "Command(['x'])")

    @unittest.skipUnless(which("cc"), "there is no C compiler")
    def test_a_library_inside(self) -> None:
        """It answers; one of another version or another system is passed over, and what comes behind it is found."""
        with tempfile.TemporaryDirectory() as top:
            package = os.path.join(top, "python")
            inside, path = os.path.join(package, "coop"), os.path.join(package, "coop", "libcoop.so")
            os.makedirs(inside)
            for name in os.listdir(os.path.join(PACKAGE, "coop")):
                os.symlink(os.path.join(PACKAGE, "coop", name), os.path.join(inside, name))
            another = f"NotFound: no program found ({path} is coop 2.0.0, and this package is {VERSION})"
            for version, wanted in ((VERSION, f"the library {path} of coop {VERSION}"), ("2.0.0", another)):
                stub(path, version)
                self.assertIn(wanted, self.found(package, SAY))
            with open(path, "wb") as file:
                file.write(b"MZ coop_run")
            self.assertIn(f"NotFound: no program found ({path} isn't a library of coop", self.found(package, SAY))
            os.mkdir(os.path.join(top, "bin"))
            builder = executable(os.path.join(top, "bin"), "coop", "exit 0")
            executable(top, "rt", "exit 0")
            self.assertEqual(self.found(package, SAY, PATH=top), builder)

    @unittest.skipUnless(which("cc"), "there is no C compiler")
    def test_a_library_of_another_version(self) -> None:
        """One that says so is refused; one that isn't coop's, too."""
        versions = {VERSION: VERSION, "1.9.7": "1.9.7", "2.0.0": None}
        with tempfile.TemporaryDirectory() as folder:
            path = os.path.join(folder, "{}.so")
            for version, wanted in versions.items():
                source = stub(path.format(version), version)
                if wanted:
                    self.assertEqual(Library(path.format(version)).version, wanted)
                else:
                    with self.assertRaisesRegex(NotFound, f"is coop 2.0.0, and this package is {VERSION}"):
                        Library(path.format(version))
            with self.assertRaisesRegex(NotFound, "isn't a library of coop"):
                Library(source)
            self.assertEqual(said(Library(path.format("1.9.7"))), f"the library {path.format('1.9.7')} of coop 1.9.7")

    def test_pickled(self) -> None:
        """A program goes to the processes of an executor by what names it."""
        self.assertEqual(pickle.loads(pickle.dumps(Command(["node", "x"]))).command, ["node", "x"])
        library = Library.__new__(Library)
        library.path, library.seconds = "/nowhere/libcoop.so", None
        library.ctypes = ctypes  # which can't be pickled
        with self.assertRaisesRegex(NotFound, "/nowhere/libcoop.so"):
            pickle.loads(pickle.dumps(library))


class Calling(unittest.TestCase):
    """The C library, by a function in its place."""

    def test_a_call(self) -> None:
        library, asked = Library.__new__(Library), []
        library.ctypes, library.seconds, library.can_end = ctypes, None, False

        def call(words: bytes, length: int, document: bytes, size: int, line: Any, room: int, count: Any) -> int:
            answer = b"x" * 200000
            asked.append((words[:length], document[:size], room))
            ctypes.memmove(line, answer, min(room, len(answer)))
            count._obj.value = min(room, len(answer))
            return 6 if room < len(answer) else 1

        library.function = call
        self.assertEqual(library.run(["gen", "table", "2", "1"], b"{}"), (1, b"x" * 200000))
        self.assertEqual([words for words, _, _ in asked], [b"gen\0table\0002\0001"] * 2)
        self.assertEqual([room for _, _, room in asked], [1 << 16, 1 << 19])

    def test_a_call_that_is_ended(self) -> None:
        """The time, Ctrl-C and whoever waits no more end a call, and leave nothing behind."""
        library = Library.__new__(Library)
        library.ctypes, library.seconds, library.can_end = ctypes, 0.05, True

        def call(*given: Any) -> int:
            while not given[-1].value:
                time.sleep(0.001)
            return 124  # at once, where it is set from the beginning

        library.function = call
        self.assertEqual(library.run(["core"], b"{}"), (124, b""))
        library.seconds = None
        before = signal.signal(signal.SIGALRM, signal.default_int_handler)
        try:
            signal.setitimer(signal.ITIMER_REAL, 0.05)
            with self.assertRaises(KeyboardInterrupt):
                library.run(["core"], b"{}")
        finally:
            signal.signal(signal.SIGALRM, before)
        with ThreadPoolExecutor(2) as pool:
            mine, other = pool.submit(library.run, ["core"], b""), pool.submit(library.run, ["core"], b"")
            while len(_running) < 2:
                time.sleep(0.001)
            one, two = sorted(_running, key=lambda call: call.thread)
            end_calls({one.thread})
            done, left = wait((mine, other), return_when=FIRST_COMPLETED)
            self.assertEqual((len(left), one.ends.value, two.ends.value), (1, 1, 0))
            end_calls({two.thread})
        self.assertFalse(_running)
        self.assertIsInstance(one, Call)


class Running(unittest.TestCase):
    def test_a_process(self) -> None:
        with tempfile.TemporaryDirectory() as folder:
            echo = executable(folder, "echo", 'printf "%s:" "$@"; cat; exit 3')
            long = os.urandom(1 << 20)
            self.assertEqual(spawned([echo, "a", "b c"], long), (3, b"a:b c:" + long))
            self.assertEqual(spawned([executable(folder, "killed", "kill -9 $$")], b""), (-9, b""))
            self.assertEqual(spawned([executable(folder, "deaf", "exit 7")], long), (7, b""))
            open_before = len(os.listdir("/proc/self/fd")) if os.path.exists("/proc/self/fd") else 0
            for _ in range(5):
                spawned([echo], b"x")
                with self.assertRaises(Fault):
                    Command(["/nowhere/coop"]).run(["core"], b"")
            if open_before:
                self.assertEqual(len(os.listdir("/proc/self/fd")), open_before)


if __name__ == "__main__":
    unittest.main()
