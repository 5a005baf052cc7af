"""Processes that stay: their answers, threads and forks, and how they end."""
import contextlib
import os
import pickle
import shutil
import shlex
import signal
import subprocess
import sys
import tempfile
import threading
import time
import unittest
from typing import Optional
from unittest.mock import patch

import coop
from coop.errors import Fault
from coop.machine import processors, which
from coop.program import TOP, path_of
from coop.server import HEAD, Server

NODE = which("node") or which("nodejs")
COMMAND = [NODE or "", path_of("runtime", "serve.mjs") or ""]
AIRPORT = b'{"game":{"class":"airport","costs":[2,4,6]}}'
CORE = b'{"answer":"core point","shares":["1","3/2","7/2"]}\n'
READY = HEAD.pack(0, 0)
needs_node = unittest.skipUnless(NODE, "there is no Node")


def speaking(code: str) -> list[str]:
    """A process that says that it is there, and then does what its code says."""
    return [sys.executable, "-c", f"import os, sys; os.write(1, bytes(8)); {code}"]


def is_alive(process: int) -> bool:
    """Whether a process is there, and has not ended."""
    try:
        with open(f"/proc/{process}/stat", encoding="utf-8") as file:
            return file.read().rsplit(")", 1)[1].split()[0] != "Z"
    except FileNotFoundError:
        return False


def is_gone(process: int, seconds: float = 10) -> bool:
    """Whether a process ends within some time."""
    end = time.monotonic() + seconds
    while is_alive(process) and time.monotonic() < end:
        time.sleep(0.02)
    return not is_alive(process)


def end(process: int) -> None:
    """Ends a process that may have ended."""
    with contextlib.suppress(ProcessLookupError):
        os.kill(process, signal.SIGKILL)


def press_ctrl_c(done: threading.Event) -> None:
    """Presses Ctrl+C half a second from now, and again every five seconds until `done`: Python misses a press that
    comes right before it begins to wait for a port."""
    pause = 0.5
    while not done.wait(pause):
        os.kill(os.getpid(), signal.SIGINT)
        pause = 5


class Command(unittest.TestCase):
    @needs_node
    def test_its_own(self) -> None:
        """Without a command it is the package's module, wherever it is called."""
        server = Server(seconds=60)
        self.addCleanup(server.close)
        with tempfile.TemporaryDirectory() as folder:
            here = os.getcwd()
            os.chdir(folder)
            self.addCleanup(os.chdir, here)
            self.assertEqual((server.command, server.run(["core"], AIRPORT)), (COMMAND, (0, CORE)))
            os.chdir(here)

    def test_no_node(self) -> None:
        with patch("coop.parts.which", return_value=None):
            with self.assertRaisesRegex(coop.NotFound, "there is no Node on the path .*, or give a command"):
                Server()


@needs_node
class Answers(unittest.TestCase):
    def setUp(self) -> None:
        self.server = Server(COMMAND, 3)

    def tearDown(self) -> None:
        self.server.close()

    def first(self) -> int:
        """The number of the one process, once it has answered."""
        self.assertEqual(self.server.run(["core"], AIRPORT), (0, CORE))
        self.assertEqual(len(self.server.free), 1)
        return self.server.free[0].process.pid

    def test_what_they_say(self) -> None:
        run = self.server.run
        self.assertEqual(run(["core"], AIRPORT), (0, CORE))
        self.assertEqual(run([], b""), (2, b'{"usage":"words"}\n'))
        self.assertEqual(run(["core", "x"], AIRPORT)[0], 2)
        self.assertEqual(run(["core"], b""), (3, b'{"number":2,"refused":"NotJson"}\n'))
        self.assertEqual(run(["core"], b" " * (2 << 20) + AIRPORT)[0], 3)
        self.assertEqual(run(["tell", "mail"], b"x"), (2, b'{"usage":"words"}\n'))
        self.assertEqual(run(["--version"], b"")[1].split(b",")[0], b"coop %s" % coop.__version__.encode())
        self.assertEqual(run(["gen", "airport", "3", "1"], b"")[0], 0)
        self.assertEqual(len(self.server.free), 1)

    def test_memory_that_is_given_back(self) -> None:
        """A document of many small values takes 440 MB."""
        process = self.first()
        self.assertEqual(self.server.run(["core"], b"[%s1]" % (b'{"":0},' * 280_000))[0], 3)
        with open(f"/proc/{process}/statm", encoding="ascii") as file:
            self.assertLess(int(file.read().split()[1]) * os.sysconf("SC_PAGE_SIZE"), 200 << 20)

    def test_threads(self) -> None:
        seen: list[tuple[int, int]] = []

        def ask(player: int) -> None:
            for _ in range(20):
                count = 2 + player % 5
                game = b'{"game":{"class":"airport","costs":[%s]}}' % b",".join([b"60"] * count)
                seen.append((count, self.server.run(["shapley"], game)[1].count(b",")))

        threads = [threading.Thread(target=ask, args=(k,)) for k in range(12)]
        for thread in threads:
            thread.start()
        for thread in threads:
            thread.join()
        self.assertEqual(len(seen), 240)
        self.assertEqual([pair for pair in seen if pair[0] != pair[1]], [])
        self.assertLessEqual(len(self.server.free), 3)

    def test_killed_before(self) -> None:
        os.kill(self.first(), signal.SIGKILL)
        self.assertEqual(self.server.run(["core"], AIRPORT), (0, CORE))

    def test_all_killed_before(self) -> None:
        self.server.free += [self.server.begun(None) for _ in range(3)]
        for worker in self.server.free:
            os.kill(worker.process.pid, signal.SIGKILL)
        for _ in range(4):
            self.assertEqual(self.server.run(["core"], AIRPORT), (0, CORE))

    def test_killed_within(self) -> None:
        process = self.first()
        os.kill(process, signal.SIGSTOP)
        threading.Timer(0.3, os.kill, (process, signal.SIGKILL)).start()
        self.assertEqual(self.server.run(["core"], AIRPORT), (0, CORE))
        self.assertTrue(is_gone(process))

    def test_pickled(self) -> None:
        other = pickle.loads(pickle.dumps(self.server))
        self.assertEqual(other.run(["core"], AIRPORT), (0, CORE))
        other.close()

    def test_forked(self) -> None:
        process = self.first()
        child = os.fork()
        if child == 0:
            good = [self.server.run(["core"], AIRPORT) == (0, CORE) for _ in range(20)]
            is_own = self.server.free[0].process.pid != process
            self.server.close()
            os._exit(0 if all(good) and is_own else 1)
        for _ in range(20):
            self.assertEqual(self.server.run(["core"], AIRPORT), (0, CORE))
        self.assertEqual(os.waitpid(child, 0)[1], 0)
        self.assertEqual(self.first(), process)

    def test_ctrl_c_in_a_terminal(self) -> None:
        process = self.first()
        os.kill(process, signal.SIGINT)
        time.sleep(0.2)
        self.assertEqual(self.first(), process)

    def test_ctrl_c_within(self) -> None:
        # What a shell begins in the background ignores Ctrl+C.
        self.addCleanup(signal.signal, signal.SIGINT, signal.signal(signal.SIGINT, signal.default_int_handler))
        process = self.first()
        os.kill(process, signal.SIGSTOP)
        done = threading.Event()
        threading.Thread(target=press_ctrl_c, args=(done,), daemon=True).start()
        with self.assertRaises(KeyboardInterrupt):
            try:
                self.server.run(["shapley"], AIRPORT)
            finally:
                done.set()
        self.assertTrue(is_gone(process))
        self.assertEqual(self.server.run(["core"], AIRPORT), (0, CORE))

    @unittest.skipUnless(hasattr(os, "fork"), "there is no fork")
    def test_a_fork_while_a_call_waits(self) -> None:
        """The child has no process and all places at once, before it asks by several threads."""
        server = Server(COMMAND, 1)
        with server.places:
            child = os.fork()
            if not child:
                has_all = server.owner == os.getpid() and not server.free and server.places.acquire(blocking=False)
                os._exit(0 if has_all else 1)
            self.assertEqual(os.waitstatus_to_exitcode(os.waitpid(child, 0)[1]), 0)

    def test_exceptions_are_pickled(self) -> None:
        negative = coop.Game({"class": "airport", "costs": [-1]})
        for command, game in ((coop.bird, coop.airport([1, 2])), (coop.core, negative)):
            with self.assertRaises(coop.NoAnswer) as found:
                command(game, program=self.server)
            fault, again = found.exception, pickle.loads(pickle.dumps(found.exception))
            parts = [{**one.__dict__, "find": None} for one in (again, fault)]  # a function isn't like its copy
            self.assertEqual((type(again), str(again), parts[0]), (type(fault), str(fault), parts[1]))


@needs_node
class Ends(unittest.TestCase):
    def test_time(self) -> None:
        server = Server(COMMAND, 1, seconds=60)
        server.run(["core"], AIRPORT)
        process, server.seconds = server.free[0].process.pid, 0.3
        os.kill(process, signal.SIGSTOP)
        late = threading.Timer(20, os.kill, (process, signal.SIGKILL))  # so that a server without a limit fails here
        late.start()
        self.assertEqual(server.run(["core"], AIRPORT), (124, b""))
        late.cancel()
        self.assertTrue(is_gone(process))
        server.seconds = 60
        self.assertEqual(server.run(["core"], AIRPORT), (0, CORE))
        server.close()

    def test_late_but_there(self) -> None:
        answer = "os.read(0, 99); os.write(1, bytes(8))"
        server = Server(speaking(f"{answer}; {answer}; os.read(0, 1)"), 1, seconds=30)
        server.run([], b"")
        server.free[0].is_late = True  # the time was over when the answer had come
        self.assertEqual(server.run([], b""), (0, b""))
        self.assertEqual(server.free, [])

    def test_no_process(self) -> None:
        for command in (["/nowhere/node"], ["false"], [NODE or "", "/nowhere/serve.mjs"]):
            with self.assertRaises(Fault):
                Server(command, 1).run(["core"], AIRPORT)

    def test_a_start_that_is_late(self) -> None:
        begun = time.monotonic()
        with patch("coop.server.START", 0.3), self.assertRaises(Fault) as found:
            Server(["sleep", "30"], 1, seconds=0.3).run(["core"], AIRPORT)
        self.assertEqual(found.exception.status, 124)
        self.assertLess(time.monotonic() - begun, 20)

    def test_a_start_takes_no_time_of_a_call(self) -> None:
        code = f"import time; time.sleep(3); {speaking('os.read(0, 99); os.write(1, bytes(8))')[2]}"
        self.assertEqual(Server([sys.executable, "-c", code], 1, seconds=2).run([], b""), (0, b""))

    def test_killed_within_its_first_request(self) -> None:
        """A new process is asked in its place, unless it happens each time."""
        killed = "os.read(0, 8); os.kill(os.getpid(), 9)"
        with tempfile.TemporaryDirectory() as folder:
            first = shlex.join(speaking(killed))
            once = f"mkdir {folder}/once 2>/dev/null && exec {first}; exec {shlex.join(COMMAND)}"
            server = Server(["sh", "-c", once], 1)
            self.assertEqual(server.run(["core"], AIRPORT), (0, CORE))
            server.close()
        with self.assertRaises(Fault) as found:
            Server(speaking(killed), 1).run(["core"], AIRPORT)
        self.assertEqual(found.exception.status, -9)

    def test_killed_while_it_begins(self) -> None:
        """It is begun again, unless it happens each time."""
        with tempfile.TemporaryDirectory() as folder:
            once = f"mkdir {folder}/once 2>/dev/null && kill -9 $$; exec {COMMAND[0]} {COMMAND[1]}"
            server = Server(["sh", "-c", once], 1)
            self.assertEqual(server.run(["core"], AIRPORT), (0, CORE))
            server.close()
        with self.assertRaises(Fault) as found:
            Server(["sh", "-c", "kill -9 $$"], 1).run(["core"], AIRPORT)
        self.assertEqual(found.exception.status, -9)

    @unittest.skipUnless(hasattr(os, "sched_setaffinity"), "processes have no affinity")
    def test_processors_that_may_be_used(self) -> None:
        allowed = os.sched_getaffinity(0)
        try:
            os.sched_setaffinity(0, {min(allowed)})
            self.assertEqual((processors(), Server(COMMAND).processes), (1, 1))
        finally:
            os.sched_setaffinity(0, allowed)

    def test_ends_again_and_again(self) -> None:
        with self.assertRaises(Fault) as found:
            Server(speaking("os.read(0, 8); sys.exit(9)"), 1).run(["core"], AIRPORT)
        self.assertEqual(found.exception.status, 9)

    def test_stops(self) -> None:
        trap = "os.read(0, 1 << 16); os.write(1, bytes([70, 0, 0, 0, 4, 0, 0, 0]) + b'trap')"
        with self.assertRaisesRegex(Fault, "the module stopped: trap"):
            Server(speaking(trap), 1).run(["core"], AIRPORT)

    def test_no_memory(self) -> None:
        wanting = Server(speaking("os.read(0, 1 << 16); os.write(1, bytes([7, 0, 0, 0, 0, 0, 0, 0]))"), 1)
        with self.assertRaises(coop.NoMemory):
            coop.core(coop.airport([1, 2]), program=wanting)

    def begun_by(self, code: str) -> "subprocess.Popen[bytes]":
        """A Python with a server that has answered, which says the number of its process."""
        start = f"import sys; sys.path[:0] = [{os.path.join(TOP, 'python')!r}]\nfrom coop.server import Server\n"
        asks = f"server = Server({COMMAND!r}); server.run(['core'], {AIRPORT!r})\n"
        says = "print(server.free[0].process.pid, flush=True)\n"
        words = [sys.executable, "-X", "dev", "-c", start + asks + says + code]
        return subprocess.Popen(words, stdout=subprocess.PIPE, stderr=subprocess.PIPE)

    def test_with_its_parent(self) -> None:
        parent = self.begun_by("import time; time.sleep(60)")
        assert parent.stdout is not None
        process = int(parent.stdout.readline())
        self.addCleanup(end, process)
        self.assertTrue(is_alive(process))
        parent.kill()
        parent.communicate(timeout=30)  # it ends as soon as nobody has its ports
        self.assertTrue(is_gone(process))

    def test_at_exit(self) -> None:
        said, errors = self.begun_by("").communicate()
        self.assertEqual(errors, b"")
        self.assertTrue(is_gone(int(said)))


def ended(data: bytes, options: Optional[list[str]] = None) -> tuple[int, bytes]:
    """How runtime/serve.mjs ends on some input, and what it says."""
    done = subprocess.run([*COMMAND, *(options or [])], input=data, stdout=subprocess.PIPE, stderr=subprocess.PIPE)
    return done.returncode, done.stdout


@needs_node
class Frames(unittest.TestCase):
    def test_requests(self) -> None:
        request = HEAD.pack(4, len(AIRPORT)) + b"core" + AIRPORT
        answer = HEAD.pack(0, len(CORE)) + CORE
        self.assertEqual(ended(b""), (0, READY))
        self.assertEqual(ended(request * 3), (0, READY + answer * 3))
        for cut in (5, 10, len(request) - 1):
            self.assertEqual(ended(request + request[:cut]), (5, READY + answer))

    def test_lengths_that_are_too_large(self) -> None:
        """They are all there, so that it is their length that is refused."""
        self.assertEqual(ended(HEAD.pack(2**32 - 1, 2**32 - 1) + b"core"), (5, READY))
        for words, document in (((64 << 10) + 1, 4), (4, (32 << 20) + 1)):
            self.assertEqual(ended(HEAD.pack(words, document) + b"x" * (words + document)), (5, READY))
        refused = b'{"number":1,"refused":"TooLong"}\n'
        for count in ((8 << 20) + 1, (8 << 20) + 2):
            longest = HEAD.pack(4, count) + b"core" + b" " * count
            self.assertEqual(ended(longest), (0, READY + HEAD.pack(3, len(refused)) + refused))

    def test_ports_that_fail(self) -> None:
        """Nobody reads the answer, as after the end of a parent that was killed; or the input is a folder."""
        request = HEAD.pack(4, len(AIRPORT)) + b"core" + AIRPORT
        cases: list[tuple[list[str], bytes]] = [([], request), (["--lines", "core"], AIRPORT)]
        for options, data in cases:
            reading, writing = os.pipe()
            os.close(reading)
            done = subprocess.run([*COMMAND, *options], input=data, stdout=writing, stderr=subprocess.PIPE)
            os.close(writing)
            self.assertEqual((done.returncode, done.stderr), (6, b""))
        folder = os.open(TOP, os.O_RDONLY)
        done = subprocess.run(COMMAND, stdin=folder, stdout=subprocess.PIPE, stderr=subprocess.PIPE)
        os.close(folder)
        self.assertEqual((done.returncode, done.stdout), (5, READY))

    def test_a_file_that_is_missing(self) -> None:
        runtime = os.path.dirname(COMMAND[1])
        page = os.path.join(os.path.dirname(runtime), "page")
        for name in ("page/coop.html", "runtime/engine/host.js"):
            with tempfile.TemporaryDirectory() as folder:
                for part in (runtime, page):
                    copy = os.path.join(folder, os.path.basename(part))
                    shutil.copytree(part, copy, ignore=shutil.ignore_patterns("src", "test"))
                os.unlink(os.path.join(folder, name))
                words = [COMMAND[0], os.path.join(folder, "runtime", "serve.mjs")]
                done = subprocess.run(words, input=b"", stdout=subprocess.PIPE, stderr=subprocess.PIPE)
            self.assertEqual((done.returncode, done.stdout), (70, b""))
            self.assertTrue(done.stderr.startswith(b"coop: no answer: "))

    def test_lines(self) -> None:
        options, core, no = ["--lines", "core,shapley"], b"0 " + CORE, b'3 {"number":2,"refused":"NotJson"}\n'
        shapley = b'0 {"answer":"shapley","shares":["2/3","5/3","11/3"]}\n'
        self.assertEqual(ended(b"", options), (0, b""))
        self.assertEqual(ended(AIRPORT + b"\nx\n\n" + AIRPORT, options), (0, core + shapley + no * 4 + core + shapley))
        long = b'3 {"number":1,"refused":"TooLong"}\n'
        wide = b"x" * (9 << 20) + b"\n" + b" " * (3 << 20) + b"\n" + AIRPORT
        self.assertEqual(ended(wide, ["--lines", "core"]), (0, long * 2 + core))
        unknown = (["--lines", typed] for typed in ("coer", "core, shapley", "gen", ""))
        for wrong in (["--lines"], ["core"], ["--tell", "x"], *unknown):
            self.assertEqual(ended(AIRPORT, wrong), (2, b""))

    def test_output_that_is_thrown_away(self) -> None:
        """It is open for reading, too, as Python and Node open the null device; and that is no fault."""
        line = AIRPORT + b"\n"
        with open(os.devnull, "r+b") as null:
            for script, words in (("serve.mjs", ["--lines", "core"]), ("coop.mjs", ["core"])):
                command = [COMMAND[0], os.path.join(os.path.dirname(COMMAND[1]), script), *words]
                self.assertEqual(subprocess.run(command, input=line, stdout=null).returncode, 0)
            empty = subprocess.run([*command], stdin=null, stdout=subprocess.PIPE)
            self.assertEqual((empty.returncode, empty.stdout), (3, b'{"number":2,"refused":"NotJson"}\n'))


if __name__ == "__main__":
    unittest.main()
