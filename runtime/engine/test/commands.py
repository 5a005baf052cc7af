"""The module as a command: runtime/coop.mjs in processes of its own, and bin/coop where nothing is built."""
import base64
import gzip
import json
import os
import pty
import re
import shutil
import subprocess
import tempfile
from collections.abc import Iterator
from pathlib import Path

from documents import TOP, Run
from stops import small_module

AIRPORT = os.path.join(TOP, "examples", "airport.json")
NO_ANSWER = 70
NOT_COPIED = shutil.ignore_patterns("out")
# What bin/coop calls, but for node and rt.
CALLED = (
    "awk", "cat", "chmod", "date", "dirname", "env", "find", "flock", "grep", "mkdir", "nproc", "readlink", "rm", "sh",
    "sleep", "touch",
)
# A kit that proves nothing and builds at once.
RT = """#!/bin/sh
[ "$1" = run ] || exit 0
mkdir -p out && printf '#!/bin/sh\\necho the built program\\n' > out/coop_program && chmod 755 out/coop_program
"""


def called(words: list[str], document: bytes = b"", path: str = "") -> tuple[int, bytes, bytes]:
    """The status, the line and the errors of a process."""
    settings = dict(os.environ, **({"PATH": path} if path else {}))
    done = subprocess.run(words, input=document, stdout=subprocess.PIPE, stderr=subprocess.PIPE, env=settings)
    return done.returncode, done.stdout, done.stderr


def faults_of_command(top: str, program: str, runs: list[Run]) -> Iterator[str]:
    """Where runtime/coop.mjs ends otherwise than the program, on some of the runs and with hostile ports."""
    command = os.path.join(top, "runtime", "coop.mjs")
    for run in runs:
        wanted, found = called([program, *run.words], run.document), called(["node", command, *run.words], run.document)
        said = rb"(coop: .*\n)" if wanted[1] == b'{"usage":"words"}\n' else b""
        if found[:2] != wanted[:2] or not re.fullmatch(said, found[2]):
            yield f"coop.mjs {run.words} on {run.document[:200]!r}: {found}, and not {wanted[:2]} and {said!r}"
    status, said, _ = called([os.path.join(TOP, "tools", "gate", "hostile-ports"), command])
    if status:
        yield f"coop.mjs with hostile ports:\n{said.decode()}"


def faults_without_answer(top: str) -> Iterator[str]:
    """Where runtime/coop.mjs has no module, half of one or one that traps, and doesn't end with 70 and without a line."""
    with tempfile.TemporaryDirectory() as folder:
        shutil.copytree(os.path.join(top, "runtime"), os.path.join(folder, "runtime"), ignore=NOT_COPIED)
        html = Path(folder, "page", "coop.html")
        html.parent.mkdir()
        whole = Path(top, "page", "coop.html").read_text("utf-8")
        begins = whole.index("H4sI")
        half = whole[:begins + 100000] + whole[whole.index('"', begins):]
        pages = {"no page": None, "no module": "<p>", "two modules": whole + whole, "half of a module": half,
                 "a trap": f'<script>"{base64.b64encode(gzip.compress(small_module(), 0)).decode()}"</script>'}
        for name, text in pages.items():
            if text is not None:
                html.write_text(text, "utf-8")
            words = ["node", os.path.join(folder, "runtime", "coop.mjs"), "nucleolus"]
            status, line, errors = called(words, Path(AIRPORT).read_bytes())
            if (status, line) != (NO_ANSWER, b"") or not errors.startswith(b"coop: no answer: "):
                yield f"coop.mjs with {name}: status {status}, {line!r}, {errors!r}"


# Answers 1 if a byte of its memory was written before, and else 0, and writes it; the second traps in the place of 0.
KEEPING = b"\x41\x08\x2d\0\0\x41\x08\x41\x01\x3a\0\0"
TRAPPING = b"\x41\x08\x2d\0\0\x04\x40\x41\x01\x0f\x0b\x41\x08\x41\x01\x3a\0\0\0"
# What engines of these and of the page's module answer, several times each, and whether they keep their instance.
ENGINES = """
const [, host, inside, page, keeping, trapping] = process.argv;
const { Engine } = await import(host), { moduleIn } = await import(inside), { readFileSync } = await import("node:fs");
const module = (bytes) => new WebAssembly.Module(bytes), none = new Uint8Array(0);
const own = module(moduleIn(readFileSync(page, "latin1")));
const status = (engine, words = []) => {
  const said = (() => { try { return engine.run(words, none).status; } catch (fault) { return fault.name; } })();
  return [said, engine.memory !== null];
};
const large = ["gen", "table", "16", "1"], small = ["gen", "airport", "3", "1"];
const [kept, trapped] = [keeping, trapping].map((text) => new Engine(module(Buffer.from(text, "base64"))));
const [narrow, brief] = [new Engine(own, { most: 1 << 21 }), new Engine(own, { kept: 1 << 21 })];
const often = new Engine(own), lengths = Array.from({ length: 100 }, () => [status(often, small), often.memory.length]);
console.log(JSON.stringify([
  [status(kept), status(kept)], [status(trapped), status(trapped)],
  [status(narrow, large), status(narrow, small)], [status(brief, large), status(brief, small)],
  [...new Set(lengths.map(([, length]) => length === lengths[0][1]))],
]));
"""
# The last: a hundred calls take no more memory than one.
ANSWERS = [
    [[0, True], [0, True]], [["EngineFault", False], ["EngineFault", False]],
    [[7, False], [0, True]], [[0, False], [0, True]], [True],
]


def faults_of_engine(top: str) -> Iterator[str]:
    """Where a call finds what an earlier one left, or one that stopped or took too much memory keeps its instance."""
    modules = [base64.b64encode(small_module(code=code)).decode() for code in (KEEPING, TRAPPING)]
    places = [Path(top, "runtime", "engine", name).resolve().as_uri() for name in ("host.js", "inside.js")]
    words = ["node", "--input-type=module", "-e", ENGINES, *places, os.path.join(top, "page", "coop.html"), *modules]
    found = called(words)
    if found[0] or json.loads(found[1]) != ANSWERS:
        yield f"engines that stay: {found}, and not {ANSWERS}"


class Bare:
    """A copy of what bin/coop needs, with nothing built, and a path of the tools that are put there."""

    def __init__(self, folder: str, top: str) -> None:
        self.top, self.tools = os.path.join(folder, "top"), os.path.join(folder, "tools")
        shutil.copytree(os.path.join(TOP, "bin"), os.path.join(self.top, "bin"))
        shutil.copytree(os.path.join(top, "runtime"), os.path.join(self.top, "runtime"), ignore=NOT_COPIED)
        os.mkdir(os.path.join(self.top, "page"))
        shutil.copy(os.path.join(top, "page", "coop.html"), os.path.join(self.top, "page"))
        shutil.copy(os.path.join(TOP, "crates.txt"), self.top)
        for crate in ("coop", "coop_program"):
            os.makedirs(os.path.join(self.top, "crates", crate, "src"))
        os.makedirs(self.tools)
        for name in CALLED:
            os.symlink(shutil.which(name) or "", os.path.join(self.tools, name))
        self.program = os.path.join(self.top, "crates", "coop_program", "out", "coop_program")

    def put(self, names: str) -> None:
        """Leaves of node and rt those that are named on the path; rt is a stand-in that builds at once."""
        for name in ("node", "rt"):
            path = os.path.join(self.tools, name)
            if os.path.lexists(path):
                os.unlink(path)
        if "node" in names:
            os.symlink(shutil.which("node") or "", os.path.join(self.tools, "node"))
        if "rt" in names:
            Path(self.tools, "rt").write_text(RT, "utf-8")
            os.chmod(os.path.join(self.tools, "rt"), 0o755)

    def edit(self) -> None:
        """Makes a source newer than the program, where that is built."""
        Path(self.top, "crates", "coop", "src", "lib.rt").write_text("", "utf-8")
        if os.path.exists(self.program):
            os.utime(self.program, (1, 1))


def faults_unbuilt(top: str) -> Iterator[str]:
    """Where bin/coop answers by another than it should: by the program, by the module, or not at all."""
    module = (1, b'{"answer":"blocked","coalition":[2,3],"excess":"1"}\n', b"")
    native, none = (0, b"the built program\n", b""), (NO_ANSWER, b"", b"coop: the program isn't built")
    steps = [  # what is on the path, what is typed, and what comes of it
        ("", "propose", none), ("node", "propose", module), ("node rt", "propose", module), ("node", "--build", none),
        ("node rt", "--build propose", (NO_ANSWER, b"", b"coop: --build")),
        ("rt", "propose", (*native[:2], b"coop: proving and building")), ("node rt", "propose", native),
        ("node rt", "edit", None), ("node rt", "propose", module), ("", "propose", none),
        ("node rt", "--build", (0, b"", b"coop: proving and building")), ("node rt", "--build", (0, b"", b"")),
        ("", "propose", native),
    ]
    with tempfile.TemporaryDirectory() as folder:
        bare, document = Bare(folder, top), Path(TOP, "examples", "majority.json").read_bytes()
        for path, typed, wanted in steps:
            bare.put(path)
            if wanted is None:
                bare.edit()
                continue
            found = called([os.path.join(bare.top, "bin", "coop"), *typed.split()], document, bare.tools)
            is_said = found[2].startswith(wanted[2]) if wanted[2] else not found[2]
            if found[:2] != wanted[:2] or not is_said:
                yield f"bin/coop {typed} with {path or 'nothing'} on the path: {found}, and not {wanted}"
        bare.put("node")
        bare.edit()
        yield from faults_of_doors(bare, document)


# What is typed after `propose`, and the statuses by bin/coop and by Node alone, which knows no closed port.
PORTS = (
    ("<&-", 5, 3), (">&-", 6, 1), ("<&- >&- 2>&-", 5, 3), (">/dev/full", 6, 6), ("1<>/dev/null", 1, 1),
    ("0<>/dev/null", 3, 3),
)
WORDS = (
    ("nuclolus", b'coop: "nuclolus" is no command (coop --help lists them)\n'),
    ("core nofile", b'coop: there is no file "nofile"\n'),
    ("", b"coop: which command? (coop --help lists them)\n"),
    ("gen table 3", b'coop: "gen table 3" is no command (coop --help lists them)\n'),
)
CORE = b'{"answer":"core point","shares":["1","3/2","7/2"]}\n'


def faults_of_doors(bare: Bare, document: bytes) -> Iterator[str]:
    """Where bin/coop, answered by Node, and Node alone take closed ports, files, wrong words or a terminal otherwise."""
    launcher, alone = f"'{bare.top}/bin/coop'", f"node '{bare.top}/runtime/coop.mjs'"
    for ports, *statuses in PORTS:
        for command, status in zip((launcher, alone), statuses):
            found = called(["sh", "-c", f"{command} propose {ports}"], document, bare.tools)
            if found[0] != status or found[2]:
                yield f"{command} propose {ports}: {found}, and not {status}"
    for command in (launcher, alone):
        for words, said in WORDS:
            found = called(["sh", "-c", f"{command} {words}"], document, bare.tools)
            if found != (2, b'{"usage":"words"}\n', said):
                yield f"{command} {words}: {found}, and not {said!r}"
        found = called(["sh", "-c", f"{command} core {AIRPORT}; {command} --help"], document, bare.tools)
        if found[0] or not found[1].startswith(CORE + b"usage: coop COMMAND FILE\n"):
            yield f"{command} with a file, and --help: {found}"
        found = called(["sh", "-c", f"{command} --help >/dev/full"], document, bare.tools)
        if found[0] != 6:
            yield f"{command} --help with a full device: {found}, and not 6"
    said = [on_terminal(launcher, bare.tools) for _ in range(2)]
    if ["answered by" in text for text in said] != [True, False] or not all("then Ctrl-D" in text for text in said):
        yield f"bin/coop on a terminal: {said}"


def on_terminal(command: str, path: str) -> str:
    """What a terminal shows, at which an empty document is typed."""
    parent, child = pty.openpty()
    words = ["sh", "-c", f"{command} core"]
    process = subprocess.Popen(words, stdin=child, stdout=child, stderr=child, env={"PATH": path})
    os.write(parent, b"\x04")
    process.wait()
    os.close(child)
    text = os.read(parent, 10000).decode()
    os.close(parent)
    return text
