"""The program as portable C: what wasm2c makes of the module inside page/coop.html, and its host, c/portable.

wasm2c is of the version that is known here, since what the C is called differs between versions. Two things are put
into what it writes: that nothing is asserted, so that the C has no state of its own, and TURN (c/portable/wasm-rt.h) at
the head of each loop.
"""
from __future__ import annotations

import os
import re
import shutil
import subprocess

from program import TOP

KNOWN = "1.0.32"
WHERE = f"It has to be wasm2c {KNOWN}, of Debian 12's package wabt, or of that release of github.com/WebAssembly/wabt."
LIBRARY_FILES = ("c/coop.h", "c/portable/portable.h", "c/portable/wasm-rt.h", "c/portable/host.c")
"""What the library is built from, beside module.c and module.h."""
PROGRAM_FILES = ("c/portable/main.c", "c/portable/Makefile")
MODULE_TO = """
const fs = await import("node:fs"), [, inside, page, out] = process.argv, { moduleIn } = await import(inside);
fs.writeFileSync(out, moduleIn(fs.readFileSync(page, "latin1")));
"""
LOOP = re.compile(r"^( *w2c_L\d+:) *$", re.MULTILINE)
HEAD_OF_LOOP = re.compile(r"\bw2c_L\d+:")


class NotMade(Exception):
    """The C can't be made; the text says why."""


def write_sources(folder: str) -> None:
    """Writes what the library is built from to a folder: module.c, module.h, and LIBRARY_FILES."""
    if not shutil.which("node"):
        raise NotMade("there is no node")
    if not shutil.which("wasm2c"):
        raise NotMade(f"there is no wasm2c. {WHERE}")
    said = subprocess.run(["wasm2c", "--version"], stdout=subprocess.PIPE, text=True, check=True).stdout.split()
    if said[:1] != [KNOWN]:
        raise NotMade(f"wasm2c is {' '.join(said)}. {WHERE}")
    copy_to(folder, LIBRARY_FILES)
    module, made = os.path.join(folder, "module.wasm"), os.path.join(folder, "module.c")
    write_module(module)
    subprocess.run(["wasm2c", module, "-n", "coop", "-o", made], check=True)
    os.remove(module)
    with open(made, encoding="ascii") as file:
        text = file.read()
    with open(made, "w", encoding="ascii") as file:
        file.write(with_turns(text))


def copy_to(folder: str, files: tuple[str, ...]) -> None:
    """Copies files of the repository to a folder, which is made if it isn't there."""
    os.makedirs(folder, exist_ok=True)
    for name in files:
        shutil.copy(os.path.join(TOP, name), folder)


def write_module(path: str) -> None:
    """Writes the module that the page has inside."""
    inside, page = os.path.join(TOP, "runtime", "engine", "inside.js"), os.path.join(TOP, "page", "coop.html")
    words = ["node", "--input-type=module", "-e", MODULE_TO, f"file://{inside}", page, path]
    subprocess.run(words, check=True)


def with_turns(text: str) -> str:
    """The C with a TURN in each loop, and without assertions."""
    found, count = LOOP.subn(r"\1 TURN", text)
    if not count or len(HEAD_OF_LOOP.findall(text)) != count or "goto w2c_L" not in text:
        raise NotMade(f"{count} loops are known in what wasm2c wrote")
    return f"#ifndef NDEBUG\n#define NDEBUG\n#endif\n{found}"
