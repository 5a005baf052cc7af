"""The tools that the gate runs behind `rt ci`: a row each, in the order in which what they print is shown.

gate/ has what the gate runs alone, with its tables; make/ has what makes something; lib/ has what they share.
"""
from __future__ import annotations

from typing import NamedTuple


class Tool(NamedTuple):
    """A tool, and how tools/try-all and tools/gate/try-tools run it."""

    name: str
    # The words that it takes in front of a program.
    words: tuple[str, ...] = ()
    # Commands without which it isn't run, and those without which it leaves out a part.
    needs: tuple[str, ...] = ()
    uses: tuple[str, ...] = ()
    # Whether it has to fail with a wrong program, and whether it takes one as its last word.
    has_program: bool = True
    takes_program: bool = True
    # Whether it has to fail where the folders that it looks at are empty.
    has_folder: bool = True
    # Whether it needs the kit, or what only the kit builds; and whether without the kit its program has to be
    # runtime/coop.mjs itself, and not what asks a process of Node that stays.
    needs_kit: bool = False
    needs_ports: bool = False
    # The tool in front, which has to have ended before it starts.
    after: str = ""
    # Whether no other tool runs beside it: it starts when all in front have ended.
    is_alone: bool = False
    # The folder of tools/ that has it.
    folder: str = "gate"


TOOLS = (
    Tool("short-lines", has_program=False, takes_program=False),
    Tool("try-prose", has_program=False, takes_program=False),
    Tool("make-contracts", ("--check",), has_program=False, takes_program=False, folder="make"),
    Tool("make-classes", ("--check",), has_program=False, takes_program=False, folder="make"),
    Tool("try-folders", has_program=False, takes_program=False),
    Tool("draw-crates", ("--check",), has_program=False, takes_program=False, folder="make"),
    Tool("try-library", needs=("cc", "ar", "ld", "nm", "objcopy", "readelf"), uses=("valgrind",), needs_kit=True),
    Tool("shown-lines", uses=("cc",), takes_program=False, needs_kit=True, after="try-library"),
    Tool("try-page", needs=("node",)),
    Tool("count-work", uses=("valgrind",), has_folder=False, needs_kit=True),
    Tool("try-sizes", has_folder=False),
    Tool("try-checkers", needs=("node",)),
    Tool("try-coq", needs=("coqc", "coqchk", "coq_makefile", "ocamlopt", "make")),
    Tool("try-scripts", needs=("node",)),
    Tool("try-python", uses=("mypy", "flake8")),
    Tool("try-engines", needs=("node",), uses=("dask", "mpirun", "parallel"), has_program=False, takes_program=False),
    Tool("try-portable", needs=("cc", "make", "ar", "node", "wasm2c"), uses=("valgrind",), has_program=False),
    Tool("fuzz-same-game", needs=("node",), has_program=False, takes_program=False),
    Tool("try-languages", uses=("Rscript", "wasm2c", "node", "rustc"), takes_program=False, needs_kit=True),
    Tool("try-schema"),
    Tool("read-examples"),
    Tool("try-literature"),
    Tool("time-families", ("--players", "6", "--rounds", "2"), has_folder=False, folder="make"),
    Tool("refuse-memory", uses=("cc",), has_folder=False, needs_kit=True),
    Tool("hostile-ports", uses=("cc",), needs_ports=True),
    Tool("try-page-face", needs=("node",), uses=("chromium", "firefox-esr"), is_alone=True),
    Tool("try-tools", uses=("cc", "valgrind"), needs_kit=True, is_alone=True),
)
