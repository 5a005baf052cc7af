#!/usr/bin/env python3
"""Where the repository and its program stand, in one place for all tools.

    tools/lib/program.py

Prints the path of the program that the gate builds, for tools that aren't in Python.
"""
from __future__ import annotations

import os
import sys

TOP = os.path.realpath(os.path.join(os.path.dirname(os.path.abspath(__file__)), "..", ".."))
PROGRAM = os.path.join(TOP, "crates", "coop_program", "out", "coop_program")
# The same compiled to WebAssembly, as a command that Node runs.
MODULE = os.path.join(TOP, "runtime", "coop.mjs")


def named_program(words: list[str]) -> str:
    """The program that the words of a tool name, or that of the gate; where there is none, the tool ends with 1."""
    program = os.path.abspath(words[0] if words else PROGRAM)
    if not os.path.isfile(program) or not os.access(program, os.X_OK):
        sys.exit(f"{os.path.basename(sys.argv[0])}: there is no program {program}; bin/coop --build builds it")
    return program


if __name__ == "__main__":
    print(PROGRAM)
