"""The classes of games and the commands: their keys, what a command needs, and how many players it takes.

classes.json is the project's one table of them. tools/make/make-classes writes it into a module of the page, and
compares the pages, the sources of the program and what else names classes with it; tools/gate/try-sizes proves it
against the program. The checkers that stand beside the program don't read it.
"""
from __future__ import annotations

import json
import os
from typing import Any

with open(os.path.join(os.path.dirname(os.path.abspath(__file__)), "classes.json"), encoding="utf-8") as _file:
    _rows: dict[str, dict[str, Any]] = json.load(_file)

CLASSES = _rows["classes"]
"""By the word of a class: whether its numbers are costs; its keys, and among them that of the numbers of which each
player has one, and the single one; the fewest and the most players, and of a market the most on one side; and whether
it has whole numbers alone."""

COMMANDS = _rows["commands"]
"""By the word of a command on a document: the keys that it needs; the most bytes; the most players by class, of the
classes that it serves; and by excess per head, if they are fewer."""

GENERATED = _rows["generated"]
"""The fewest and the most players of what `gen` makes, by kind."""

LIMITS = _rows["limits"]
"""Of the numbers of a game: the bits of one times their denominator, the denominator, and what votes add to; the bytes
of a name; and the players of a certificate in mode span."""


def keys_of(which: str) -> dict[str, str]:
    """The key of the list, or the single one, of each class that has it."""
    return {kind: row[which] for kind, row in CLASSES.items() if which in row}
