"""The status that belongs to a line of the program, by the table of reports in docs/formats.md."""
from __future__ import annotations

import json
import re
from typing import Any

POSITIVE = {"nucleolus", "prenucleolus", "yes", "core", "core point", "bird", "shapley", "convex", "prekernel"}
POSITIVE |= {"matching"}
NEGATIVE = {"no imputation", "no", "not efficient", "blocked", "empty core", "not convex", "not prekernel"}
SUMMARY = {"class", "common", "first", "greatest", "last", "players", "seed", "verdict"}


def tree_of(line: str) -> Any:
    """The JSON tree of a line, or None where it is none."""
    try:
        return json.loads(line)
    except ValueError:
        return None


def status_of(line: str) -> int | None:
    """The status that belongs to a line that the program prints, or None where it prints no such line."""
    tree = tree_of(line)
    if not isinstance(tree, dict):
        return None
    if set(tree) == {"usage"}:
        return 2
    if set(tree) == {"number", "refused"}:
        return 3
    answer = tree.get("answer")
    if answer in NEGATIVE:
        return 1
    return 0 if answer in POSITIVE or set(tree) == SUMMARY else None


def is_whole(output: bytes) -> bool:
    """Whether the output is one line to its end."""
    return output.count(b"\n") == 1 and output.endswith(b"\n")


def is_complaint(line: str) -> bool:
    """Whether a script says with this line why it can't go on, which it does with status 2."""
    return re.match(r"(check-anew|from-costs|shares|explain|picture): ", line) is not None
