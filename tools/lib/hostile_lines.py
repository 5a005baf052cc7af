"""Lines that are large, slow, broken or hostile, and what a checker of coq/ has to make of them."""
from __future__ import annotations

import copy
import json
import os
import subprocess
from collections.abc import Iterator
from typing import Any

from program import TOP
from refused_lines import Document, written


def run(words: list[str], data: bytes) -> tuple[int, bytes, bytes]:
    """The status of a command, and what it prints on both streams."""
    done = subprocess.run(words, input=data, stdout=subprocess.PIPE, stderr=subprocess.PIPE, check=False)
    return done.returncode, done.stdout, done.stderr


def slow_line() -> Document:
    """A certificate of 16 players that lists nearly all coalitions, each of them earlier ones too: 2.7 MB."""

    def listed(masks: range, weight: int) -> list[Any]:
        return [[[i + 1 for i in range(16) if mask >> i & 1], weight] for mask in masks]

    levels = [
        {"excess": "0", "coalitions": listed(range(1 + 4000 * k, 4001 + 4000 * k), 1), "bounds": [], "total": 1,
         "earlier": listed(range(1, 4001), 0) if k else []}
        for k in range(15)
    ]  # fmt: skip
    game = {"class": "table", "players": 16, "worths": [0] * (2**16 - 1)}
    return {"answer": "nucleolus", "certificate": {"levels": levels, "mode": "span"}, "game": game, "shares": [0] * 16}


def forged_line() -> Document:
    """A line that would meet all conditions, but names an earlier coalition that no level lists."""
    with open(os.path.join(TOP, "examples", "forged-earlier.json"), encoding="utf-8") as file:
        return json.load(file)


def padded(line: Document, size: int, end: bytes = b"") -> bytes:
    """A line with blanks after it, of this many bytes, and an end."""
    return written(line).ljust(size) + end


def broken(line: Document) -> list[bytes]:
    """A line that was damaged on the way, and what isn't one line."""
    text = written(line)
    twice = text.replace(b'{"answer"', b'{"shares": [1], "answer"', 1)
    return [
        text[: len(text) // 2], text[1:], text + b"\n" + text, text + b"," + text, b"\xef\xbb\xbf" + text, twice,
        text.replace(b"nucleolus", b"nucleol\xffs", 1), text.replace(b'"excess"', b'"exc\xc0\xafess"', 1),
        b"[" * 100000, b"[" * 100000 + b"]" * 100000, b'{"a":' * 100000, b"1" * 100000, b'"' + b"a" * 100000,
    ]  # fmt: skip


# Names that would be Coq's text if they reached it.
NAMES = [
    "*) Axiom a : 1 = 2. (*", '"', "\n\nAdmitted.\n", "\u0000", "Qed. Definition this_game := 0", "(* ", "ü\u2028", "'",
]  # fmt: skip


def reached_by_names(check: str, line: Document) -> Iterator[str]:
    """What is wrong where names reach what `check --coq` writes."""
    players = len(line["shares"])
    plain = run([check, "--coq"], written(line))
    for first in range(len(NAMES)):
        named = copy.deepcopy(line)
        named["game"]["names"] = [f"{NAMES[(first + i) % len(NAMES)]}{i}" for i in range(players)]
        if run([check, "--coq"], written(named)) != plain:
            yield f"the names {named['game']['names']} change what check --coq writes"


def with_little_stack(check: str, texts: list[bytes]) -> Iterator[str]:
    """What is wrong where with little stack a document is neither answered nor refused in one sentence."""
    for text in texts:
        for size in (4096, 512, 64):
            found, printed, errors = run(["sh", "-c", f"ulimit -s {size}; exec {check}"], text)
            said = [line for line in errors.splitlines() if not line.startswith(b"check: warning: ")]
            is_answer = found in (0, 1) and printed.startswith(b'{"answer":') and not said
            is_refusal = found == 2 and not printed and len(said) == 1 and said[0].startswith(b"check: ")
            if not is_answer and not is_refusal:
                yield f"{text[:99]!r} with a stack of {size} KB ends with {found}, {errors[:99]!r}"
