"""The package as a command: python -m coop COMMAND < DOCUMENT, python -m coop COMMAND FILE, or python -m coop page.

The first two print the program's line and end with the program's status; or with 70, and say why, if there is no
program or it can't answer. If the words are wrong, standard error has a sentence. The third opens the page in a
browser, and prints where it is. --version prints the version and what answers; --help lists the commands.
"""
from __future__ import annotations

import json
import os
import sys
from typing import Optional, Sequence, TextIO

from .classes import COMMANDS
from .errors import CoopError, NoAnswer, NotFound
from .parts import part_of
from .program import find, said
from .version import VERSION

MOST = max(row["bytes"] for row in COMMANDS.values()) + 1  # bytes of a document, one more than any may have
MOST_SHOWN = 60  # letters of a word
USAGE, REFUSED, READ_FAULT, WRITE_FAULT, NO_ANSWER = 2, 3, 5, 6, 70
HINT = "type or paste the document, then Ctrl-D; or give a file: coop COMMAND FILE"


def answer(words: Sequence[str]) -> tuple[int, bytes]:
    """The status and the line of the program."""
    program = find()
    # A command on a document refuses an empty one, and nothing else ends so: only such a command reads.
    first = program.run(words, b"")
    if first[0] != REFUSED:
        return first
    if is_terminal(sys.stdin) and is_terminal(sys.stderr):
        say(HINT)
    try:
        document = sys.stdin.buffer.read(MOST)
    except (OSError, AttributeError):  # it is closed
        return READ_FAULT, b""
    return program.run(words, document)


def answer_to_file(command: str, path: str) -> tuple[int, bytes]:
    """The status and the line of the program, on the document of a file."""
    try:
        with open(path, "rb") as file:
            document = file.read(MOST)
    except OSError as fault:
        say(f"can't read {path}: {fault.strerror}")
        return READ_FAULT, b""
    return find().run([command], document)


def is_terminal(port: Optional[TextIO]) -> bool:
    return port is not None and port.isatty()


def say(sentence: str) -> None:
    """A sentence on standard error."""
    print(f"coop: {sentence}", file=sys.stderr)


def fault_of(words: Sequence[str]) -> str:
    """What is wrong with words that the program doesn't know."""
    if len(words) == 2 and words[0] in COMMANDS:
        return f"there is no file {shown(words[1])}"
    told = f"{shown(' '.join(words))} is no command" if words else "which command?"
    return f"{told} (coop --help lists them)"


def shown(text: str) -> str:
    """The first letters of a text, with escapes."""
    return json.dumps(text if len(text) <= MOST_SHOWN else f"{text[:MOST_SHOWN]}..")


def usage() -> str:
    with open(part_of("the list of the commands", "runtime", "usage.txt"), encoding="utf-8") as file:
        return f"{file.read()}coop page opens the page in a browser. Here coop is python -m coop."


def show_page() -> int:
    """Opens the page, and tells where it is."""
    import pathlib
    import webbrowser

    page = part_of("the page", "page", "coop.html")
    status = told(page)
    webbrowser.open(pathlib.Path(page).as_uri())
    return status


def found() -> str:
    try:
        return said(find())
    except NotFound as fault:
        return f"nobody: {fault}"


def run(words: Sequence[str]) -> int:
    """Prints what the words ask for, and gives the status."""
    if list(words) == ["page"]:
        return show_page()
    if list(words) == ["--version"]:
        return told(f"coop {VERSION}, answered by {found()}")
    if list(words) in (["--help"], ["-h"]):
        return told(usage())
    is_file = len(words) == 2 and words[0] in COMMANDS and os.path.exists(words[1])
    status, line = answer_to_file(*words) if is_file else answer(words)
    if status == USAGE and b"words" in line:
        say(fault_of(words))
    return status if printed(line) else WRITE_FAULT


def told(text: str) -> int:
    """Prints a text, and gives the status."""
    return 0 if printed(f"{text}\n".encode("utf-8", "surrogateescape")) else WRITE_FAULT


def printed(line: bytes) -> bool:
    """Whether the line could be written."""
    try:
        sys.stdout.buffer.write(line)
        sys.stdout.buffer.flush()
    except AttributeError:  # it is closed
        return False
    except OSError:
        os.dup2(os.open(os.devnull, os.O_WRONLY), sys.stdout.fileno())  # Python writes what is left when it ends
        return False
    return True


def main() -> None:
    try:
        status = run(sys.argv[1:])
    except CoopError as fault:
        print(f"coop: no answer: {fault}", file=sys.stderr)
        status = fault.status if isinstance(fault, NoAnswer) and 0 < fault.status < 256 else NO_ANSWER
    sys.exit(status)


if __name__ == "__main__":
    main()
