"""The program: where it is found, and one run of it.

A program is anything with `run`: words and the bytes of a document to a status and the bytes of the line. Here is one,
a command of the system; `library` and `server` have others. The first that is found is taken, in this order:
what is named as an argument; the environment's `COOP`, a command; its `COOP_LIBRARY`, the C library; `coop` on the
path; the built program of the repository in which this package stands; the C library inside an installed package; by
Node, the module in the page, which such a package has too; and `bin/coop` of the repository, which builds the program
where the kit is.
"""
from __future__ import annotations

import os
import re
from typing import TYPE_CHECKING, Optional, Protocol, Sequence, Union

from .errors import BadInput, Fault, NotFound
from .library import Library
from .machine import spawned, which, words_of
from .parts import TOP as TOP
from .parts import path_of as path_of
from .parts import serving

if TYPE_CHECKING:
    from .server import Server

BUILT = os.path.join(TOP, "crates", "coop_program", "out", "coop_program")  # in a repository
LIBRARIES = ("libcoop.so", "libcoop.dylib", "coop.dll")  # inside a package
LIBRARY = re.compile(r"\.(so(\.[0-9]+)*|dylib|dll)$")  # with or without a version


class Program(Protocol):
    """What answers words and a document."""

    def run(self, words: Sequence[str], document: bytes) -> tuple[int, bytes]:
        """The status and the line."""


class Command:
    """A command of the system: a program and its first words."""

    def __init__(self, command: Sequence[str]):
        self.command = words_of(command)

    def __repr__(self) -> str:
        return f"Command({self.command!r})"

    def run(self, words: Sequence[str], document: bytes) -> tuple[int, bytes]:
        """Runs it in a process of its own."""
        try:
            return spawned([*self.command, *words], document)
        except OSError as fault:
            raise Fault(f"{self.command[0]} doesn't run: {fault.strerror}", -1) from None


# ---- Finding it

_found: Optional[Program] = None
_page: Optional[Server] = None


def find(program: Union[None, str, Program] = None) -> Program:
    """The program: the one that is named, or the first that is found, which is kept."""
    global _found
    if isinstance(program, str):
        return named(program)
    if program is not None:
        if not hasattr(program, "run"):
            raise BadInput(f"{program!r} isn't a program: name one, or give what has `run`")
        return program
    if _found is None:
        _found = found()
    return _found


def named(text: str) -> Program:
    """The program of a text: a file, a library, or words of a command."""
    if LIBRARY.search(text):
        return Library(text)
    if os.path.exists(text) or " " not in text.strip():
        return Command([text])
    import shlex

    try:
        return Command(shlex.split(text))
    except ValueError as fault:
        raise BadInput(f"{text!r} isn't a command: {fault}") from None


def found() -> Program:
    """The first program that the environment, the path or the repository has."""
    if os.environ.get("COOP"):
        return named(os.environ["COOP"])
    if os.environ.get("COOP_LIBRARY"):
        return Library(os.environ["COOP_LIBRARY"])
    on_path = which("coop")
    if on_path:
        return Command([on_path])
    if os.access(BUILT, os.X_OK):
        return Command([BUILT])
    inside, why = library_inside()
    if inside:
        return inside
    page, builder, server = path_of("page", "coop.html"), os.path.join(TOP, "bin", "coop"), page_server()
    if server:
        return server
    if which("rt") and os.access(builder, os.X_OK):
        return Command([builder])
    others = "or name a program, set COOP to it, or put it on the path"
    if page:
        wanted = "put Node 18 or later on the path (nodejs.org), install a wheel that has the library"
        raise NotFound(f"no program found{why}: {wanted} (tools/make/make-wheel), {others}")
    raise NotFound(f"no program found{why}, and the page is missing: install the package again, {others}")


def library_inside() -> tuple[Optional[Library], str]:
    """The library of an installed package that was built with one; or why this system can't load it."""
    folder = os.path.dirname(os.path.abspath(__file__))
    for name in LIBRARIES:
        path = os.path.join(folder, name)
        if os.path.exists(path):
            try:
                return Library(path), ""
            except NotFound as fault:  # it was built for another system
                return None, f" ({fault})"
    return None, ""


def said(program: Program) -> str:
    if isinstance(program, Library):
        return f"the library {program.path}" + (f" of coop {program.version}" if program.version else "")
    command = getattr(program, "command", None)
    return " ".join(command) if command else repr(program)


def page_server() -> Optional[Server]:
    """The processes of Node that answer by the page's module and tell what the page does; None without Node or page."""
    global _page
    command = serving()
    if _page is None and command:
        from .server import Server

        _page = Server([*command, "--tell"])
    return _page
