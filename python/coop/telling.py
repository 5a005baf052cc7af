"""What the page tells of documents, by its own modules under Node: the place of a mistake, what two games are to each
other, a line in sentences, a picture, a paper.

Answers don't need it where another program is there: it is asked when somebody wants to be told.
"""
from __future__ import annotations

import json
from dataclasses import dataclass
from typing import Any, Optional, Union

from .errors import BadInput, Fault, NotFound, Slip
from .game import bytes_of
from .parts import path_of
from .program import page_server

MOST = 32 * 1024 * 1024  # bytes of what is asked at once
SECONDS = 300.0  # for one question; a document of 8 MB takes some ten, and more on a busy machine
TOO_LATE = 124
UNTOLD = 2
NEEDLESS = "answers don't need it where another program is there"
NO_NODE = f"there is no Node on the path (18 or later, nodejs.org), whose process tells this; {NEEDLESS}"
NO_RUNTIME = f"the folders runtime and page, whose modules tell this, are missing beside the package; {NEEDLESS}"
Part = dict[str, Any]
"""A part of what is told: sentences, and perhaps a title, items with a label and a text each, and a last sentence."""


@dataclass(frozen=True)
class Twice:
    """A key that stands twice in an object, and the place of that object."""

    key: str
    place: str

    def __str__(self) -> str:
        key = json.dumps(self.key, ensure_ascii=False)
        return f"{self.place[:80]}: the key {key[:80]} is given twice, and the last one counts"


@dataclass(frozen=True)
class Sameness:
    """What two games are to each other: "same", "worth the same", "another" or "nobody can say"; a sentence on it, the
    places that differ, and the entries of games that are the same."""

    outcome: str
    sentence: str
    items: list[str]
    entries: list[str]

    def __bool__(self) -> bool:
        return self.outcome == "same"


def told(words: list[str], document: bytes) -> Any:
    if len(document) > MOST:
        raise BadInput(f"these are {len(document):,} bytes, and at most {MOST:,} are told of")
    server = page_server()
    if server is None:
        raise NotFound(NO_NODE if path_of("runtime", "serve.mjs") else NO_RUNTIME)
    try:
        status, line = server.run(["tell", *words], document, SECONDS)
    except Fault as fault:
        raise Fault(f"Node, whose process tells this, failed: {fault}; {NEEDLESS}", fault.status) from None
    if status == TOO_LATE:
        raise Fault(f"Node didn't tell this within {SECONDS:.0f} s; {NEEDLESS}", status)
    if not line:
        raise Fault(f"Node ran out of memory; {NEEDLESS}", status)
    try:
        found = json.loads(line)
    except ValueError:
        found = {"usage": "words"}
    if "usage" in found:
        raise Fault(f"the process of Node is of another version of coop, and doesn't tell this; {NEEDLESS}", status)
    if status == UNTOLD and "fault" in found:
        raise BadInput(found["fault"])
    return found


def asked(task: str, settings: dict[str, Any], *texts: str) -> Any:
    """What is told of several texts by settings, which say how numbers are spelled."""
    return told([task, json.dumps(settings)], "\0".join(texts).encode("utf-8", "surrogatepass"))


def slips(document: Union[str, bytes], command: str = "nucleolus") -> tuple[Optional[Slip], Optional[Twice]]:
    """The first refusal of a command, which is the program's, and the first key that stands twice, if there are any."""
    found = told(["slip", command], bytes_of(document))
    slip, twice = found.get("slip"), found.get("twice")
    return slip and Slip(**slip), twice and Twice(**twice)


def same(line: Any, agreed: Any) -> Sameness:
    """What the game of a line, or of any document, is to the agreed one. Each is a text, bytes, an answer or a game."""
    found = asked("same", {}, *(bytes_of(told).decode("utf-8", "replace") for told in (line, agreed)))
    return Sameness(found["outcome"], found["sentence"], found["items"], found["entries"])


def mailed(text: str) -> str:
    """The end of a sentence on a text that is no JSON: what mail has done to it, and what to do; "" if unknown."""
    try:
        found = asked("mail", {}, text)
    except (Fault, NotFound, BadInput):
        return ""
    if not found["isMended"]:
        return ""
    undone = "ask for it as a file, or paste it into Check of page/coop.html, which has a button that undoes this"
    return " ".join([f"; mail has changed it: {undone}.", *found["done"]])


def parts(line: str, document: str, verdict: str, settings: dict[str, Any]) -> list[Part]:
    """A line in sentences. The document that was asked about and the verdict on a certificate may be empty."""
    found: list[Part] = asked("line", settings, line, document, verdict)["parts"]
    return found


def of_game(task: str, game: str, about: dict[str, Any], settings: dict[str, Any]) -> dict[str, Any]:
    """What is told of a game by what stands beside it: a picture of shares, a comparison of divisions, margins, rules.
    The modules of runtime/ say what each is told, and answers."""
    found: dict[str, Any] = asked(task, settings, game, json.dumps(about))
    return found
