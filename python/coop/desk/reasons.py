"""Any line in sentences: an answer, a certificate, a failed one, a refusal with its place. The page's modules tell it,
under Node, once the second checker has looked at a certificate."""
from __future__ import annotations

import re
from typing import Any, Optional, Union

from .. import checking, telling
from ..answers import Answer
from ..calls import bytes_now
from ..errors import BadInput
from ..game import WRITER, Game, bytes_of
from ..styles import EXACT, Style
from .documents import decoded, one_in
from .over import divided
from .prose import filled, with_items

CHECKED = ("nucleolus", "prenucleolus")
REFUSALS = range(1, 14)
Told = Union[str, bytes, Answer, Game]
"""A line or a document: its text, its bytes, the answer that has the line, or the game."""


def reasons(
    line: Told, document: Optional[Told] = None, say: Style = EXACT, where: str = "the line", over: int = 1
) -> tuple[str, int]:
    """The sentences of a line, with all amounts over a number, and 1 if they tell that a certificate fails, else 0. The
    document that was asked about gives names and numbers to a line that has no game, and the place of a slip."""
    parts, status = parts_of(bytes_now(line), None if document is None else bytes_of(document), say, where, over)
    return "\n\n".join(map(paragraph, parts)) + "\n", status


def parts_of(
    line: bytes, document: Optional[bytes] = None, say: Style = EXACT, where: str = "the line", over: int = 1
) -> tuple[list[telling.Part], int]:
    tree = read(line, where)
    if "refused" in tree:
        return [{"sentences": refusal(tree, document), "items": []}], 0
    verdict = None
    if tree.get("answer") in CHECKED:
        if "certificate" not in tree:
            raise BadInput("the line has no certificate to explain")
        verdict = verdict_on(line, where)
    told = text_of(tree, line, over)
    beside = text_of(read(document, "the document"), document, over) if document is not None and not verdict else ""
    parts = telling.parts(told, beside, WRITER.encode(verdict) if verdict else "", say.spelling())
    return parts, int(verdict is not None and verdict["answer"] == "no")


def text_of(tree: dict[str, Any], data: bytes, over: int) -> str:
    """The text of a document or a line, with its amounts over a number."""
    return data.decode("utf-8-sig") if over == 1 else WRITER.encode(divided(tree, over))


def names_in(line: bytes, document: Optional[bytes] = None) -> list[str]:
    """The names of the players in a line, or else in the document beside it; none where neither has any."""
    for data in (line, document):
        try:
            found = Game(read(data, "the line")["game"]) if data is not None else None
        except (BadInput, KeyError):
            continue
        if found and found.named:
            return found.names
    return []


def read(data: bytes, where: str) -> dict[str, Any]:
    """A line or a document, which may be a refusal."""
    return one_in(decoded(data, where), where, may_refuse=True)


def checked(line: bytes, where: str) -> dict[str, Any]:
    """The document of a line whose certificate holds."""
    tree = one_in(decoded(line, where), where)
    if tree.get("answer") not in CHECKED or "certificate" not in tree:
        raise BadInput(f"{where} isn't a line of nucleolus or prenucleolus")
    verdict = verdict_on(line, where)
    if verdict["answer"] == "no":
        failed = telling.parts(line.decode("utf-8-sig"), "", WRITER.encode(verdict), EXACT.spelling())
        raise BadInput(f"{where}: {' '.join(failed[0]['sentences'])}")
    return tree


def verdict_on(line: bytes, where: str) -> dict[str, Any]:
    """The verdict on a line. Of a line that isn't one to check its slip is told, with its place and what to write."""
    try:
        return checking.verdict(line)
    except BadInput:
        slip, _ = telling.slips(line, "check")
        if slip is None:
            raise
        raise BadInput(f"{where}: {slip}") from None


def refusal(tree: dict[str, Any], document: Optional[bytes]) -> list[str]:
    number, name = tree.get("number"), tree["refused"]
    if number not in REFUSALS or type(name) is not str:
        raise BadInput("this isn't a refusal of the program")
    first = f"The document is refused: {number} {name}."
    if document is None:
        return [first, "Give the document too, and this script finds the mistake."]
    for command in ("nucleolus", "propose", "check"):
        slip, twice = telling.slips(document, command)
        if slip and slip.number == number:
            told = re.sub("^the ", "The ", str(slip))  # a key keeps its letters
            return [first, told, *([f"Besides, at {twice}."] if twice else [])]
    raise BadInput(f"the program doesn't refuse this document for {number} {name}: is it another document?")


def paragraph(part: telling.Part) -> str:
    title = f"{part['title']}. " if part.get("title") else ""
    items = [f"{item['label']} {item.get('text', '')}".strip() for item in part["items"]]
    text = with_items(title + " ".join(part["sentences"]), items)
    return text + (f"\n{filled(part['last'])}" if part.get("last") else "")
