"""Paragraphs of at most 100 columns."""
from __future__ import annotations

from typing import Sequence

WIDTH = 100


def filled(text: str, first: str = "", others: str = "") -> str:
    """A paragraph, with what stands in front of its first line and of the others. No word is broken."""
    lines, start = [], first
    while len(start) + len(text) > WIDTH:
        end = text.rfind(" ", 0, WIDTH - len(start) + 1)
        end = text.find(" ") if end < 0 else end
        if end < 0:
            break
        lines.append((start + text[:end]).rstrip(" "))
        text, start = text[end + 1 :], others
    return "\n".join([*lines, (start + text).rstrip(" ")])


def with_items(first: str, items: Sequence[str]) -> str:
    return "\n".join([filled(first)] + [filled(item, "  - ", "    ") for item in items])
