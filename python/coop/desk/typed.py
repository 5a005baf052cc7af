"""Amounts as people type them on a command line: with a comma in front of decimals, or as a percentage of a whole."""
from __future__ import annotations

import re
from fractions import Fraction
from typing import Optional

from ..amounts import fraction_of
from ..errors import BadInput
from ..sheets import MARKS, NUMBER, by_mark, told_by, two_ways


def amount(text: str, whole: Fraction) -> Fraction:
    """The number of a text, as 400, 12.50, 12,50, 1.234,50 or 25/2; of 10% so much of the whole."""
    words = text.strip()
    value = number(words.rstrip("%").rstrip()) if words.endswith("%") else number(words)
    return value * whole / 100 if words.endswith("%") else value


def number(text: str, what: str = "") -> Fraction:
    """The number of a text, whose mark has to be read in one way only. A refusal begins with what it is."""
    words = text.strip()
    match = NUMBER.fullmatch(words)
    try:
        return fraction_of(words) if match is None else marked(words, told_by(match[1], match[2]))
    except BadInput as fault:
        raise BadInput(f"{what}: {fault}" if what else str(fault)) from None


def marked(words: str, mark: Optional[str]) -> Fraction:
    """The number of a text with this mark in front of decimals, or with one that may be either."""
    if mark is None:
        part, whole = two_ways(words)
        raise BadInput(f"{words} may be {part} or {whole}: write {Fraction(part)} or {whole}")
    try:
        return by_mark(words, mark, None)
    except BadInput:
        name = next(name for name, sign in MARKS.items() if sign == mark)
        raise BadInput(f"{words} isn't a number with a decimal {name}") from None


def as_operand(word: str) -> str:
    """A word of a command line; one that begins as a number below 0 gets a blank in front, and is no option then."""
    return f" {word}" if re.match(r"-[0-9]", word) else word
