"""Names that can't forge: what isn't seen is shown as an escape, and names that look alike are told.

Alike are names that differ by what isn't seen, by blanks or by how a letter is coded; by a letter of the Cyrillic or
Greek alphabet that looks like a Latin one; or by 1, I, l and |, by 0 and O, by rn and m. Other letters that look alike
aren't known here.
"""
from __future__ import annotations

import re
import unicodedata
from typing import Callable, Iterable, Optional, Sequence

# Letters and marks that take no room, beside those of the categories Cc and Cf.
UNSEEN = frozenset(  # 0x2800 is a blank of Braille
    [0x034F, 0x115F, 0x1160, 0x17B4, 0x17B5, 0x2028, 0x2029, 0x3164, 0xFFA0, 0x2065, 0x2800]
    + [*range(0x180B, 0x1810), *range(0xFE00, 0xFE10), *range(0xFFF0, 0xFFF9), *range(0xE0000, 0xE1000)]
)
ISOLATE, END_OF_ISOLATE = "\u2068", "\u2069"


# How a row is called that has the sum of others, as page/src/game/names.js and page/src/cases/sum-row.js have it.
SUMS = re.compile(
    r"[Σ∑]|all(e|( together))?|together|ensemble|sum|"
    r"((grand|sub)[ -]?)?totals?( (costs?|amount|claims?|debts?|votes?))?|suma|totaa?l|totalt|summa|"
    r"(zwischen)?summe|gesamt(summe|kosten|betrag)?|insgesamt|zusammen|somme|totale|(sous-)?total( général)?",
    re.IGNORECASE,
)
# Letters of other alphabets, each in front of the Latin one that it is taken for, as page/src/game/names.js has them;
# the twin of 1, I, l and | is l, and that of 0 and O is o.
PAIRS = (
    "\u0430a\u0435e\u043eo\u0440p\u0441c\u0443y\u0445x\u0456i\u0458j\u0455s\u0501d\u04bbh\u051bq\u051dw\u04cfl\u0475v"
    "\u04afy\u0410A\u0412B\u0415E\u041aK\u041cM\u041dH\u041eO\u0420P\u0421C\u0422T\u0423Y\u0425X\u0406I\u0408J\u0405S"
    "\u051aQ\u051cW\u04aeY\u03bfo\u03bdv\u03b1a\u03b9i\u03bak\u03c1p\u03c5u\u03c7x\u03b3y\u0391A\u0392B\u0395E\u0396Z"
    "\u0397H\u0399I\u039aK\u039cM\u039dN\u039fO\u03a1P\u03a4T\u03a5Y\u03a7X\u0131i\u0251a\u0261g\u0585o\u057du\u0570h"
)
LATIN = {"1": "l", "I": "l", "|": "l", "0": "o", "O": "o"}
TWINS = str.maketrans({**LATIN, **{one: LATIN.get(other, other) for one, other in zip(PAIRS[::2], PAIRS[1::2])}})
ALPHABETS = ("LATIN", "CYRILLIC", "GREEK")


def is_unseen(letter: str) -> bool:
    """Whether a character controls, formats or hides, so that it isn't printed as it is."""
    return unicodedata.category(letter) in ("Cc", "Cf", "Cs") or ord(letter) in UNSEEN


def safe(text: str) -> str:
    """The text with an escape for each such character, and a second backslash behind each backslash."""
    if text.isascii() and text.isprintable() and "\\" not in text:
        return text
    return "".join(escape(letter) for letter in text)


def is_from_the_right(text: str) -> bool:
    """Whether letters of a text are written from the right, as Hebrew and Arabic ones."""
    return not text.isascii() and any(unicodedata.bidirectional(letter) in ("R", "AL") for letter in text)


def apart(text: str) -> str:
    """A safe text; one from the right is kept apart from the numbers beside it, which a terminal moves otherwise."""
    return f"{ISOLATE}{safe(text)}{END_OF_ISOLATE}" if is_from_the_right(text) else safe(text)


def escape(letter: str) -> str:
    """One character of a safe text."""
    if letter == "\\":
        return "\\\\"
    if not is_unseen(letter):
        return letter
    return f"\\u{ord(letter):04x}" if ord(letter) < 0x10000 else f"\\U{ord(letter):08x}"


def plain(text: str) -> str:
    """A name without what isn't seen, in the plainest form of each letter."""
    return " ".join("".join(letter for letter in unicodedata.normalize("NFKC", text) if not is_unseen(letter)).split())


def is_sum_word(name: str) -> bool:
    """Whether a name may be that of a row of sums."""
    return SUMS.fullmatch(name.strip(" :")) is not None


def looks(text: str) -> str:
    """What a name looks like: names of the same look can't be told apart by most readers."""
    return plain(text).translate(TWINS).replace("rn", "m")


def caseless(text: str) -> str:
    """The same of names that differ in capitals alone."""
    return plain(text).casefold()


def alike(names: Iterable[str], look: Callable[[str], str] = looks) -> list[list[str]]:
    """The names that look alike: lists of two or more."""
    by_look: dict[str, list[str]] = {}
    for name in names:
        by_look.setdefault(look(name), []).append(name)
    return [some for some in by_look.values() if len(some) > 1]


def is_mixed(name: str) -> bool:
    """Whether letters of two alphabets stand in one word."""
    if name.isascii():
        return False
    words = ({unicodedata.name(letter, "").split(" ")[0] for letter in word} for word in re.findall(r"\w+", name))
    return any(len(found.intersection(ALPHABETS)) > 1 for found in words)


def warning(names: Sequence[str]) -> Optional[str]:
    """A sentence on names that look alike or that hide something, or None."""
    sentences = [f"{len(some)} names look alike: {', '.join(map(shown, some))}" for some in alike(names)]
    told = {name for some in alike(names) for name in some}
    for some in alike([name for name in names if name not in told], caseless):
        sentences.append(f"{len(some)} names differ only in capitals: {', '.join(map(safe, some))}")
    hidden = [name for name in names if name not in told and any(map(is_unseen, name))]
    if hidden:
        sentences.append(f"hidden characters are shown as escapes in {', '.join(map(safe, hidden))}")
    mixed = [name for name in names if name not in told and is_mixed(name)]
    if mixed:
        sentences.append(f"a word mixes letters of two alphabets: {', '.join(map(shown, mixed))}")
    return "; ".join(sentences) or None


def shown(name: str) -> str:
    """A name with escapes for all that isn't plain, so that names that look alike differ."""
    return name.encode("unicode_escape").decode("ascii")


def visible(text: str) -> str:
    """A sentence with an escape for each character that isn't seen."""
    return "".join(escape(letter) if is_unseen(letter) else letter for letter in text)


# ---- Landings of a runway with types


def row_of(name: str) -> str:
    """What stands in front of the number of a landing: "Aer, A320" of "Aer, A320 1"."""
    return re.sub(" [0-9]+$", "", name)


def airline_of(row: str) -> str:
    """What stands in front of the last comma: "Aer" of "Aer, A320"."""
    return row.rpartition(", ")[0] or row
