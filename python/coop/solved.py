"""Games of the literature with what every right program answers to them: examples/literature.jsonl of the project.

    for example in coop.solved.examples():
        print(example.id, example.source, example.game)
        line = my_own_program(example.command, example.document)
        print(example.differences(line))                      # nothing, if the line is right

Numbers of a source were written down without the source at hand; docs/published.md lists them.
"""
from __future__ import annotations

import json
from dataclasses import dataclass, field
from fractions import Fraction
from typing import Any, Iterator, Optional, Union

from .errors import BadInput
from .game import WRITER, Game, encoded
from .parts import part_of

__all__ = ["Example", "example", "examples"]

FILE = "examples/literature.jsonl"
KEYS = {"id", "source", "command", "document", "expected", "numbers", "remembered"}
MORE = {"published", "unit", "note"}
WORDS = {"numbers": ("published", "theorem", "computed"), "remembered": ("surely", "perhaps")}
# Lists of which only one end is given, without those who trade with nobody.
ENDS = {"buyers best first": ("buyers best", slice(0, 1)), "sellers best last": ("sellers best", slice(-1, None))}


@dataclass(frozen=True)
class Example:
    """A game of the literature, a command, and what the line of the command has to have, exactly. `numbers` says where
    that is from: "published" (in the source, as `published` has it, times `unit`), "theorem" (worked out by hand by a
    theorem of the source), or "computed" (the source has the game or its kind, and a solver that shares nothing with
    coop the numbers). `remembered` says whether what is the source's was written down surely or perhaps."""

    id: str
    source: str
    command: str
    tree: dict[str, Any] = field(repr=False)
    expected: dict[str, Any] = field(repr=False)
    numbers: str
    remembered: str
    published: tuple[str, ...] = ()
    unit: int = 1
    note: str = field(default="", repr=False)

    @property
    def game(self) -> Game:
        """Returns the game."""
        return Game(self.tree["game"])

    @property
    def document(self) -> bytes:
        """Returns the bytes that the command reads."""
        return encoded(WRITER.encode(self.tree), "a name")

    def differences(self, line: Union[str, bytes]) -> list[str]:
        """Returns how a line differs from what it has to have, a sentence each; nothing, if it is right. What is no
        line differs too."""
        try:
            tree = json.loads(line)
            assert isinstance(tree, dict)
        except (ValueError, RecursionError, AssertionError):
            return ["it isn't an object of JSON"]
        wrong = ((key, wanted, found(tree, key, wanted)) for key, wanted in self.expected.items())
        return [f"{key}: expected {wanted}, and not {other}" for key, wanted, other in wrong if other != wanted]

    def misprints(self, line: Union[str, bytes]) -> list[str]:
        """Returns how the published numbers differ from those of a line that is right, by a last place or more: what is
        printed may be rounded or cut."""
        exact = self.exact_numbers(json.loads(line)) if self.published else []
        if len(exact) != len(self.published):
            return [f"{len(self.published)} published numbers for {len(exact)}"]
        faults = []
        for text, number in zip(self.published, exact):
            places = len(text.partition(".")[2]) if "." in text else None
            value = number / self.unit
            apart = abs(value - Fraction(text))
            if apart if places is None else apart >= Fraction(1, 10**places):
                faults.append(f"published {text}, and {value} is exact")
        return faults

    def exact_numbers(self, tree: dict[str, Any]) -> list[Fraction]:
        """Returns the numbers of a line that stand beside the published ones; of a market its value and both ends."""
        if self.command != "matching":
            return [Fraction(text) for text in tree.get("shares", [])]
        ends = [text for key in ENDS for text in found(tree, key, self.expected[key])]
        return [Fraction(text) for text in [tree.get("value"), *ends] if text is not None]


def found(tree: dict[str, Any], key: str, wanted: Any) -> Any:
    """Returns what a line has at a key; of one end of a list as many items as are wanted."""
    if key not in ENDS:
        return tree.get(key)
    own, side = ENDS[key]
    items = tree.get(own, [])
    if not isinstance(items, list):
        return items
    return items[: len(wanted)] if side.start == 0 else items[len(items) - len(wanted) :]


def examples(path: Optional[str] = None) -> Iterator[Example]:
    """Returns the examples in their order; of a file of one's own, if a path is named. A line that isn't in form is
    BadInput."""
    with open(path or part_of("the file of examples", *FILE.split("/")), encoding="utf-8") as file:
        for number, line in enumerate(file, 1):
            yield read(line, number)


def read(line: str, number: int) -> Example:
    try:
        row = json.loads(line)
        good = KEYS <= row.keys() <= KEYS | MORE and all(row[key] in words for key, words in WORDS.items())
        good = good and ("published" in row) == (row["numbers"] == "published") and row["expected"] and row["source"]
    except (ValueError, AttributeError, TypeError, RecursionError):
        good = False
    if not good:
        raise BadInput(f"line {number} isn't an example: {line[:40]!r}")
    row["published"], row["unit"] = tuple(row.get("published", ())), int(row.get("unit", 1))
    return Example(tree=row.pop("document"), **row)


def example(name: str) -> Example:
    """Returns the example of a name."""
    for one in examples():
        if one.id == name:
            return one
    raise BadInput(f"{name!r} is no example: docs/published.md names some")
