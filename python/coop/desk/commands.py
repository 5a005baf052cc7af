"""What the scripts share: their words, how they end, and what they say beside their output."""
from __future__ import annotations

import argparse
import os
import signal
import sys
from typing import Any, Callable, Iterable, NoReturn, Optional, Sequence, Union

from ..amounts import MOST_SCALE
from .cells import Cells, cells_named
from .documents import read_text
from ..errors import BadInput, CoopError
from ..game import Game, encoded
from ..names import apart, visible, warning
from ..sheets import MARKS, SEPARATORS, Layout
from ..styles import MOST_PLACES, Style

Output = Union[str, tuple[str, int]]
"""What a script prints, and the status with which it ends where that isn't 0."""

OPTIONS = {
    "Layout(has_head=True)": "--head",
    "Layout(skip=1)": "--skip 1",
    "Layout(skip=..)": "--skip",
    "Layout(decimal=..)": "--decimal",
    "fill=True": "--fill",
    "`order`": "--order",
}
"""What the package calls an argument, and what a script calls it."""


class Options(argparse.ArgumentParser):
    """The words of a script. A slip in them is bad input, told in one line."""

    def __init__(self, description: Optional[str]):
        name = f"scripts/{os.path.basename(sys.argv[0])}"
        plain = argparse.RawDescriptionHelpFormatter
        super().__init__(prog=name, description=description, formatter_class=plain, allow_abbrev=False)

    def error(self, message: str) -> NoReturn:
        raise BadInput(f"{message}; {self.format_usage().strip()}")

    def read(self, words: Sequence[str]) -> Any:
        """What the words say, options and files in whatever order."""
        return self.parse_intermixed_args(words)

    def add_file(self, name: str = "file", text: str = "a file; without one, standard input") -> None:
        self.add_argument(name, nargs="?", default="-", metavar=name.upper(), help=text)

    def add_files(self) -> None:
        self.add_argument("files", nargs="*", metavar="FILE", help="lines and documents; without one, standard input")

    def add_style(self, places: Optional[int] = None, is_plain: bool = False) -> None:
        """How numbers are shown; in plain digits, for a spreadsheet, without a sign between thousands."""
        shown = "fractions" if places is None else f"{places}"
        told = f"N decimals, {'in plain digits' if is_plain else 'thousands separated'} (default: {shown})"
        self.add_argument("--places", type=digits, metavar="N", default=places, help=told)
        self.add_argument("--unit", default="", metavar="UNIT", help="the unit after each number, such as EUR")

    def add_mark(self) -> None:
        told = "the decimal mark (default: point)"
        self.add_argument("--decimal", dest="mark", choices=list(MARKS), default="point", help=told)

    def add_no_added(self) -> None:
        told = "leave out the marks at what each player adds to all others, for example if costs were filled in"
        self.add_argument("--no-added", dest="with_added", action="store_false", help=told)

    def add_cells(self, text: str = "with --csv") -> None:
        told = f"the decimal mark {text} (default: point); comma puts semicolons between cells"
        self.add_argument("--decimal", choices=list(MARKS), help=told)
        told = f"what separates cells {text} (default: comma, or semicolon)"
        self.add_argument("--sep", choices=[name for name in SEPARATORS if name != "blank"], help=told)
        told = f"begin {text} with a byte order mark; without it Excel spoils accents and Greek letters"
        self.add_argument("--bom", action="store_true", help=told)

    def add_over(self) -> None:
        told = "divide all amounts by N, for documents that were multiplied"
        self.add_argument("--over", type=factor, default=1, metavar="N", help=told)

    def add_sheet(self) -> None:
        """A file of numbers: how they are read and written, how the file is laid out, and its name."""
        told = "round each number to N decimals (default: exact)"
        self.add_argument("--digits", type=digits, metavar="N", help=told)
        self.add_argument("--head", action="store_true", help="the first row has headings")
        told = "the decimal mark (default: as the numbers show)"
        self.add_argument("--decimal", choices=list(MARKS), help=told)
        told = "what separates cells (default: what the file has)"
        self.add_argument("--sep", choices=list(SEPARATORS), help=told)
        told = "leave out the first N columns, such as row numbers"
        self.add_argument("--skip", type=columns, default=0, metavar="N", help=told)
        told = "multiply all numbers by one that makes them integers, and say by which"
        self.add_argument("--scaled", action="store_true", help=told)
        self.add_file()


def sheet_of(chosen: Any) -> tuple[str, Layout]:
    """The text of a file of numbers, and how it is laid out by the words."""
    return read_text(chosen.file)[0], Layout(chosen.sep, chosen.decimal, chosen.head, chosen.skip)


def cells_of(options: Options, chosen: Any, is_csv: bool) -> Cells:
    """How cells are written by the words, which speak of a CSV alone."""
    if not is_csv and (chosen.decimal or chosen.sep or chosen.bom):
        options.error("--decimal, --sep and --bom need --csv")
    return cells_named(chosen.sep, chosen.decimal, chosen.bom)


def whole(told: str, least: int, most: int) -> Callable[[str], int]:
    """How a word of a command line is read as a whole number between two."""

    def read(text: str) -> int:
        if not text.isascii() or not text.isdigit() or not least <= int(text) <= most:
            raise argparse.ArgumentTypeError(f"{text!r} isn't {told}")
        return int(text)

    return read


digits = whole(f"a number from 0 to {MOST_PLACES}", 0, MOST_PLACES)
columns = whole("a number of columns", 0, 999)
factor = whole("a whole number from 1 up", 1, 10**4000)


def style_of(chosen: Any) -> Style:
    encoded(chosen.unit, "the unit")
    return Style(chosen.places, apart(chosen.unit), MARKS[getattr(chosen, "mark", "point")])


def run(main: Callable[[Sequence[str]], Output]) -> None:
    """Runs a script: prints what it makes of its words, or one line of what is wrong, with status 2."""
    if hasattr(signal, "SIGPIPE"):
        signal.signal(signal.SIGPIPE, signal.SIG_DFL)  # a reader that stops early is no fault
    try:
        made = main(sys.argv[1:])
        text, status = made if isinstance(made, tuple) else (made, 0)
        with open(1, "w", encoding="utf-8", closefd=False) as output:
            output.write(text)
    except (CoopError, OSError) as fault:
        say(str(fault))
        sys.exit(2)
    except (ValueError, OverflowError) as fault:  # Python's own limits, as of 4,300 digits
        say(f"a number is too large to read or to show: {fault}")
        sys.exit(2)
    sys.exit(status)


def say(sentence: str) -> None:
    """One line on standard error. What the package tells of its arguments is told of a script's options."""
    for argument, option in OPTIONS.items():
        sentence = sentence.replace(argument, option)
    print(f"{os.path.basename(sys.argv[0])}: {visible(' '.join(sentence.split()))}", file=sys.stderr)


def say_all(sentences: Iterable[str]) -> None:
    for sentence in sentences:
        say(sentence)


def warn_of(names: Sequence[str]) -> None:
    """Says on standard error which names look alike or hide something."""
    sentence = warning(names)
    if sentence:
        say(sentence)


def documents_of(games: Iterable[Game], may_scale: bool) -> str:
    """The documents of games, one a line. What they were multiplied by is told; it has to be asked for."""
    lines, factors = [], set()
    looks: dict[Optional[str], None] = {}
    for game in games:
        if game.factor > 1 and not may_scale:
            raise BadInput(
                f"the numbers have the common denominator {game.factor}, above {MOST_SCALE}: round them (--digits 4), "
                "or multiply all by it (--scaled)"
            )
        looks[warning(game.names) if game.named else None] = None
        factors.add(game.factor)
        lines.append(game.document().decode() + "\n")
    if len(factors) > 1:
        raise BadInput("the games need different factors: give a number of digits, such as --digits 9")
    say_all(filter(None, looks))
    for factor in factors - {1}:
        say(f"all numbers were multiplied by {factor}: give the scripts that read the answers --over {factor}")
    return "".join(lines)
