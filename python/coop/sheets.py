"""Rows of CSV as programs save them: which sign stands between cells, which in front of decimals, and what is a head.

A file with tabs or semicolons may have decimal commas; one with commas has points, unless its numbers stand in quotes.
Where the numbers of a file don't tell which, as 480.000, the mark has to be named. A first column with the names or the
numbers of rows, below an empty corner, is left out, and so are columns behind that are empty.
"""
from __future__ import annotations

import csv
import io
import os
import re
import unicodedata
from dataclasses import dataclass, replace
from fractions import Fraction
from typing import Any, Collection, Hashable, Iterable, Iterator, NamedTuple, Optional, Sequence, TypeVar

from .amounts import fraction_of, is_truth, whole_of
from .errors import BadInput
from .vectors import groups_in

SEPARATORS = {"tab": "\t", "semicolon": ";", "comma": ",", "blank": " "}
MARKS = {"point": ".", "comma": ","}
OTHER = {".": ",", ",": "."}
NUMBER = re.compile(r"-?([0-9]+)((?:[.,][0-9]+)+)(?:[eE][-+]?[0-9]+)?")
PARTED = re.compile(r"-?[0-9]{1,3}(?:([ \u00a0\u2009\u202f'\u2019])[0-9]{3})(?:\1[0-9]{3})*(?:[.,][0-9]+)?")
WHOLE = re.compile(r"-?[0-9]+(?:/[0-9]+)?")
FILE = re.compile(r"[^,;\t\n]*\.[A-Za-z]\w*")
HEAD = "; if this line has headings, use Layout(has_head=True)"
UNIT = "; leave out units and currency signs"
LEFT_OUT = "left out the first row and the first column, which have names"


Key = TypeVar("Key", bound=Hashable)
Cell = tuple[str, str]
"""Where a number stands, as "line 3" or "the estate", and its text."""


class Row(NamedTuple):
    """A row of a file: its line's number, its cells, and the mark in front of decimals."""

    line: int
    cells: list[str]
    mark: str = "."


class Sheet(NamedTuple):
    """The rows of a file below its headings, without columns that are left out; the sign between cells; and whether
    names of rows were left out unasked."""

    head: list[str]
    rows: list[Row]
    sign: str
    is_named: bool

    def has_width(self, widths: Collection[int]) -> bool:
        """Whether all rows have the same number of cells, one of these."""
        counts = {len(row.cells) for row in self.rows}
        return len(counts) == 1 and counts.issubset(widths)


@dataclass(frozen=True)
class Layout:
    """What is told of a file: the names of the sign between cells and of the decimal mark, whether the first row has
    headings, and how many columns in front are left out."""

    separator: Optional[str] = None
    decimal: Optional[str] = None
    has_head: bool = False
    skip: int = 0

    def __post_init__(self) -> None:
        for given, names in ((self.separator, SEPARATORS), (self.decimal, MARKS)):
            if given is not None and given not in names:
                raise BadInput(f"{given!r} isn't a word for a sign: name one of {', '.join(names)}")
        if not is_truth(self.has_head) or (whole_of(self.skip) or 0) < 0 or whole_of(self.skip) is None:
            raise BadInput(f"`has_head` is True or False, and `skip` a number of columns, and not {self!r}")


AS_SEEN = Layout()
"""All as the file shows it, and no headings."""


# ---- Rows


def cells_of(text: str, separator: str) -> Iterator[Row]:
    """The rows of a text, also empty ones. A break within quotes stays in its cell."""
    reader = csv.reader(io.StringIO(text, newline=""), delimiter=separator, skipinitialspace=separator == " ")
    try:
        for cells in reader:
            yield Row(reader.line_num, [cell.strip() for cell in cells])
    except csv.Error as fault:
        raise BadInput(f"line {reader.line_num}: {fault}") from None


def told_sign(text: str) -> tuple[str, Optional[str]]:
    """The text, and the sign between cells where a first line names it, as Excel's "sep=;", which is emptied then."""
    match = re.match(r'"?sep=(.)"?\r?\n', text, re.IGNORECASE)
    return ("\n" + text[match.end() :], match[1]) if match else (text, None)


def require_layout(layout: Any) -> None:
    if not isinstance(layout, Layout):
        raise BadInput(f"{layout!r} isn't a layout: make one by coop.sheets.Layout(..)")


def signs_in(text: str, layout: Layout, may_be_blank: bool) -> tuple[str, list[str]]:
    """The text, and the signs that may stand between its cells, the likeliest first."""
    require_layout(layout)
    if isinstance(text, os.PathLike) or isinstance(text, str) and (FILE.fullmatch(text) or os.path.isfile(text)):
        raise BadInput(f"{str(text)!r} is the name of a file: give its text, such as open({str(text)!r}).read()")
    if not isinstance(text, str):
        raise BadInput(f"a {type(text).__name__} isn't the text of a file: give open(..).read(), or decode bytes")
    text, told = told_sign(text.removeprefix("\ufeff"))
    if layout.separator or told:
        return text, [SEPARATORS[layout.separator] if layout.separator else told or ","]
    bare = re.sub(r'"[^"\n]*"', "", text)
    there = [sign for sign in SEPARATORS.values() if sign in bare and (may_be_blank or sign != " ")]
    return text, there or [","]


def sheet_of(text: str, widths: Collection[int], layout: Layout) -> Sheet:
    """A text by the first sign by which all rows have one of these numbers of cells, or else by the first there is."""
    text, signs = signs_in(text, layout, False)
    sheets = [parted(text, sign, widths, layout) for sign in signs]
    return next((sheet for sheet in sheets if sheet.has_width(widths)), sheets[0])


def parted(text: str, sign: str, widths: Collection[int], layout: Layout) -> Sheet:
    rows = [row for row in cells_of(text, sign) if any(row.cells)]
    counted = rows[1:] if layout.has_head else rows
    most = max((k + 1 for row in counted for k, cell in enumerate(row.cells) if cell), default=0)
    rows = [row._replace(cells=row.cells[:most]) for row in rows]
    is_named = not layout.skip and has_names(rows, widths)
    skip = layout.skip or int(is_named)
    head, below = (rows[:1], rows[1:]) if layout.has_head or is_named else ([], rows)
    return Sheet(
        [cell for row in head for cell in row.cells[skip:]],
        [row._replace(cells=row.cells[skip:]) for row in below],
        sign,
        is_named,
    )


def has_names(rows: Sequence[Row], widths: Collection[int]) -> bool:
    """Whether a first column has the names of rows, as R and pandas save them: below an empty corner, beside which
    headings stand, and with it there is one column more than belongs there."""
    if len(rows) < 2:
        return False
    first, width = rows[0].cells, len(rows[0].cells)
    if width - 1 not in widths or first[0] or any(len(row.cells) != width for row in rows):
        return False
    counted = [str(i) for i in range(width - 1)]
    return first[1:] == counted or not any(is_number(cell) for cell in first[1:])


def is_number(cell: str) -> bool:
    """Whether a cell has a number, and no word."""
    return bool(WHOLE.fullmatch(unparted(cell)) or NUMBER.fullmatch(unparted(cell)))


def are_counted(cells: Sequence[str]) -> bool:
    """Whether cells count rows: 1, 2, 3 or 0, 1, 2."""
    return len(cells) > 1 and any(list(cells) == [str(i + k) for i in range(len(cells))] for k in (0, 1))


def without_names(rows: list[Row], layout: Layout) -> tuple[list[Row], Layout, list[str]]:
    """The rows without a head, which is a first row without a number, and without a first column of names where the
    head has no word above it, as R and pandas save them, or where the other headings name the groups; the layout that
    was found, and the headings."""
    first, second = ([row.cells for row in rows] + [[]] * 2)[:2]
    if second and len(first) + 1 == len(second):
        first = ["", *first]
    has_words = len(first) > 1 and not any(map(is_number, first))
    skips = [skip for skip in (layout.skip, layout.skip or 1) if has_words and first[2:] and groups_in(first[skip:])]
    skips = [layout.skip or 1] if first[:1] == [""] else skips
    if second and (skips or has_words):
        if skips > [layout.skip]:
            require_no_group(first[0], first[1:])
        layout = replace(layout, has_head=True, skip=[*skips, layout.skip][0])
    kept = rows[1:] if layout.has_head else rows
    below = [Row(row.line, row.cells[layout.skip :]) for row in kept]
    return below, layout, first[layout.skip :] if layout.has_head else []


def require_no_group(heading: str, others: Sequence[str]) -> None:
    """Refuses to leave out a column whose heading names a group of the other headings."""
    names, _ = groups_in(others) or ([], [])
    if heading and any({part.strip() for part in parts} <= {*names} for parts in (heading.split("+"), heading)):
        raise BadInput(f"the group {heading} has two columns: name each group once, and a column of names otherwise")


def require_width(sheet: Sheet, widths: Collection[int], example: str) -> None:
    """Refuses a sheet that has no rows, or a row of another number of cells."""
    if not sheet.rows:
        raise BadInput("the file has no lines")
    for row in sheet.rows:
        if len(row.cells) not in widths or len(row.cells) != len(sheet.rows[0].cells):
            count = "1 column" if len(row.cells) == 1 else f"{len(row.cells)} columns"
            width = len(sheet.rows[0].cells)
            wanted = width if width in widths else " or ".join(map(str, widths))
            advice = advice_on_width(sheet, row, example)
            raise BadInput(f"line {row.line} has {count} instead of {wanted}: {advice}")
        if sheet.sign == "," and re.search(r";\s*-?[0-9.]*$", row.cells[0]):
            raise BadInput(f"line {row.line} has a semicolon: write {example}, or use semicolons in all lines")


def advice_on_width(sheet: Sheet, row: Row, example: str) -> str:
    """What may be done about a row of another number of cells."""
    firsts = [other.cells[0] for other in sheet.rows if other.cells]
    if are_counted(firsts) or are_counted(firsts[1:]):
        return "is the first one the number of the row? Then leave it out with Layout(skip=1)"
    if sheet.sign == "," and len(row.cells) > 2 and all(cell.isdigit() for cell in row.cells[-2:]):
        both = ",".join(row.cells[-2:])
        return f"is {both} one number, with a decimal comma? Then write semicolons between cells"
    skip = ", or leave out the first columns with Layout(skip=..)" * (len(row.cells) > 2)
    return f"write {example}, or the same with semicolons or tabs{skip}"


def fixed_rows(text: str, columns: int, example: str, layout: Layout, beside: Sequence[Cell] = ()) -> list[Row]:
    """The rows of a text, each of so many cells, as the example has them, with the number in the second. What is given
    beside the file, as an estate, tells the mark in front of decimals too."""
    sheet = sheet_of(text, (columns,), layout)
    require_width(sheet, (columns,), example)
    return marked(sheet.rows, cells_at(sheet.rows, 1), sheet.sign, layout, beside)


def rows_of_numbers(text: str, layout: Layout) -> tuple[list[Row], Layout, list[str]]:
    """The rows of a text that has only numbers, how it is laid out, and its headings: names in front are left out."""
    text, signs = signs_in(text, layout, True)
    every = list(cells_of(text, signs[0]))
    kept = [row for row in every if any(row.cells)]
    rows, found, head = without_names(kept, layout)
    if not rows:
        raise BadInput("the file has no lines")
    for row in every:
        if not any(row.cells) and (len(row.cells) > 1 or kept[0].line < row.line < kept[-1].line):
            raise BadInput(f"line {row.line} has no numbers: leave it out of the file, or no later row keeps its place")
    for row in rows:
        if len(row.cells) != len(rows[0].cells):
            told = f"line {row.line} has {len(row.cells)} numbers, and line {rows[0].line} has {len(rows[0].cells)}"
            raise BadInput(f"{told}: write games of another size into a file of their own")
    cells = [(f"line {row.line}", cell) for row in rows for cell in row.cells]
    return marked(rows, cells, signs[0], layout), found, head


def once_each(items: Iterable[tuple[int, Key, str]], advice: str = "") -> dict[Key, int]:
    """The line of each key. One that stands twice is refused, by its words."""
    lines: dict[Key, int] = {}
    for line, key, words in items:
        if key in lines:
            raise BadInput(f"line {line}: {words} is already in line {lines[key]}{advice}")
        lines[key] = line
    return lines


# ---- Decimals


def cells_at(rows: Iterable[Row], place: int) -> list[Cell]:
    return [(f"line {row.line}", row.cells[place]) for row in rows]


def marked(
    rows: Sequence[Row], cells: Sequence[Cell], sign: str, layout: Layout, beside: Sequence[Cell] = ()
) -> list[Row]:
    """The rows with the mark in front of decimals, which the numbers tell that stand in these cells and beside them."""
    if layout.decimal:
        mark = MARKS[layout.decimal]
    else:
        has_points = sign == "," and not any("," in cell for _, cell in cells)
        is_told = not has_points or any(NUMBER.fullmatch(unparted(cell)) for _, cell in beside)
        mark = mark_in([*cells, *beside]) if is_told else "."
    return [Row(row.line, row.cells, mark) for row in rows]


def mark_in(cells: Sequence[Cell]) -> str:
    """The mark in front of decimals that the numbers tell; a refusal where they tell two, or none surely."""
    found: dict[str, Cell] = {}
    unsure: Optional[Cell] = None
    for place, cell in cells:
        match = NUMBER.fullmatch(unparted(cell))
        mark = told_by(match[1], match[2]) if match else None
        if mark:
            found.setdefault(mark, (place, cell))
        elif match:
            unsure = unsure or (place, cell)
    if len(found) > 1:
        (a, one), (b, other) = found.values()
        raise BadInput(f"{one} in {a} and {other} in {b} have different decimal marks")
    if not found and unsure:
        place, cell = unsure
        part, whole = two_ways(cell)
        advice = "name the decimal mark (Layout(decimal=..), point or comma)"
        raise BadInput(f"{place}: {cell} may be {part} or {whole}: {advice}")
    return next(iter(found), ".")


def two_ways(cell: str) -> tuple[str, str]:
    """A number whose one mark stands in front of three digits, by that as a decimal and as a whole number."""
    return cell.replace(",", ".").rstrip("0").rstrip("."), re.sub("[.,]", "", cell)


def told_by(first: str, rest: str) -> Optional[str]:
    """Which mark stands in front of the decimals of a number of its digits and what follows them, or None."""
    marks = [sign for sign in rest if sign in OTHER]
    last = len(re.split("[.,]", rest)[-1])
    if len(set(marks)) > 1:
        return marks[-1]
    if len(marks) > 1:
        return OTHER[marks[0]]
    return None if last == 3 and len(first) < 4 and first[0] != "0" else marks[0]


def hint_at(row: Row, rows: Sequence[Row], layout: Layout) -> str:
    """What may be wrong with a first row, where headings weren't told."""
    return HEAD if row is rows[0] and not layout.has_head else ""


def amount_of(row: Row, place: int, digits: Optional[int], hint: str = "") -> Fraction:
    try:
        return by_mark(row.cells[place], row.mark, digits)
    except BadInput as fault:
        raise BadInput(f"line {row.line}: {fault}{UNIT if has_unit(row.cells[place]) else hint}") from None


def has_unit(cell: str) -> bool:
    """Whether a cell begins as a number and has a letter or a sign of money."""
    begins = re.match(r"\W*[0-9]", cell)
    return begins is not None and any(letter.isalpha() or unicodedata.category(letter) == "Sc" for letter in cell)


def unparted(cell: str) -> str:
    """A number without the blanks or apostrophes between its thousands, and with a minus that programs know."""
    bare = cell.replace("\u2212", "-")
    match = PARTED.fullmatch(bare)
    return bare.replace(match[1], "") if match else bare


def by_mark(cell: str, mark: str, digits: Optional[int]) -> Fraction:
    cell, other = unparted(cell), OTHER[mark]
    if re.fullmatch(rf"-?[0-9]{{1,3}}([{other}][0-9]{{3}})+([{mark}][0-9]+)?", cell):
        cell = cell.replace(other, "")
    elif mark == "," and "." in cell:
        raise BadInput(f"{cell!r} isn't a number with a decimal comma")
    return fraction_of(cell.replace(",", ".") if mark == "," else cell, digits)


# ---- Warnings


def notes(text: str, columns: int, layout: Layout, beside: Sequence[Cell] = ()) -> list[str]:
    """What a reader may have meant otherwise: names of rows that were left out, points in front of three decimals, and
    a last row that has the sum."""
    rows = fixed_rows(text, columns, "", layout, beside)
    told = [LEFT_OUT] * sheet_of(text, (columns,), layout).is_named
    told += note_on_points(rows[0].mark, [row.cells[1] for row in rows], layout)
    amounts = [amount_of(row, 1, None) for row in rows]
    if len(rows) > 2 and "+" not in rows[-1].cells[0] and sum(amounts[:-1]) == amounts[-1]:
        told.append(f"{rows[-1].cells[0]} has the sum of all others: is that the row of the sum? It counts as a player")
    return told


def note_on_points(mark: str, cells: Sequence[str], layout: Layout) -> list[str]:
    """What is told where all points stand in front of three decimals, and nobody has named the mark."""
    pointed = [cell for cell in cells if "." in cell]
    is_told = mark == "." and not layout.decimal and pointed
    if not is_told or not all(re.fullmatch(r"-?[1-9][0-9]{0,2}\.[0-9]{3}", cell) for cell in pointed):
        return []
    return [f"{pointed[0]} is read as {fraction_of(pointed[0])}: the point is the decimal mark"]
