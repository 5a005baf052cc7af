"""Tables as CSV: the sign between cells, the mark in front of decimals, and cells that no spreadsheet runs."""
from __future__ import annotations

import csv
import io
import re
from dataclasses import dataclass
from fractions import Fraction
from typing import Optional, Sequence

from ..sheets import MARKS, SEPARATORS
from ..styles import Style, decimal, steps_of


@dataclass(frozen=True)
class Cells:
    """How cells are written: the sign that stands between them, the mark in front of decimals, and whether the file
    begins with a byte order mark."""

    sign: str = ","
    mark: str = "."
    is_marked: bool = False

    def steps(self, steps: int, places: int) -> str:
        """So many steps of the last place as a decimal in plain digits."""
        return decimal(steps, places, "").replace(".", self.mark)

    def number(self, value: Fraction, style: Style) -> str:
        """A number for a spreadsheet: without separators of thousands, and without a unit."""
        return str(value) if style.places is None else self.steps(steps_of(value, style.places), style.places)


PLAIN = Cells()
"""Commas between cells, and points in front of decimals."""


def cells_named(separator: Optional[str], mark: Optional[str], is_marked: bool = False) -> Cells:
    """By the names that `sheets` has for both. With decimal commas semicolons stand between, where none is named."""
    usual = "semicolon" if mark == "comma" else "comma"
    return Cells(SEPARATORS[separator or usual], MARKS[mark or "point"], is_marked)


def csv_text(rows: Sequence[Sequence[str]], cells: Cells = PLAIN) -> str:
    """Rows as CSV. A name that a spreadsheet would take for a formula gets a quote in front."""
    output = io.StringIO()
    writer = csv.writer(output, delimiter=cells.sign, lineterminator="\n")
    writer.writerows([[plain(cell) for cell in row] for row in rows])
    return "\ufeff" * cells.is_marked + output.getvalue()


def plain(cell: str) -> str:
    is_number = cell == "-" or re.fullmatch(r"-?[0-9]+([.,/][0-9]+)?", cell)
    return "'" + cell if cell[:1] in ("=", "+", "-", "@") and not is_number else cell
