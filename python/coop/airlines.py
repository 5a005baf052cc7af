"""Lists of landings: of three columns, an airline, what a landing needs alone, and how many landings; or of four, as
airports have them and the page takes them: airline, type, how many landings, and what one needs.

Headings tell the columns in whatever order, by words in English, German and French. A landing of Aer's A320 is called
"Aer, A320 1", as the page calls it, so that airlines and types are told apart again.
"""
from __future__ import annotations

import re
import unicodedata
from dataclasses import replace
from fractions import Fraction
from typing import Collection, NamedTuple, Optional, Sequence

from .errors import BadInput
from .sheets import AS_SEEN, LEFT_OUT, Layout, Row, Sheet, amount_of, are_counted, cells_at, hint_at, marked
from .sheets import note_on_points, once_each, require_layout, require_width, sheet_of, unparted

AIRLINE, TYPE, COUNT, NEED = "airline", "type", "landings", "need"
THREE, FOUR = (AIRLINE, NEED, COUNT), (AIRLINE, TYPE, COUNT, NEED)
EXAMPLE = "Aer,20.50,3 or Aer,A320,3,20.50"
ORDER = "four columns are airline, type, landings and need, unless headings name another order (Layout(has_head=True))"
MOST_COLUMNS = 64  # below headings

# Words in headings. What is called a cost or a need isn't looked at for another word.
WORDS = {
    NEED: r"cost|need|price|fees?\b|charge|amount|kosten|preis|betrag|gebühr|bedarf|coût|cout|prix|montant",
    TYPE: "typ|aircraft|flugzeug|muster|avion|appareil",
    COUNT: "landings|flights|movements|number|count(?!r)|landungen|flüge|anzahl|atterri|vols|mouvements|nombre",
    AIRLINE: "airline|carrier|company|name|gesellschaft|compagnie|transporteur",
}


class Landings(NamedTuple):
    """A row of a list: its line, the airline, the type or nothing, what a landing needs alone, and how many."""

    line: int
    airline: str
    type: str
    need: Fraction
    landings: int

    @property
    def name(self) -> str:
        """What the landings of the row are called, in front of their numbers."""
        return f"{self.airline}, {self.type}" if self.type else self.airline


class Found(NamedTuple):
    """A sheet, and the place of each column in it; `is_told` says that headings tell which it is."""

    sheet: Sheet
    places: dict[str, int]
    is_told: bool


def landings_in(text: str, *, digits: Optional[int] = None, layout: Layout = AS_SEEN) -> list[Landings]:
    """The rows of a list. `games.landings` and `runways` take the name, the need and the landings of each."""
    found = found_in(text, layout)
    rows = marked_by_need(found, layout)
    read = [landings_of(row, found, digits, hint_at(row, rows, layout)) for row in rows]
    if len(read) > 1 and not found.is_told and max(row.need for row in read) < min(row.landings for row in read):
        asked = f"are {read[0].landings} the landings of {read[0].name}, and does one need {read[0].need}?"
        raise BadInput(f"{asked} Name the columns by headings: airline, landings, need (Layout(has_head=True))")
    require_told_apart(read, has_types=TYPE in found.places)
    return read


# ---- Columns


def found_in(text: str, layout: Layout) -> Found:
    require_layout(layout)
    widths: Collection[int] = range(3, MOST_COLUMNS + 1) if layout.has_head else (3, 4)
    sheet = sheet_of(text, widths, layout)
    if not sheet.has_width(widths) and sheet_of(text, range(3, MOST_COLUMNS + 1), layout).is_named:
        return found_in(text, replace(layout, has_head=True))
    width = len(sheet.rows[0].cells) if sheet.rows else 0
    places = places_by(sheet.head[:width])
    if {AIRLINE, COUNT, NEED}.issubset(places) and width in widths:
        require_width(sheet, (width,), EXAMPLE)
        return Found(sheet, places, True)
    require_width(sheet, (3, 4), f"{EXAMPLE}, or name the columns of a longer list by headings (Layout(has_head=True))")
    free = [k for k in range(width) if k not in places.values()]
    keys = [key for key in (THREE if width == 3 else FOUR) if key not in places]
    found = Found(sheet, {**places, **dict(zip(keys, free))}, False)
    lacking = [key for key in (AIRLINE, COUNT, NEED) if key not in found.places]
    if lacking:
        raise BadInput(f"no heading names the column of {lacking[0]}: {', '.join(sheet.head)}")
    if width == 4:
        require_plain_order(found, free)
    return found


def places_by(head: Sequence[str]) -> dict[str, int]:
    """Which column each heading tells; of two for the same the first."""
    places: dict[str, int] = {}
    for k, heading in enumerate(head):
        key = key_of(unicodedata.normalize("NFC", heading))
        if key:
            places.setdefault(key, k)
    return places


def key_of(heading: str) -> Optional[str]:
    """What a heading names, by its words or a sign of money."""
    if any(unicodedata.category(letter) == "Sc" for letter in heading):
        return NEED
    return next((key for key, words in WORDS.items() if re.search(words, heading, re.IGNORECASE)), None)


def require_plain_order(found: Found, free: Sequence[int]) -> None:
    """Refuses four columns that are three with something else in between, where no heading tells the free ones."""
    sheet = found.sheet
    first, second, third, last = ([row.cells[k] for row in sheet.rows] for k in range(4))
    line = sheet.rows[0].line
    if 0 in free and are_counted(first):
        raise BadInput(f"line {line}: is {first[0]} the number of the row? Then use Layout(skip=1)")
    if len(free) == 4 and sheet.sign == "," and all(cell.isdigit() for cell in [*second, *third, *last]):
        both = f"{second[0]},{third[0]}"
        advice = f"write semicolons between cells; or if {second[0]} is a type, name the columns by headings"
        raise BadInput(f"line {line}: is {both} one number, with a decimal comma? Then {advice}")


# ---- Rows


def marked_by_need(found: Found, layout: Layout) -> list[Row]:
    """The rows, with the mark in front of decimals that what is needed shows."""
    rows = found.sheet.rows
    return marked(rows, cells_at(rows, found.places[NEED]), found.sheet.sign, layout)


def landings_of(row: Row, found: Found, digits: Optional[int], hint: str) -> Landings:
    cells = {key: row.cells[place] for key, place in found.places.items()}
    if not cells[AIRLINE]:
        raise BadInput(f"line {row.line} has no name")
    count = re.fullmatch(r"([0-9]{1,9})(?:[.,]0{1,2})?", unparted(cells[COUNT]))
    if not count:
        order = f"; {ORDER}" * (len(row.cells) == 4 and not found.is_told)
        raise BadInput(f"line {row.line}: {cells[COUNT]} isn't a number of landings{order or hint}")
    need = amount_of(row, found.places[NEED], digits, hint)
    return Landings(row.line, cells[AIRLINE], cells.get(TYPE, ""), need, int(count[1]))


def require_told_apart(read: Sequence[Landings], has_types: bool) -> None:
    """Refuses rows whose airline and type their name doesn't tell; without types a name that stands twice."""
    for row in read:
        if "," in row.type:
            raise BadInput(f"line {row.line}: the type {row.type} has a comma, which separates airline and type")
        if has_types and not row.type and ", " in row.airline:
            raise BadInput(f"line {row.line}: {row.airline} has a comma but no type, which a comma separates")
    if not has_types:
        advice = "; if it has several kinds of landing, give their types: Aer,A320,3,20.50"
        once_each(((row.line, row.airline, row.airline) for row in read), advice)


# ---- Warnings


def remarks(text: str, layout: Layout) -> list[str]:
    """What is told beside a list: which columns were left out, how numbers are read that may be meant otherwise, and
    whether the last row may be the sum."""
    found, read = found_in(text, layout), landings_in(text, layout=layout)
    told = [LEFT_OUT] * found.sheet.is_named
    rows = marked_by_need(found, layout)
    told += note_on_points(rows[0].mark, [row.cells[found.places[NEED]] for row in rows], layout)
    others = [name for k, name in enumerate(found.sheet.head) if k not in found.places.values()]
    if others:
        told.append(f"left out these columns: {', '.join(name or 'a column without a heading' for name in others)}")
    if found.sheet.head and not found.is_told:
        columns = sorted(found.places, key=lambda key: found.places[key])
        told.append(f"the columns are read as {', '.join(columns)}: not all headings are known")
    elif TYPE in found.places and not found.is_told and all(row.need >= 1 and row.need % 1 == 0 for row in read):
        told.append(f"{read[0].landings} is read as landings, and {read[0].need} as what one needs: {ORDER}")
    parted = next((row.airline for row in read if ", " in row.airline), None)
    if TYPE not in found.places and parted:
        told.append(f"{parted} has a comma, and `shares --by` reads what follows it as a type: use --together")
    last = read[-1]
    if len(read) > 2 and last.landings == sum(row.landings for row in read[:-1]):
        asked = "is that the row of the sum? It counts as an airline"
        told.append(f"{last.name} has as many landings as all others: {asked}")
    return told
