"""Shares as tables: names, fractions, and decimals that add to the rounded sum; and as CSV."""
from __future__ import annotations

import unicodedata
from dataclasses import replace
from fractions import Fraction
from typing import Callable, Collection, NamedTuple, Optional, Sequence

from .cells import PLAIN, Cells, csv_text
from .documents import Point
from ..errors import BadInput
from ..names import END_OF_ISOLATE, ISOLATE, is_from_the_right, row_of, safe
from ..styles import Style, decimal, rounded, steps_of

DECIMALS = 2
MOVED = "Decimals are rounded so that they add up: a last place may be one off, and equals may differ.\n"
MOVED_BY = """\
Decimals are rounded so that they add up: first each airline's sum, then its rows. All are rounded down,
and what lacks goes by last places to who lost most by that, among equals to the upper row.
"""


class Line(NamedTuple):
    """A line of a table: its name, and the places of those whose shares it adds."""

    name: str
    members: list[int]


def width(text: str) -> int:
    """How many columns a text takes in a terminal."""
    return sum(2 if unicodedata.east_asian_width(c) in "WF" else not unicodedata.combining(c) for c in text)


def longest(texts: Sequence[str]) -> int:
    return max(map(width, texts))


def lines_of(names: Sequence[str], owners: Optional[Sequence[str]] = None) -> list[Line]:
    """The lines of a table: each name, the sum of an owner with several after the last of these, and that of all."""
    lines, own = [], members_by(owners or [])
    for i, name in enumerate(names):
        lines.append(Line(safe(name), [i]))
        others = own[owners[i]] if owners else []
        if owners and len(others) > 1 and others[-1] == i:
            told = f"{owners[i]}, together"
            lines.append(Line(safe(f"{owners[i]}, all together" if told in names else told), others))
    return [*lines, Line("all together" if "together" in names else "together", list(range(len(names))))]


def members_by(owners: Sequence[str]) -> dict[str, list[int]]:
    found: dict[str, list[int]] = {}
    for i, owner in enumerate(owners):
        found.setdefault(owner, []).append(i)
    return found


def column_of(point: Point, style: Style, lines: Sequence[Line], owners: Optional[Sequence[str]] = None) -> list[str]:
    """The column of one point: its name, and a number for each line."""
    places = DECIMALS if style.places is None else style.places
    steps = steps_for(point, places, owners)
    exact = [str(sum((point.shares[i] for i in line.members), Fraction(0))) for line in lines]
    decimals = [decimal(sum(steps[i] for i in line.members), places) + style.behind for line in lines]
    wide, narrow = longest(exact), longest(decimals)
    return [point.name, *(f"{e:>{wide}}  {d:>{narrow}}" for e, d in zip(exact, decimals))]


def steps_for(point: Point, places: int, owners: Optional[Sequence[str]] = None) -> list[int]:
    """The shares in steps of the last place, so that they add up; of a change the differences of those beside it."""

    def steps(shares: Sequence[Fraction]) -> list[int]:
        return rounded(shares, places) if owners is None else rounded_by(owners, shares, places)

    if point.between is None:
        return steps(point.shares)
    before, after = map(steps, point.between)
    return [last - first for first, last in zip(before, after)]


def rounded_by(owners: Sequence[str], shares: Sequence[Fraction], places: int) -> list[int]:
    """The shares in steps of the last place: first the sums of the owners, so that these add to the rounded whole, and
    then what each owner has, so that it adds to that sum."""
    own = list(members_by(owners).values())
    parts = [[shares[i] for i in some] for some in own]
    wholes = rounded([sum(part, Fraction(0)) for part in parts], places)
    steps = [0] * len(shares)
    for some, part, whole in zip(own, parts, wholes):
        for i, step in zip(some, rounded(part, places, whole)):
            steps[i] = step
    return steps


def note_on(points: Sequence[Point], style: Style, owners: Optional[Sequence[str]] = None) -> str:
    """What is said where a decimal isn't the nearest one, since all have to add up; else nothing."""
    places = DECIMALS if style.places is None else style.places
    pairs = (pair for point in points for pair in zip(steps_for(point, places, owners), point.shares))
    if all(step == steps_of(share, places) for step, share in pairs):
        return ""
    return MOVED if owners is None else MOVED_BY


def aligned(rows: Sequence[Sequence[str]], left: Collection[int] = (0,)) -> str:
    """Rows of texts below each other, some columns to the left and the others to the right."""
    lines, widths = [], [longest(column) for column in zip(*rows)]
    for row in rows:
        cells = []
        for k, cell in enumerate(row):
            blanks = " " * (widths[k] - width(cell))
            shown = f"{ISOLATE}{cell}{END_OF_ISOLATE}" if is_from_the_right(cell) else cell
            cells.append(shown + blanks if k in left else blanks + shown)
        lines.append("  ".join(cells).rstrip() + "\n")
    return "".join(lines)


def shares_table(
    names: Sequence[str], points: Sequence[Point], style: Style, owners: Optional[Sequence[str]] = None
) -> str:
    """A table of the shares of some points; where names have owners, with the sum of each that has several."""
    lines = lines_of(names, owners)
    columns = [column_of(point, style, lines, owners) for point in points]
    rows = list(zip(["", *(line.name for line in lines)], *columns))
    return aligned(rows) + note_on(points, style, owners)


def shares_csv(
    names: Sequence[str],
    points: Sequence[Point],
    style: Style,
    owners: Optional[Sequence[str]] = None,
    cells: Cells = PLAIN,
    has_exact: bool = True,
) -> str:
    """The same as CSV, without sums: for each point a column of fractions, unless these are left out, and one of
    decimals, in plain digits."""
    places = DECIMALS if style.places is None else style.places
    head, columns = ["player"], []
    for point in points:
        if has_exact:
            head.append(point.name)
            columns.append([str(share) for share in point.shares])
        head.append(f"{point.name} rounded" + (f", {style.unit}" if style.unit else ""))
        columns.append([cells.steps(step, places) for step in steps_for(point, places, owners)])
    return csv_text([head, *zip(map(safe, names), *columns)], cells)


def put_together(
    names: Sequence[str], points: Sequence[Point], owner: Callable[[str], str] = row_of
) -> tuple[list[str], list[Point]]:
    """Players of one owner as one, with the sum of their shares. Unless told otherwise, Aer 1 and Aer 2 have one."""
    own = members_by([owner(name) for name in names])
    sums = [[sum((point.shares[i] for i in some), Fraction(0)) for some in own.values()] for point in points]
    return list(own), [replace(point, shares=shares) for point, shares in zip(points, sums)]


def of_those_who_stay(points: Sequence[Point]) -> tuple[list[str], list[Point], list[str]]:
    """The names of those whom all games have, with their shares; and the names of the others. Players without names
    are the same in all, and are called by their numbers."""
    lists = [point.game.names for point in points if point.game]
    if not lists:
        return [str(i + 1) for i in range(len(points[0].shares))], list(points), []
    stay = [name for name in lists[0] if all(name in names for names in lists)]
    others = dict.fromkeys(name for names in lists for name in names if name not in stay)
    if not stay:
        raise BadInput("no player is in all the games")
    result = []
    for point in points:
        names = point.game.names if point.game else lists[0]
        result.append(replace(point, shares=[point.shares[names.index(name)] for name in stay]))
    return stay, result, list(others)


def change(points: Sequence[Point]) -> Point:
    """What each gets more by the last point than by the first."""
    if len(points) < 2:
        raise BadInput("--change needs two divisions, and there is one")
    shares = [last - first for first, last in zip(points[0].shares, points[-1].shares)]
    return Point("change", shares, points[-1].game, (points[0].shares, points[-1].shares))


def divided(points: Sequence[Point], by: Optional[int]) -> list[Point]:
    return [replace(point, shares=[share / (by or 1) for share in point.shares]) for point in points]
