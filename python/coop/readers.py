"""Games from CSV: a line for each group, a game a row, a line for each claim, a line for each airline.

Cells stand between commas, semicolons or tabs; a `layout` says what the file doesn't show (`sheets`).
"""
from __future__ import annotations

from fractions import Fraction
from typing import Any, Iterator, NamedTuple, Optional, Sequence

from . import filling, games
from .amounts import KEPT, require_kept
from .airlines import landings_in
from .amounts import require_no_sum
from .classes import CLASSES
from .errors import BadInput
from .game import Game, require_table
from .masks import mask_of, members
from .names import looks, shown
from .sheets import AS_SEEN, LEFT_OUT, Cell, Layout, Row, amount_of, are_counted, by_mark, fixed_rows, hint_at
from .sheets import once_each, rows_of_numbers
from .vectors import groups_in, in_mask_order

MOST_CLAIMS = CLASSES["bankruptcy"]["players"][1]
SKIP = "; if the first column has names, use Layout(skip=1)"


# ---- A line for each group


class Costed(NamedTuple):
    """The game of a file, what was filled in, and by masks the numbers that were given, and their lines."""

    game: Game
    filled: list[filling.Filled]
    given: dict[int, Fraction]
    lines: dict[int, int]


def groups(
    text: str,
    *,
    kind: str = "cost-table",
    fill: bool = False,
    within: bool = False,
    digits: Optional[int] = None,
    layout: Layout = AS_SEEN,
) -> Costed:
    """A table from lines of a group, its members with + between them, and its number: Sales+Ops,12.50. Each group
    stands once; with `fill`, one that doesn't costs what its cheapest split into groups that do costs, and with
    `within` no more than by the works of larger groups."""
    found = fixed_rows(text, 2, "Sales+Ops,12.50", layout)
    rows = [(row, members_of(row), amount_of(row, 1, digits, hint_at(row, found, layout))) for row in found]
    names = names_of([(row, group) for row, group, _ in rows])
    masks = [mask_of(map(names.index, group)) for _, group, _ in rows]
    lines = once_each((row.line, mask, "+".join(group)) for mask, (row, group, _) in zip(masks, rows))
    amounts = dict(zip(masks, (amount for _, _, amount in rows)))
    try:
        filled = missing_groups(amounts, names, fill or within, within)
    except BadInput as fault:
        raise BadInput(f"{fault}{no_player(rows, names)}") from None
    everything = {**amounts, **{item.group: item.amount for item in filled}}
    sparse = [([names[i] for i in members(group)], everything[group]) for group in everything]
    game = games.made(kind, {"players": len(names), "sparse": sparse}, names, digits=digits)
    return Costed(game, filled, amounts, lines)


def members_of(row: Row) -> list[str]:
    group = [member.strip() for member in row.cells[0].split("+")]
    if "" in group or len(set(group)) < len(group):
        raise BadInput(f"line {row.line}: a member of {row.cells[0]} has no name, or is there twice")
    return group


def names_of(rows: Sequence[tuple[Row, list[str]]]) -> list[str]:
    """The players, in the order of the lines that have one alone."""
    names = list(dict.fromkeys(group[0] for _, group in rows if len(group) == 1))
    for row, group in rows:
        for member in group:
            if member not in names:
                raise BadInput(f"line {row.line}: no line has the cost of {member} alone{look_alike(member, names)}")
    require_table(len(names))
    return games.checked_names(names)


def look_alike(member: str, names: Sequence[str]) -> str:
    """For which of the names a member may be meant: one that looks like it, or that differs in capitals alone."""
    near = next((name for name in names if name.casefold() == member.casefold()), None)
    if near:
        return f", but one has {near}: is that the same player?"
    for name in names:
        if looks(name) == looks(member):
            return f", but one has {shown(name)}, which looks like it ({shown(member)}): is that the same player?"
    return ""


def missing_groups(
    amounts: dict[int, Fraction], names: Sequence[str], fill: bool, within: bool
) -> list[filling.Filled]:
    """What is filled in for groups without a line, or a refusal that names the first of them."""
    everyone = 2 ** len(names) - 1
    missing = [group for group in range(1, everyone + 1) if group not in amounts]
    if fill and everyone in amounts:
        return filling.cheapest(amounts, missing, within)
    if missing:
        first = missing[-1] if fill else missing[0]
        others = f", and {len(missing) - 1} more groups" * (len(missing) > 1)
        others += " (fill=True takes the cheapest split)"
        advice = ": the cost of all together can't be filled in" if fill else others
        raise BadInput(f"{'+'.join(names[i] for i in members(first))} has no line{advice}")
    return []


def no_player(rows: Sequence[tuple[Row, list[str], Fraction]], names: Sequence[str]) -> str:
    """Which row, where groups lack, may be of no player: a group with another sign than + in it, the sum, or all."""
    for row, group, _ in rows:
        parts = games.parts_of(group[0], names)
        if len(group) == 1 and parts:
            return f"; is {group[0]}, in line {row.line}, the group {'+'.join(parts)}? Write + between members"
    *others, (row, group, amount) = rows
    if len(rows) > 2 and len(group) == 1 and amount == sum(other for _, _, other in others):
        return f"; is {group[0]}, in line {row.line}, the row of the sum?"
    is_lone = len(group) == 1 and not any(group[0] in other for _, other, _ in others)
    if is_lone and any(len(other) > 1 for _, other, _ in others):
        everyone = "+".join(name for name in names if name != group[0])
        return f"; is {group[0]}, in line {row.line}, all of them together? Write {everyone}"
    return ""


# ---- A game a row


def vectors(
    text: str,
    order: Optional[str] = None,
    *,
    kind: str = "table",
    names: Optional[Sequence[str]] = None,
    digits: Optional[int] = None,
    per_head: bool = False,
    layout: Layout = AS_SEEN,
) -> Iterator[Game]:
    """A game from each row of numbers, in an order of `vectors.ORDERS`; blanks may stand between them, too. Headings
    that name the groups, Ann, Bob, Ann+Bob, give the names and the order; others may only count, as V1, V2. A first
    column of names is left out, where the head has no word above it, or where the other headings name the groups."""
    rows, found, head = rows_of_numbers(text, layout)
    own, told = players_in(head)
    first = rows[0].cells
    if not head and len(rows) > 1 < len(first) and (groups_in(first) or first == [str(i) for i in range(len(first))]):
        raise BadInput(f"line 1: are {', '.join(first[:3])}, .. headings, and no game? Then use Layout(has_head=True)")
    if own and names is not None and list(names) != own:
        raise BadInput(f"the headings name other players: {', '.join(own)}")
    for row in rows:
        hints = [hint_at(row, rows, found) or SKIP * (i == found.skip == 0) for i in range(len(row.cells))]
        amounts = [amount_of(row, i, digits, hint) for i, hint in enumerate(hints)]
        try:
            require_kept(amounts, digits, (amount_of(row, i, KEPT) for i, _ in enumerate(amounts)))
            require_told(head, told, len(amounts))
            vector = in_mask_order(amounts, order, told)
            players = len(vector).bit_length()
            if names is not None and len(names) != players:
                raise BadInput(f"{len(names)} names for {players} players")
            yield games.made(kind, {"players": players, "worths": vector}, own or names, per_head, digits)
        except BadInput as fault:
            raise BadInput(f"line {row.line}: {fault}{SKIP * ('empty group first' in str(fault))}") from None


def players_in(head: Sequence[str]) -> tuple[Optional[list[str]], Optional[list[int]]]:
    """The players that headings name, unless by numbers from 1, and the group of each column; or nothing."""
    names, told = groups_in(head) or (None, None)
    return None if names and names == [str(i + 1) for i in range(len(names))] else names, told


def require_told(head: Sequence[str], told: Optional[list[int]], width: int) -> None:
    """Refuses headings that don't name the groups, and may say more than that they count: nobody would read them."""
    stems = {heading.rstrip("0123456789") for heading in head}
    counts = [heading[len(stem) :] for stem in stems for heading in head] if len(stems) == 1 else []
    if told and len(head) != width:
        raise BadInput(f"{width} numbers below {len(head)} headings")
    if head and not told and any(head) and not (are_counted(counts) or len(head) == 1):
        way = "name each group once, as Ann, Bob, Ann+Bob, or leave the row of headings out of the file"
        raise BadInput(f"the headings don't name the groups ({', '.join(head[:4])}, ..): {way}")


def left_out(text: str, layout: Layout) -> list[str]:
    """What `vectors` leaves out of a text unasked."""
    _, found, head = rows_of_numbers(text, layout)
    column = found.skip > layout.skip
    if groups_in(head):
        return ["left out the first column, which has names"] * column
    return [LEFT_OUT if column else "left out the first row, which has headings"] * (found != layout)


# ---- Claims and landings


def claims(text: str, estate: Any, *, digits: Optional[int] = None, layout: Layout = AS_SEEN) -> Game:
    """An estate from lines of a name and a claim. An estate that is a text is read by the mark in front of decimals
    that the claims have; where neither tells it surely, as 400.000, it is refused."""
    rows = fixed_rows(text, 2, "Adler,1200.50", layout, estate_beside(estate))
    if len(rows) > MOST_CLAIMS:
        raise BadInput(f"{len(rows)} claims: an estate has at most {MOST_CLAIMS}")
    amounts = [amount_of(row, 1, digits, hint_at(row, rows, layout)) for row in rows]
    try:
        whole = by_mark(estate.strip(), rows[0].mark, digits) if isinstance(estate, str) else estate
    except BadInput as fault:
        raise BadInput(f"the estate: {fault}") from None
    names = named_once(rows)
    require_no_sum(names, amounts, "give it another name")
    return games.bankruptcy(whole, amounts, names, digits=digits)


def estate_beside(estate: Any) -> list[Cell]:
    """What an estate tells of the mark in front of decimals, with its place."""
    return [("the estate", estate.strip())] if isinstance(estate, str) else []


def landings(text: str, *, digits: Optional[int] = None, layout: Layout = AS_SEEN) -> Game:
    """An airport from lines of an airline, what a landing of it needs alone, and how many landings; or of an airline, a
    type, how many landings, and what one needs. Headings tell the columns in whatever order (`airlines`)."""
    rows = landings_in(text, digits=digits, layout=layout)
    require_no_sum([row.airline for row in rows], [row.landings for row in rows], "give it another name")
    return games.landings([(row.name, row.need, row.landings) for row in rows], digits=digits)


def named_once(rows: Sequence[Row]) -> list[str]:
    """The names of the first column, each of which stands once."""
    for row in rows:
        if not row.cells[0]:
            raise BadInput(f"line {row.line} has no name")
    return list(once_each((row.line, row.cells[0], row.cells[0]) for row in rows))
