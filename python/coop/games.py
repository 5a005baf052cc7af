"""Games from numbers: one constructor for each class of documents.

Numbers are int, Fraction, Decimal or texts ("12.50", "25/2"); floats need a number of digits, to which all numbers are
rounded. If names are given as the keys of a mapping, or as the labels of a Series of pandas, players are in its order.
A game whose numbers have a common denominator above 65,536 is multiplied by it (`Game.factor`), and what the calls
answer is divided again.
"""
from __future__ import annotations

import re
from fractions import Fraction
from typing import Any, Callable, Iterable, Iterator, Mapping, Optional, Sequence, Union

from .amounts import Amount, TooGreat, amounts_of, count_of, factor_for, fraction_of, fractions_of, is_truth, label_of
from .amounts import named_amounts, named_items, place_of, require_once_each, require_order, whole_of, written
from .classes import CLASSES, LIMITS
from .errors import BadInput
from .game import MOST_IN_A_TABLE, Game, encoded, require_table
from .linear import sums
from .masks import by_mask, mask_of, members
from .names import looks, shown
from .vectors import in_mask_order
from .votes import whole_votes

Amounts = Union[Mapping[str, Amount], Sequence[Amount]]
Group = Union[str, int, Iterable[Union[str, int]]]
Table = Union[Mapping[Any, Amount], Sequence[Amount]]
Rows = Sequence[Sequence[Amount]]
ANOTHER_SIGN = re.compile(r"[-_&/|,;]| and | und | et ")
MOST_NAME = LIMITS["bytes of a name"]
MOST_LANDINGS = CLASSES["airport"]["players"][1]
MOST_VOTES = LIMITS["votes"]


def table(
    worths: Table,
    names: Optional[Sequence[str]] = None,
    *,
    order: Optional[str] = None,
    default: Optional[Amount] = None,
    digits: Optional[int] = None,
    per_head: bool = False,
) -> Game:
    """A game by what each group is worth: a mapping from groups, or a vector in an order of `vectors.ORDERS`.

    A group is a tuple or a set of names, or of numbers from 1; a name or a number alone; or a text, "Ann+Bob". The
    empty group may stand there with 0. Each other group has to be there, unless a default is named.
    """
    return listed("table", worths, names, order, default, digits, per_head)


def table_of(
    names: Sequence[str],
    worth: Callable[[tuple[str, ...]], Amount],
    *,
    costs: bool = False,
    digits: Optional[int] = None,
    per_head: bool = False,
) -> Game:
    """A table from a rule: what each group is worth, or costs, by a function of the tuple of its members. Of a vote the
    function may say whether the group wins."""
    names = checked_names(names)
    require_table(len(names))
    groups = (tuple(names[i] for i in members(group)) for group in by_mask(len(names)))
    worths = [int(amount) if is_truth(amount) else amount for amount in map(worth, groups)]
    return listed("cost-table" if costs else "table", worths, names, "mask", None, digits, per_head)


def cost_table(
    costs: Table,
    names: Optional[Sequence[str]] = None,
    *,
    order: Optional[str] = None,
    default: Optional[Amount] = None,
    digits: Optional[int] = None,
    per_head: bool = False,
) -> Game:
    """A game by what each group costs, given as for `table`."""
    return listed("cost-table", costs, names, order, default, digits, per_head)


def airport(
    costs: Amounts,
    names: Optional[Sequence[str]] = None,
    *,
    digits: Optional[int] = None,
    per_head: bool = False,
) -> Game:
    """An airport by what each landing needs alone."""
    names, amounts = named_amounts(costs, names, digits)
    require_none_negative(amounts, names)
    return made("airport", {"costs": amounts}, names, per_head, digits, costs)


def landings(rows: Iterable[tuple[str, Amount, int]], *, digits: Optional[int] = None, per_head: bool = False) -> Game:
    """An airport by airlines: a name, what a landing needs alone, and how many landings. Each landing is a player, with
    its number behind the name; of a name that has several rows the numbers go on."""
    names: list[str] = []
    costs: list[Amount] = []
    done: dict[str, int] = {}
    for name, cost, count in rows_of_landings(rows):
        if len(names) + count > MOST_LANDINGS:
            way = "coop.runways works out more, by both rules (docs/examples.md)"
            raise BadInput(f"more than {MOST_LANDINGS} landings: an airport has at most {MOST_LANDINGS} players; {way}")
        first = done.get(name, 0) + 1
        done[name] = first + count - 1
        names += [f"{name} {number}" for number in range(first, first + count)]
        costs += [cost] * count
    return airport(costs, names, digits=digits, per_head=per_head)


def bankruptcy(
    estate: Amount,
    claims: Amounts,
    names: Optional[Sequence[str]] = None,
    *,
    digits: Optional[int] = None,
    per_head: bool = False,
) -> Game:
    """An estate and the claims on it."""
    names, amounts = named_amounts(claims, names, digits)
    whole = fraction_of(estate, digits)
    require_none_negative([whole], ["the estate"])
    require_none_negative(amounts, names)
    if sum(amounts) < whole:
        raise BadInput(f"the claims add to {sum(amounts)}, less than the estate of {whole}: each gets its claim")
    return made("bankruptcy", {"claims": amounts, "estate": whole}, names, per_head, digits, claims)


def tree(
    matrix: Rows, names: Optional[Sequence[str]] = None, *, digits: Optional[int] = None, per_head: bool = False
) -> Game:
    """A network by what the link of each two points costs; row and column 0 are the source."""
    rows = rows_of(matrix, digits)
    if any(len(row) != len(rows) for row in rows):
        raise BadInput("the matrix of a network needs as many columns as rows, the source first")
    for i, row in enumerate(rows):
        if row[i]:
            raise BadInput(f"the link from point {i} to itself costs {row[i]} instead of 0")
        for j, cost in enumerate(row):
            if cost != rows[j][i]:
                raise BadInput(f"the link between {i} and {j} costs {cost} one way and {rows[j][i]} the other")
    return made("tree", {"matrix": rows}, names, per_head, digits)


def assignment(
    matrix: Rows, names: Optional[Sequence[str]] = None, *, digits: Optional[int] = None, per_head: bool = False
) -> Game:
    """A market of at most 16 players by what each buyer, a row, and each seller, a column, are worth together."""
    return made("assignment", {"matrix": rows_of(matrix, digits)}, names, per_head, digits)


def market(matrix: Rows, names: Optional[Sequence[str]] = None, *, digits: Optional[int] = None) -> Game:
    """A market of at most 32 buyers and 32 sellers, which `matching` alone answers."""
    return made("market", {"matrix": rows_of(matrix, digits)}, names, digits=digits)


def voting(
    quota: Amount, weights: Amounts, names: Optional[Sequence[str]] = None, *, digits: Optional[int] = None
) -> Game:
    """A vote by weights and the quota that wins. Decimals, and votes that add to more than 1,000, become the least
    whole votes by which the same groups win. Where these add to more than 1,000 too, it is the table of who wins, of at
    most 16 voters; `votes.shapley` takes more."""
    names, amounts = named_amounts(weights, names, digits)
    whole = fraction_of(quota, digits)
    if all(value.denominator == 1 for value in [whole, *amounts]) and sum(amounts) <= MOST_VOTES:
        return made("voting", {"quota": whole, "weights": amounts}, names)
    need, votes = whole_votes(whole, amounts)
    if sum(votes) <= MOST_VOTES:
        return made("voting", {"quota": Fraction(need), "weights": list(map(Fraction, votes))}, names)
    if len(votes) > MOST_IN_A_TABLE:
        told = f"the votes add to {sum(votes)}, above {MOST_VOTES}, and {len(votes)} voters are too many for a table"
        raise BadInput(f"{told}: coop.votes.shapley works out their power")
    worths = [Fraction(total >= need) for total in sums(votes)[1:]]
    return made("table", {"players": len(votes), "worths": worths}, names)


# ---- What they share


def require_none_negative(amounts: list[Fraction], names: Optional[Sequence[str]] = None) -> None:
    least = min(amounts, default=Fraction(0))
    if least < 0:
        whose = f"{names[amounts.index(least)]}: " if isinstance(names, list) and len(names) == len(amounts) else ""
        raise BadInput(f"{whose}{least} is below 0")


def require_rows(rows: Any, way: str = "") -> None:
    """Refuses what is no list of rows; a text is none, and neither is a set or what has names for its rows."""
    require_order(rows)
    if isinstance(rows, (str, bytes)) or not isinstance(rows, Iterable):
        raise BadInput(f"{str(rows)[:40]!r} isn't a list of rows")
    if hasattr(rows, "columns"):
        raise BadInput("a data frame isn't a list of rows: give the rows that frame.to_numpy().tolist() has" + way)
    if hasattr(rows, "keys"):
        raise BadInput("a mapping isn't a list of rows, since their names would be lost: give a list of its values")


def rows_of_landings(rows: Iterable[Any]) -> Iterator[tuple[str, Amount, int]]:
    """The rows of a list of landings: a name, what one needs alone, and how many there are."""
    require_rows(rows)
    for row in rows:
        row = row.tolist() if hasattr(row, "tolist") else row
        if isinstance(row, str) or not isinstance(row, Sequence) or len(row) != 3:
            raise BadInput(f"{str(row)[:40]!r} isn't a row of a name, what a landing needs, and how many landings")
        name = label_of(row[0])
        yield name, row[1], count_of(row[2], "landings", f"{name}: ")


def rows_of(matrix: Rows, digits: Optional[int]) -> list[list[Fraction]]:
    """The rows of a matrix, none of them empty, and none of its numbers negative."""
    require_rows(matrix, ", and names=[*frame.index, *frame.columns], or [*frame.columns][1:] of a network")
    listed_rows = list(matrix)
    if any(named_items(row) is not None for row in listed_rows):
        raise BadInput("a row of the matrix has labels, which would be lost: give a list of its values")
    rows = [fractions_of(row, digits) for row in listed_rows]
    if not rows or not rows[0] or any(len(row) != len(rows[0]) for row in rows):
        raise BadInput("the matrix needs a row, and rows of the same length")
    require_none_negative([entry for row in rows for entry in row])
    return rows


def checked_names(names: Sequence[str]) -> list[str]:
    """The names, each a text of 1 to 64 bytes that stands once."""
    names = listed_names(names)
    for name in names:
        if not isinstance(name, str):
            raise BadInput(f"the name {str(name)[:80]} isn't a text: give each name as a text")
        if not 1 <= len(encoded(name, "a name")) <= MOST_NAME:
            told = f"is no name of 1 to {MOST_NAME} bytes; letters beyond ASCII have several"
            raise BadInput(f"{str(name)[:80]!r} {told}")
    require_once_each(names)
    return names


def listed_names(names: Iterable[str]) -> list[str]:
    """Names as a list; of a text its letters."""
    require_order(names)
    try:
        return list(names)
    except TypeError:
        raise BadInput(f"{str(names)[:40]!r} isn't a list of names") from None


def made(
    kind: str,
    parts: Mapping[str, Any],
    names: Optional[Sequence[str]] = None,
    per_head: bool = False,
    digits: Optional[int] = None,
    given: Any = None,
) -> Game:
    """The game of a class and its parts: numbers, lists of numbers, and items of `sparse`. A number that is too great
    is told with its label in what was given."""
    amounts = list(numbers_in(parts))
    try:
        factor = factor_for(amounts, digits)
    except TooGreat as fault:
        place = "" if given is None else place_of(given, fault.value, digits)
        raise BadInput(f"{place}: {fault}" if place else str(fault)) from None
    tree: dict[str, Any] = {"class": kind}
    if names is not None:
        tree["names"] = checked_names(names)
    if not is_truth(per_head):
        raise BadInput(f"`per_head` is True or False, and not {per_head!r}")
    if per_head:
        tree["excess"] = "per-head"
    tree.update((key, as_json(part, factor)) for key, part in parts.items())
    if any(factor % amount.denominator for amount in amounts):
        tree["version"] = 2
    return Game(tree, factor)


def numbers_in(part: Any) -> Iterable[Fraction]:
    """All numbers of a part, at whatever depth."""
    if isinstance(part, Fraction):
        yield part
    elif isinstance(part, (list, tuple, Mapping)):
        for item in part.values() if isinstance(part, Mapping) else part:
            yield from numbers_in(item)


def as_json(part: Any, factor: int) -> Any:
    """A part with its numbers as a document has them."""
    if isinstance(part, Fraction):
        return written(part if factor == 1 else part * factor)
    return [as_json(item, factor) for item in part] if isinstance(part, (list, tuple)) else part


# ---- Tables


def listed(
    kind: str,
    amounts: Table,
    names: Optional[Sequence[str]],
    order: Optional[str],
    default: Optional[Amount],
    digits: Optional[int],
    per_head: bool,
) -> Game:
    names = names if names is None else listed_names(names)
    items = named_items(amounts)
    if items is None:
        if default is not None:
            raise BadInput("`default` is for a mapping, not for a vector")
        vector = in_mask_order(fractions_of(amounts, digits), order)
        if names is not None and len(names) != len(vector).bit_length():
            raise BadInput(f"{len(names)} names for {len(vector).bit_length()} players")
    elif order is not None:
        told = "" if isinstance(amounts, Mapping) else "; the labels of a Series name the groups: give its .to_numpy()"
        raise BadInput(f"`order` is for a vector, not for a mapping{told}")
    else:
        groups = list(zip([members_of(group) for group, _ in items], amounts_of(amounts, items, digits)))
        names, vector = by_groups(groups, names, None if default is None else fraction_of(default, digits))
    return made(kind, {"players": len(vector).bit_length(), "worths": vector}, names, per_head, digits, amounts)


def members_of(group: Any) -> list[Union[str, int]]:
    """The members of a group as it is written; of a set, which has no order, in that of their texts."""
    some: list[Any]
    if isinstance(group, str):
        some = [member.strip() for member in group.split("+")] if group else []
    elif isinstance(group, bytes) or not isinstance(group, Iterable):
        some = [group]
    else:
        some = sorted(group, key=str) if isinstance(group, (set, frozenset)) else list(group)
    if "" in some:
        raise BadInput(f"a member of the group {str(group)[:80]!r} has no name")
    return [member if isinstance(member, str) else number_of(member) for member in some]


def number_of(member: Any) -> int:
    """The number of a player, which may be one of NumPy."""
    whole = whole_of(member)
    if whole is None:
        raise BadInput(f"{str(member)[:40]!r} isn't a player: a group has names, or numbers from 1")
    return whole


def by_groups(
    items: Sequence[tuple[list[Any], Fraction]], names: Optional[list[str]], default: Optional[Fraction]
) -> tuple[Optional[list[str]], list[Fraction]]:
    """The players, unless they are numbers, and what each group is worth in mask order."""
    if any(amount for group, amount in items if not group):
        raise BadInput("the empty group has to be worth 0")
    groups = [(group, amount) for group, amount in items if group]
    everyone = list(dict.fromkeys(member for group, _ in groups for member in group))
    are_labels = any(str(name).lstrip("-").isdigit() for name in names or ())
    numbered = not are_labels and all(type(member) is int for member in everyone)
    labels = list(names or dict.fromkeys(map(str, everyone)))
    if default is None and len(groups) > 1 and all(len(group) == 1 and str(group[0]).isdigit() for group, _ in groups):
        raise BadInput("each label is one number, and no group: give a vector, such as .to_numpy(), and its `order`")
    count = max(everyone, default=0) if numbered and names is None else len(labels)
    require_table(count, meant(labels) if count > MOST_IN_A_TABLE else "")
    players = [str(i + 1) for i in range(count)] if numbered else labels
    found: dict[int, Fraction] = {}
    for group, amount in groups:
        mask = mask_of(player_of(member, players) for member in group)
        if mask in found:
            raise BadInput(f"the group {'+'.join(map(str, group))} is given twice")
        if len(members(mask)) < len(group):
            raise BadInput(f"a member of {'+'.join(map(str, group))} is there twice")
        found[mask] = amount
    missing = [mask for mask in range(1, 2 ** len(players)) if mask not in found]
    if missing and default is None:
        first = "+".join((names or players)[i] for i in members(missing[0]))
        lone = [name for name in players if sum(name in map(str, group) for group, _ in groups) == 1]
        asked = f"; is {lone[0]} a player? Only one group has it" if len(lone) == 1 < len(players) else meant(labels)
        raise BadInput(f"the group {first} is missing" + f", and {len(missing) - 1} more" * (len(missing) > 1) + asked)
    vector = [found.get(mask, default or Fraction(0)) for mask in range(1, 2 ** len(players))]
    return names if numbered else players, vector


def meant(names: Sequence[str]) -> str:
    """A question on the first name that may be a group of the others."""
    for name in names:
        if parts := parts_of(name, names):
            return f"; is {name} the group {'+'.join(parts)}? Write + between members"
    return ""


def parts_of(name: str, names: Sequence[str]) -> list[str]:
    """The players of a group that has another sign than + between its members, or none, as A,B or AB."""
    for parts in (ANOTHER_SIGN.split(name), name):
        if len(parts) > 1 and all(part.strip() in names for part in parts):
            return [part.strip() for part in parts]
    return []


def player_of(member: Any, names: Sequence[str]) -> int:
    """The place of a player among the names. A number is the name that is its text, so 17 is "17"; beside other names
    it isn't a place, which nobody could tell from a label."""
    name = str(member)
    if name in names and not is_truth(member):
        return names.index(name)
    near = next((own for own in names if looks(own) == looks(name)), None)
    told = f"{shown(near)} looks like it ({shown(name)})" if near else f"there are {', '.join(names)}"
    raise BadInput(f"{name} isn't a player: {told}{'' if isinstance(member, str) else '; give a name, not a place'}")
