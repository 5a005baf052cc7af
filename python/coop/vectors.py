"""Games as vectors: in which order the groups' numbers stand.

`mask` is the order of documents, and of MatTuGames: 1, 2, 12, 3, 13, 23, 123. `size` is that of CoopGame and of TUGlab:
1, 2, 3, 12, 13, 23, 123. (Of these tools from memory.) Both have one number less than there are groups, so neither can
be told from the other by its length: the order has to be named. (Of two players both are 1, 2, 12.)
"""
from __future__ import annotations

from fractions import Fraction
from typing import Any, Callable, Optional, Sequence

from .errors import BadInput
from .game import require_table
from .masks import by_mask, by_size, mask_of

ORDERS: dict[str, Callable[[int], list[int]]] = {"mask": by_mask, "size": by_size}
"""The groups in each order, for a number of players."""

EMPTY = ("", "0", "{}", "()", "\u2205")
"""Headings of the empty group."""


def players_of(length: int) -> int:
    """How many players a vector of so many numbers has, without one for the empty group."""
    players = (length + 1).bit_length() - 1
    if length < 1 or 2**players - 1 != length:
        near = ", ".join(str(2**n - 1) for n in range(2, 7))
        raise BadInput(f"{length} numbers: a vector has 2^n - 1 ({near}, ..), or one more, 0, for the empty group")
    require_table(players)
    return players


def require_known(order: Any) -> None:
    if not isinstance(order, str) or order not in ORDERS:
        raise BadInput(f"{order!r} isn't an order: use {', '.join(ORDERS)}")


def groups_in(headings: Sequence[str]) -> Optional[tuple[list[str], list[int]]]:
    """The players that the headings of a vector name, and the group of each number: Ann, Bob, Ann+Bob, or 1, 2, 12. One
    number more is that of the empty group, first. None unless each group is there once."""
    own = headings[1:] if headings and headings[0] in EMPTY else headings
    has_plus = any("+" in cell for cell in own)
    groups = [[member.strip() for member in (cell.split("+") if has_plus else cell)] for cell in own]
    names = [group[0] for group in groups if len(group) == 1]
    if not names or len(own) != 2 ** len(names) - 1:
        return None
    if any(len(set(group)) < len(group) or not set(group) <= set(names) for group in groups):
        return None
    masks = [mask_of(map(names.index, group)) for group in groups]
    return (names, masks) if sorted(masks) == list(range(1, 2 ** len(names))) else None


def in_mask_order(
    vector: Sequence[Fraction], order: Optional[str], told: Optional[list[int]] = None
) -> list[Fraction]:
    """The vector in mask order, without the empty group, which may stand first with 0. From three players on the order
    has to be named, unless headings have told the group of each number; these have to agree."""
    if order is not None:
        require_known(order)
    numbers = list(vector)
    if len(numbers) > 1 and len(numbers) & len(numbers) - 1 == 0:
        if numbers[0]:
            raise BadInput(f"a vector of {len(numbers)} numbers has that of the empty group first, and it isn't 0")
        del numbers[0]
    players = players_of(len(numbers))
    if order is None and players > 2 and not told:
        raise BadInput("name the `order` of the vector: size is 1, 2, 3, 12, 13, .., and mask is 1, 2, 12, 3, 13, ..")
    groups = ORDERS[order or "mask"](players)
    if told and order and told != groups:
        raise BadInput(f"the headings name the groups in another order than {order}: leave `order` out to read them")
    groups = told or groups
    place = dict(zip(groups, numbers))
    return [place[group] for group in range(1, len(numbers) + 1)]


def in_order(worths: Sequence[Fraction], order: str) -> list[Fraction]:
    """The other way: a vector in mask order, in the order that is named."""
    require_known(order)
    return [worths[group - 1] for group in ORDERS[order](players_of(len(worths)))]
