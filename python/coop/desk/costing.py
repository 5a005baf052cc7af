"""Warnings about a table of costs: numbers that look like mistakes, and what was filled in.

No number that is reported here is impossible. But a misplaced comma makes a group dearer than its parts, or cheaper
than one of its members alone.
"""
from __future__ import annotations

import json
from typing import Iterator, Sequence

from .. import filling, telling
from ..errors import Fault, NotFound
from ..masks import members
from ..readers import Costed
from ..styles import Style

WARNING = (
    "This is an upper bound, not an estimate. Shapley shares, and all shares per head, depend on it. The nucleolus by "
    "plain excess doesn't, as long as none of these groups could build cheaper together than apart, and the core isn't "
    "empty; if one could, the shares change."
)
WARNING_WITHIN = (
    "This is an upper bound, not an estimate, as long as they may use these works. All shares may depend on it, those "
    "of the nucleolus too."
)
ON_CORES = (
    'The answers "blocked" and "empty core" are certain, as long as the costed numbers are right; "core" and "core '
    'point" hold only against the filled numbers: by true costs a group that was filled in may do better alone'
)
FIRST = 10  # so many lines of a list are told, where not all are asked for


def remarks(costed: Costed, within: bool, say: Style, wants_all: bool = False) -> Iterator[str]:
    """The sentences, line by line; of long lists the first ten lines, or all. A list of what was filled in is whole."""
    yield from first_of(doubts(costed, say), wants_all)
    if not costed.filled:
        return
    names = costed.game.names
    ways = f"with the cost of their cheapest split. {WARNING}"
    if within:
        ways = f"with the cost of their cheapest split, or of larger groups' works. {WARNING_WITHIN}"
    yield f"{len(costed.filled)} groups were filled in {ways}"
    yield f"{ON_CORES}. What was filled in:"
    yield from (filled_text(names, item, say) for item in costed.filled)
    if within:
        apart = filling.cheapest(costed.given, [item.group for item in costed.filled])
        pairs = [(item, other) for item, other in zip(costed.filled, apart) if item.amount < other.amount]
        lines = [f"{filled_text(names, item, say)}, and not {split_text(names, other, say)}" for item, other in pairs]
        if lines:
            yield f"{len(lines)} of these cost less with the works of a larger group than apart:"
            yield from first_of(lines, wants_all)
    above = filling.above_larger([amount / costed.game.factor for amount in costed.game.amounts])
    if above:
        last = "" if within else " (then use --fill-within)"
        yield f"{len(above)} groups cost more than a larger group that contains them: may they use its works?{last}"
        yield from first_of([above_text(names, item, say) for item in above], wants_all)


def first_of(lines: Sequence[str], wants_all: bool) -> Iterator[str]:
    """The first lines, and how many more there are; or all."""
    most = len(lines) if wants_all or len(lines) == FIRST + 1 else FIRST
    yield from lines[:most]
    if len(lines) > most:
        yield f"and {len(lines) - most} more (--all lists them)"


def doubts(costed: Costed, say: Style) -> list[str]:
    """A sentence for each number that can hardly be meant, by the lines of the file; or why nobody looked for them."""
    table = {
        "names": costed.game.names,
        "isCost": costed.game.costs,
        "given": {group: str(amount) for group, amount in costed.given.items()},
        "filled": {item.group: str(item.amount) for item in costed.filled},
    }
    try:
        found = telling.asked("odds", say.spelling(), json.dumps(table))["odds"]
    except (Fault, NotFound) as fault:
        return [f"nobody looked for numbers that may be mistakes: {fault}"]
    return [f"line {costed.lines[item['mask']]}: {item['sentence']}" for item in found]


# ---- What was filled in


def filled_text(names: Sequence[str], item: filling.Filled, say: Style) -> str:
    return f"{group_text(names, item.group)}: {split_text(names, item, say)}"


def split_text(names: Sequence[str], item: filling.Filled, say: Style) -> str:
    """What a group costs, and the parts that cost so much."""
    parts = [group_text(names, part, " + ") for part in item.parts]
    return f"{say(item.amount)} = {' | '.join(parts)}"


def above_text(names: Sequence[str], item: filling.Above, say: Style) -> str:
    smaller, larger = group_text(names, item.group), group_text(names, item.larger)
    return f"{smaller}: {say(item.amount)}, and {larger}: {say(item.least)}"


def group_text(names: Sequence[str], group: int, sign: str = "+") -> str:
    """A group as a file of costs has it."""
    return sign.join(names[i] for i in members(group))
