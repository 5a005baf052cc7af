"""Which numbers of a game matter for an answer, in words: by `sensitivity`."""
from __future__ import annotations

from fractions import Fraction
from typing import Optional, Sequence

from .. import calls, telling
from ..answers import Nucleolus, Shares
from ..errors import BadInput
from ..game import WRITER, Game
from ..masks import mask_of
from ..names import safe
from .prose import filled
from ..sensitivity import Margin, Margins, Range, margins, ranges
from ..styles import EXACT, Style, decimal, steps_of
from .tables import aligned

MOST_TO_MOVE = {"tree": 10, "assignment": 10}  # players of a game of which each number is moved
MOST_LISTS = 24  # the same of an airport or an estate


def told(answer: Nucleolus, say: Style = EXACT, most: int = 10, program: calls.Chosen = None) -> str:
    """Which numbers matter: of a table or a vote the groups that count, and those that are near to it; of another class
    how far each number may go alone."""
    if answer.game.is_table or answer.game.kind == "voting":
        return by_groups(answer, margins(answer, program), say, most)
    most_players = MOST_TO_MOVE.get(answer.game.kind, MOST_LISTS)
    if answer.game.n > most_players:
        told = "`coop.sensitivity.ranges` moves those that you name"
        raise BadInput(f"{answer.game.n} players: each number is moved for at most {most_players}; {told}")
    return by_numbers(answer, ranges(answer.game, rule=answer.rule, program=program), say)


# ---- Tables


def by_groups(answer: Nucleolus, found: Margins, say: Style, most: int) -> str:
    """The groups of a table that count, and of the others those that are nearest to it."""
    game, near = answer.game, found.closest(most)
    counted, closest = ([mask_of(map(game.names.index, one.group)) for one in some] for some in (found.counted(), near))
    is_tied = bool(near) and not near[0].room
    about = {"counted": counted, "near": closest, "free": len(found) - len(counted), "isTied": is_tied}
    told = telling.of_game("margins", WRITER.encode(game.tree), about, say.spelling())
    text = "\n".join(map(filled, told["sentences"])) + "\n"
    return text + ("\n" + margins_table(told["names"], near, game, say) if near else "")


def margins_table(names: Sequence[str], some: Sequence[Margin], game: Game, say: Style) -> str:
    """Groups with their bounds, and how far off these are."""
    head = ("costs", "at least", "less by") if game.costs else ("is worth", "at most", "more by")
    rows = [["group", *head]]
    for name, margin in zip(names, some):
        assert margin.bound is not None
        rows.append([name, say(margin.number), say(margin.bound), part_of(margin)])
    return aligned(rows)


def part_of(margin: Margin) -> str:
    """How far a number is from its bound, as a percentage of the number; of 0 there is none."""
    assert margin.room is not None
    if not margin.number:
        return "-"
    return decimal(steps_of(margin.room / abs(margin.number) * 100, 1), 1) + " %"


# ---- Other classes


WORDS = {"cost": "the cost of {}", "claim": "the claim of {}", "link": "the link {} - {}", "pair": "the pair {} - {}"}


def by_numbers(answer: Nucleolus, found: Sequence[Range], say: Style) -> str:
    """How far each number may go alone, and what each share gains meanwhile for each 1 more."""
    game = answer.game
    does = "pays" if game.costs else "gets"
    matter = [item for item in found if item.matters]
    count = "Each number matters" if len(matter) == len(found) else f"Of {len(found)} numbers {len(matter)} matter"
    if not matter:
        count = "No number matters by itself"
    text = filled(
        f"{count}: where one moves alone, within the bounds below, each {does} so much more for each 1 that it grows "
        "by. At a bend what is below it differs from what is above it, and both are told."
    )
    head = ["number", "is", "from", "to", *map(safe, game.names)]
    rows = [row for item in found for row in rows_of(item, game, say)]
    return f"{text}\n\n{aligned([head, *rows])}"


def rows_of(item: Range, game: Game, say: Style) -> list[list[str]]:
    """The row of a number; at a bend two."""
    name = "the estate" if item.what == ("estate",) else WORDS[item.what[0]].format(*map(safe, item.what[1:]))
    low, high = end(item.number, item.down, -1, say), end(item.number, item.up, 1, say)
    number = say(item.number)
    if item.below == item.above or not item.below or not item.above:
        return [[name, number, low, high, *slopes(item.below or item.above, game)]]
    first = [name, number, low, number, *slopes(item.below, game)]
    return [first, ["", "", number, high, *slopes(item.above, game)]]


def end(number: Fraction, by: Optional[Fraction], way: int, say: Style) -> str:
    return "any" if by is None else say(number + way * by)


def slopes(some: Shares, game: Game) -> list[str]:
    """What each share gains, in the players' order."""
    return [str(some[name]) if some else "" for name in game.names]
