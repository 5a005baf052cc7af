"""Excess lists of divisions, side by side: which of two treats the worst-off groups better, and who is worse off. The
page's modules list and tell them, under Node."""
from __future__ import annotations

from fractions import Fraction
from typing import Any, NamedTuple, Optional, Sequence

from .. import telling
from ..calls import Proposal, one_each
from ..errors import BadInput
from ..game import WRITER, Game
from ..styles import EXACT, Style
from .cells import PLAIN, Cells, csv_text
from .documents import Point, are_one, games_of
from .prose import filled
from .tables import aligned


class Entry(NamedTuple):
    excess: Fraction
    group: int


def excess_list(game: Game, shares: Proposal) -> list[Entry]:
    """The excesses of all groups but the empty one and that of all, from the greatest; equals in mask order. Shares are
    a mapping by names or a list."""
    found = asked(game, [Point("", [share * game.factor for share in one_each(game, shares)])], EXACT, is_all=True)
    return [Entry(Fraction(number) / game.factor, group) for group, _, number, _ in found["lists"][0]]


def asked(game: Game, points: Sequence[Point], say: Style, is_all: bool) -> dict[str, Any]:
    named = [[point.name, [str(share) for share in point.shares]] for point in points]
    about = {"points": named, "isAll": is_all}
    return telling.of_game("compare", WRITER.encode(game.tree), about, say.spelling())


class Comparison(NamedTuple):
    game: Game
    points: tuple[Point, Point]
    say: Style = EXACT

    def better(self) -> Optional[Point]:
        """The one whose list is less where they first differ; none if one of them doesn't share out the whole."""
        found = asked(self.game, self.points, self.say, is_all=False)["better"]
        return None if found is None else self.points[found]

    def told(self, everything: bool = False) -> str:
        """The lists side by side to the first difference, or whole, and what follows; per head under a heading."""
        found = asked(self.game, self.points, self.say, everything)
        rows = [["place", "group", self.points[0].name, "group", self.points[1].name]]
        for place, *entries in zip(found["places"], *found["lists"]):
            cells = [cell for entry in entries for cell in (entry[1], entry[3])] if place else [""] * 4
            rows.append([str(place or ".."), *cells])
        head = f"By {self.measure()}:\n" if self.game.per_head else ""
        return head + "\n".join([aligned(rows, {0, 1, 3}), *map(filled, found["sentences"])]) + "\n"

    def measure(self) -> str:
        return "excess per head" if self.game.per_head else "plain excess"

    def rows(self, cells: Cells = PLAIN) -> list[list[str]]:
        """Both lists, whole, as rows below a head, with numbers for a spreadsheet."""
        head, unit = ["place"], f", {self.say.unit}" if self.say.unit else ""
        for point in self.points:
            head += [f"group of {point.name}", point.name + unit]
        rows = [head]
        for place, entries in enumerate(zip(*asked(self.game, self.points, self.say, is_all=True)["lists"]), 1):
            row = [cell for _, name, number, _ in entries for cell in (name, cells.number(Fraction(number), self.say))]
            rows.append([str(place), *row])
        return rows


def comparisons(points: Sequence[Point], say: Style = EXACT) -> list[Comparison]:
    """The comparisons of two points of one game, one by each measure that their lines have, plain excess first."""
    if len(points) != 2:
        raise BadInput(f"{len(points)} divisions: give exactly two")
    games = games_of(points)
    if not are_one(games):
        raise BadInput("the two are divisions of different games")
    by_measure = {game.per_head: game for game in games}
    return [Comparison(by_measure[measure], (points[0], points[1]), say) for measure in sorted(by_measure)]


def compare(points: Sequence[Point], say: Style = EXACT) -> Comparison:
    """The comparison of two points of one game, whose lines have one measure."""
    found = comparisons(points, say)
    if len(found) > 1:
        raise BadInput("one goes by plain excess, the other by excess per head: `comparisons` has both")
    return found[0]


def told(found: Sequence[Comparison], everything: bool = False) -> str:
    """The comparisons in words. Where there are two, the one by plain excess has a heading too."""
    if len(found) == 1:
        return found[0].told(everything)
    first = filled("One of the two goes by plain excess, and the other by excess per head. So both are told.")
    plain, per_head = (comparison.told(everything) for comparison in found)
    return f"{first}\n\nBy plain excess:\n{plain}\n{per_head}"


def csv(found: Sequence[Comparison], cells: Cells = PLAIN) -> str:
    """The lists, whole, as CSV; of two comparisons one below the other, by a last column with the measure."""
    several, lists = len(found) > 1, [one.rows(cells) for one in found]
    below = [[*row, *[one.measure()] * several] for one, rows in zip(found, lists) for row in rows[1:]]
    return csv_text([[*lists[0][0], *["measure"] * several], *below], cells)
