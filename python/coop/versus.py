"""Rules side by side: the program's, and those that contracts and agencies use; each division judged by the program.

    for row in coop.versus.rules(game):
        print(row.rule, row.shares or row.reason, row.leaving, row.by)

The shares by the nucleolus and Shapley are the program's. The formulas of practice are worked out here, in fractions,
and nobody has proved them. What is said of each division, that no group could do better or which one could, is the
program's word (`propose`).
"""
from __future__ import annotations

from dataclasses import dataclass
from fractions import Fraction
from typing import Callable, NamedTuple, Optional, Union

from . import calls
from .answers import Blocked, Names, NoImputation, Nucleolus, Shapley, Shares
from .errors import BadInput, Usage
from .game import Game, require_game

__all__ = ["FORMULAS", "Row", "alone_and_added", "rules"]


@dataclass(frozen=True)
class Row:
    """A rule and its division. `leaving` is the group that could do better by itself by the most, and `by` how much: of
    a division in the core there is none. `is_proved` says whether the shares are the program's. If the rule has no
    division in this game, `shares` is None, and `reason` says why."""

    rule: str
    shares: Optional[Shares]
    is_proved: bool
    leaving: Optional[Names] = None
    by: Optional[Fraction] = None
    reason: str = ""

    @property
    def is_in_core(self) -> bool:
        """Whether there is a division, and no group could do better by itself."""
        return self.shares is not None and self.leaving is None


def rules(game: Game, benefits: Optional[calls.Proposal] = None, program: calls.Chosen = None) -> list[Row]:
    """Returns a row for each rule: of any game the same rules in the same order. Of `benefits`, if these are known,
    separable costs and remaining benefits takes account."""
    require_game(game)
    rows = []
    for rule, find in PROVED.items():
        found = divided_by(find, game, program)
        rows.append(Row(rule, None, True, reason=found) if isinstance(found, str) else judged(
            game, rule, found, True, program
        ))
    for rule, formula in FORMULAS.items():
        shares = formula(game) if rule != REMAINING else remaining(game, benefits)
        if shares is None:
            rows.append(Row(rule, None, False, reason=WANTING[rule]))
        else:
            rows.append(judged(game, rule, shares, False, program))
    return rows


def divided_by(find: Callable[[Game, calls.Chosen], object], game: Game, program: calls.Chosen) -> Union[Shares, str]:
    """The shares by a rule of the program; or why there are none."""
    try:
        answer = find(game, program)
    except Usage as fault:
        return str(fault).partition(": ")[2]
    if isinstance(answer, NoImputation):
        alone, ends = ("cost", "pays more") if game.costs else ("are worth", "gets less")
        return f"alone they {alone} {answer.singles} in sum, and together {answer.total}, so somebody {ends} than alone"
    assert isinstance(answer, (Nucleolus, Shapley))
    return answer.shares


def judged(game: Game, rule: str, shares: Shares, is_proved: bool, program: calls.Chosen) -> Row:
    """A division, and what `propose` says of it."""
    said = calls.propose(game, shares, program)
    if isinstance(said, Blocked):
        return Row(rule, shares, is_proved, said.coalition, said.excess)
    return Row(rule, shares, is_proved)


# ---- The program's


def measured(game: Game, is_per_head: bool) -> Game:
    """The same game by another measure."""
    tree = {key: part for key, part in game.tree.items() if key != "excess"}
    return Game({**tree, "excess": "per-head"} if is_per_head else tree, game.factor)


PROVED: dict[str, Callable[[Game, calls.Chosen], object]] = {
    "nucleolus": lambda game, program: calls.nucleolus(measured(game, False), program),
    "nucleolus per head": lambda game, program: calls.nucleolus(measured(game, True), program),
    "Shapley shares": calls.shapley,
}
"""The rules of the program, by their names."""


# ---- Those of practice


class Parts(NamedTuple):
    """What all are worth or cost together, each alone, and what each adds to all the others: its separable cost."""

    whole: Fraction
    alone: list[Fraction]
    added: list[Fraction]


def alone_and_added(game: Game) -> Parts:
    whole = game.whole() / game.factor
    alone = [game.alone(i) / game.factor for i in range(game.n)]
    others = [game.sign * game.worth(game.everyone & ~(1 << i)) / game.factor for i in range(game.n)]
    return Parts(whole, alone, [whole - worth for worth in others])


def spread(game: Game, base: list[Fraction], weights: list[Fraction], whole: Fraction) -> Optional[Shares]:
    """A base for each, and what is left of the whole by weights; nothing where these add to 0, and something is
    left."""
    total, rest = sum(weights), whole - sum(base)
    if not total:
        return dict(zip(game.names, base)) if not rest else None
    return {name: b + w * rest / total for name, b, w in zip(game.names, base, weights)}


def in_proportion(game: Game) -> Optional[Shares]:
    """In proportion to what each costs, or is worth, alone; of an estate to the claims, and of a vote to the votes."""
    whole, alone, _ = alone_and_added(game)
    weights = game.amounts if game.kind in ("bankruptcy", "voting") else alone
    return spread(game, [Fraction(0)] * game.n, weights, whole)


def remaining(game: Game, benefits: Optional[calls.Proposal] = None) -> Optional[Shares]:
    """Separable costs and remaining benefits, as US agencies have it since the Tennessee Valley: each bears what it
    adds to the others, and the rest goes by what is left of its benefit. That is at most what it costs alone, and
    counts as that where it isn't known (alternative cost avoided). One with nothing left bears none of the rest."""
    whole, alone, added = alone_and_added(game)
    if benefits is not None:
        if not game.costs:
            raise BadInput("benefits are for costs, and this game has worths")
        known = calls.one_each(game, benefits, "benefit")
        alone = [min(cost, benefit) for cost, benefit in zip(alone, known)]
    left = [max(Fraction(0), game.sign * (b - a)) for a, b in zip(alone, added)]
    return spread(game, added, left, whole)


def equally(game: Game, base: list[Fraction]) -> Optional[Shares]:
    """A base for each, and an equal part of the rest: of what all save, if the base is what each costs alone."""
    return spread(game, base, [Fraction(1)] * game.n, game.whole() / game.factor)


REMAINING = "separable costs, remaining benefits"
FORMULAS: dict[str, Callable[[Game], Optional[Shares]]] = {
    "in proportion": in_proportion,
    REMAINING: remaining,
    "equal savings": lambda game: equally(game, alone_and_added(game).alone),
    "equal charge": lambda game: equally(game, alone_and_added(game).added),
    "equal shares": lambda game: equally(game, [Fraction(0)] * game.n),
}
"""The formulas of practice, by the names of the rules. Of a game without a division by one it gives None."""

WANTING = {
    "in proportion": "the numbers that it goes by add to 0, and there is something to share",
    REMAINING: "nobody has a benefit that remains, so nothing says who bears the rest",
}
"""Why a formula has no division in some game."""
