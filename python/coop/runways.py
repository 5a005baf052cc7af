"""Runways with any number of landings, by the two rules that are proved for any number: Littlechild's payments, which
are the nucleolus (`payments_are_the_nucleolus`), and equal parts of each step of the costs, which are the Shapley
shares (`shapley_is_by_step`).

The program takes 64 landings. What stands here is worked out in Python, which nobody has proved; up to there it is
tried against the program. Landings are rows as those of `games.landings`: a name, what a landing needs alone, and how
many landings; here a name may have several rows. Each name pays the sum for all its landings.
"""
from __future__ import annotations

from fractions import Fraction
from itertools import accumulate
from typing import Iterable, Optional

from .amounts import Amount, amounts_of
from .errors import BadInput
from .games import require_none_negative, rows_of_landings

Rows = Iterable[tuple[str, Amount, int]]
Read = tuple[str, Fraction, int]


def nucleolus(rows: Rows, *, digits: Optional[int] = None) -> dict[str, Fraction]:
    """Littlechild's payments. Of landings that cost the same only the last place is looked at."""
    read, places, everyone = read_rows(rows, digits)
    payments: dict[Fraction, Fraction] = {}
    done, placed, paid = 0, 0, Fraction(0)
    while done < len(places):
        parts = [(cost - paid) / (place - placed + (place < everyone)) for cost, place in places[done:]]
        part = min(parts)
        last = max(k for k, other in enumerate(parts) if other == part) + done
        payments.update((cost, part) for cost, _ in places[done : last + 1])
        paid += part * (places[last][1] - placed)
        done, placed = last + 1, places[last][1]
    return by_name(read, payments)


def shapley(rows: Rows, *, digits: Optional[int] = None) -> dict[str, Fraction]:
    """Shapley shares: what each cost is above the one before is borne alike by all landings that need so much."""
    read, places, everyone = read_rows(rows, digits)
    payments: dict[Fraction, Fraction] = {}
    before, placed, part = Fraction(0), 0, Fraction(0)
    for cost, place in places:
        part += (cost - before) / (everyone - placed)
        payments[cost] = part
        before, placed = cost, place
    return by_name(read, payments)


def read_rows(rows: Rows, digits: Optional[int]) -> tuple[list[Read], list[tuple[Fraction, int]], int]:
    """The rows; each cost, from the least, with the last place of the landings that have it; and how many there are."""
    read: list[Read] = []
    counts: dict[Fraction, int] = {}
    for name, cost, count in rows_of_landings(rows):
        exact, = amounts_of(None, [(name, cost)], digits)
        require_none_negative([exact], [name])
        read.append((name, exact, count))
        counts[exact] = counts.get(exact, 0) + count
    if not counts:
        raise BadInput("the list has no landing")
    costs = sorted(counts)
    places = list(accumulate(counts[cost] for cost in costs))
    return read, list(zip(costs, places)), places[-1]


def by_name(rows: Iterable[Read], payments: dict[Fraction, Fraction]) -> dict[str, Fraction]:
    """What each name pays for all its landings."""
    sums: dict[str, Fraction] = {}
    for name, cost, count in rows:
        sums[name] = sums.get(name, Fraction(0)) + payments[cost] * count
    return sums
