"""Votes of any number of voters and any weights: the power index of Shapley and Shubik, exactly, without the program.

The program takes 32 voters, and votes that add up to 1,000. What stands here is worked out in Python, which nobody has
proved; up to there it is tried against the program. `games.voting` makes a game for the program where there is one.

Coalitions of the others are counted by size and votes. One number holds the counts of a size: that of v votes is its
digit v in base 2**bits. So a voter joins by one shift and one sum.
"""
from __future__ import annotations

from fractions import Fraction
from math import factorial, gcd, lcm
from typing import Mapping, Optional, Sequence, Union

from .amounts import Amount, fraction_of, named_amounts, require_once_each
from .errors import BadInput

MOST_VOTERS, MOST_WORK = 1000, 1 << 31  # bits of all counts


def shapley(
    quota: Amount, votes: Union[Mapping[str, Amount], Sequence[Amount]], *, digits: Optional[int] = None
) -> dict[str, Fraction]:
    """In what part of all orders of joining each voter decides; those of a list are numbered from 1. A coalition wins
    if its votes reach the quota; votes may have decimals."""
    names, amounts = named_amounts(votes, digits=digits)
    if names is None:
        names = [str(k + 1) for k in range(len(amounts))]
    require_once_each(names)
    need, whole = whole_votes(fraction_of(quota, digits), amounts)
    n, total = len(whole), sum(whole)
    if n > MOST_VOTERS:
        raise BadInput(f"{n} voters: at most {MOST_VOTERS} are counted")
    bits = n + 1
    if n * total * bits > MOST_WORK:
        raise BadInput(f"{n} voters with {total} votes together are too many to count: round the votes")
    counts = [1] + [0] * n
    for vote in whole:
        for k in range(n - 1, -1, -1):
            counts[k + 1] += counts[k] << vote * bits
    orders = [factorial(k) * factorial(n - 1 - k) for k in range(n)]
    power = {}
    for vote in set(whole):
        others, decided = 0, 0
        low = max(0, need - vote) * bits
        window = (1 << (need * bits - low)) - 1
        for k in range(n):
            others = counts[k] - (others << vote * bits)
            decided += orders[k] * (((others >> low) & window) % ((1 << bits) - 1))
        power[vote] = Fraction(decided, factorial(n))
    return {name: power[vote] for name, vote in zip(names, whole)}


def whole_votes(quota: Amount, votes: Sequence[Amount]) -> tuple[int, list[int]]:
    """The least whole quota and votes by which exactly the same coalitions win, that are multiples of those given. All
    are multiplied by a common denominator, and divided by what divides all votes; a quota between two sums of votes is
    the one above."""
    need, parts = fraction_of(quota), [fraction_of(vote) for vote in votes]
    if not parts:
        raise BadInput("there are no votes")
    if min(parts) < 0:
        raise BadInput(f"{min(parts)} is below 0")
    if not 0 < need <= sum(parts):
        raise BadInput(f"a quota of {need}, and votes of {sum(parts)} together: it has to be above 0, and within reach")
    scale = lcm(*(part.denominator for part in parts))
    whole = [int(part * scale) for part in parts]
    common = gcd(*whole)
    return -(-(need * scale).numerator // ((need * scale).denominator * common)), [vote // common for vote in whole]
