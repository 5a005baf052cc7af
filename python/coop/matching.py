"""The greatest value of a matching of buyers with sellers."""
from __future__ import annotations

from fractions import Fraction
from typing import Optional, Sequence


def best_matching(rows: Sequence[Sequence[Fraction]]) -> Fraction:
    """The greatest value of a matching of rows with columns, none of it negative: the Hungarian method. `prices` and
    `profits` add to at least the value of each pair, and to just that of the pairs in `owner`, by columns from 1."""
    if not rows or not rows[0]:
        return Fraction(0)
    if len(rows) > len(rows[0]):
        rows = [[row[j] for row in rows] for j in range(len(rows[0]))]
    columns = range(1, len(rows[0]) + 1)
    profits, prices = [Fraction(0)] * len(rows), [Fraction(0)] * (len(columns) + 1)
    owner: list[Optional[int]] = [None] * (len(columns) + 1)
    for row in range(len(rows)):
        assign(rows, row, profits, prices, owner)
    return sum((rows[i][j - 1] for j in columns if (i := owner[j]) is not None), Fraction(0))


def assign(
    rows: Sequence[Sequence[Fraction]],
    row: int,
    profits: list[Fraction],
    prices: list[Fraction],
    owner: list[Optional[int]],
) -> None:
    """Gives a row a column, on the way by which prices rise least; rows on that way change theirs."""
    columns = range(1, len(prices))
    owner[0], column, seen = row, 0, [0]
    slack: dict[int, Fraction] = {}
    before: dict[int, int] = {}
    while (i := owner[column]) is not None:
        for j in columns:
            rest = profits[i] + prices[j] - rows[i][j - 1]
            if j not in seen and (j not in slack or rest < slack[j]):
                slack[j], before[j] = rest, column
        column = min((j for j in columns if j not in seen), key=slack.__getitem__)
        step = slack[column]
        for j in seen:
            taken = owner[j]
            assert taken is not None
            profits[taken] -= step
            prices[j] += step
        slack = {j: rest - step for j, rest in slack.items() if j not in seen}
        seen.append(column)
    while column:
        owner[column], column = owner[before[column]], before[column]
