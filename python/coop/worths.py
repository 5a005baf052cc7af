"""What all groups of a game are worth, in whole numbers over a common unit: quickly, for all classes."""
from __future__ import annotations

from fractions import Fraction
from math import lcm
from typing import Sequence

from .game import Game
from .linear import sums


def worths_of(game: Game) -> tuple[int, list[int]]:
    """A unit, and the worth of each group by its mask, times that; a cost is a negative worth. For at most 16
    players."""
    amounts = game.all_numbers()
    scale = lcm(*{q.denominator for q in amounts})
    unit = scale * game.factor
    if game.is_table:
        return unit, [game.sign * q for q in whole_of(amounts, scale)]
    if game.kind in ("tree", "assignment", "market"):
        rows = [whole_of(row, scale) for row in game.rows]
        return unit, networks(rows) if game.kind == "tree" else matchings(rows)
    whole = whole_of(game.amounts, scale)
    if game.kind == "airport":
        found = [0]
        for cost in whole:
            found += [min(worth, -cost) for worth in found]
        return unit, found
    single = int(game.single * scale)
    totals = sums(whole)
    if game.kind == "voting":
        return 1, [int(total >= single) for total in totals]
    return unit, [max(0, single - totals[-1] + total) for total in totals]


def whole_of(amounts: Sequence[Fraction], scale: int) -> list[int]:
    """Numbers times their common denominator."""
    return [q.numerator for q in amounts] if scale == 1 else [q.numerator * (scale // q.denominator) for q in amounts]


def matchings(rows: Sequence[Sequence[int]]) -> list[int]:
    """What buyers and sellers are worth together: each buyer with one seller more, or with none."""
    buyers, sellers = len(rows), len(rows[0])
    found = [0] * 2 ** (buyers + sellers)
    best = [0] * 2**sellers  # of the sellers, for the buyers so far
    tables = {0: best}
    for some in range(1, 2**buyers):
        first = (some & -some).bit_length() - 1
        rest, row = tables[some & some - 1], rows[first]
        new = list(rest)
        for j, value in enumerate(row):
            bit = 1 << j
            new = [max(now, value + rest[group ^ bit]) if group & bit else now for group, now in enumerate(new)]
        tables[some] = new
    for some, table in tables.items():
        found[some :: 2**buyers] = table
    return found


Groups = int
"""A set of groups: the bit of each group's mask."""


def networks(rows: Sequence[Sequence[int]]) -> list[int]:
    """Minus the least cost of a network that joins each group to the source, by Kruskal for all groups at once: a link
    is taken in the groups that have both of its ends, and in which the cheaper links don't join these yet."""
    n = len(rows) - 1
    points = range(n + 1)
    costs = [0] * (sum(max(row) for row in rows).bit_length() + 1)
    joined = [[0] * (n + 1) for _ in points]  # the groups in which two points are joined
    for a in points:
        joined[a][a] = groups_with(a - 1, n) if a else (1 << 2**n) - 1
    for cost, i, j in sorted((rows[i][j], i, j) for j in points for i in range(j)):
        taking = joined[i][i] & joined[j][j] & ~joined[i][j]
        if taking:
            join(joined, taking, i, j)
            add(costs, taking, cost)
    return [-cost for cost in listed(costs, 2**n)]


def add(costs: list[Groups], some: Groups, cost: int) -> None:
    """Adds a cost to those of some groups. Of each binary digit `costs` has the groups in whose cost it is 1."""
    carry = 0
    for k, digit in enumerate(costs):
        more = some if cost >> k & 1 else 0
        costs[k], carry = digit ^ more ^ carry, digit & (more | carry) | more & carry


def listed(costs: Sequence[Groups], count: int) -> list[int]:
    """The costs of so many groups: four binary digits of each are a digit of a text in base 16."""
    texts = []
    for k in range(0, len(costs), 4):
        four = sum(int(f"{digit:b}", 16) << place for place, digit in enumerate(costs[k : k + 4]))
        texts.append(f"{four:0{count}x}"[::-1])
    return [int("".join(digits), 16) for digits in zip(*texts[::-1])]


def join(joined: list[list[Groups]], taking: Groups, i: int, j: int) -> None:
    """Joins what is joined to two points, in the groups that take the link between these."""
    to_i, to_j = ([row[end] & taking for row in joined] for end in (i, j))
    for a, row in enumerate(joined):
        for b in range(a):
            row[b] |= to_i[a] & to_j[b] | to_j[a] & to_i[b]
            joined[b][a] = row[b]


def groups_with(player: int, n: int) -> Groups:
    """The groups of n players that have this one."""
    found, width = ((1 << (1 << player)) - 1) << (1 << player), 2 << player
    while width < 1 << n:
        found |= found << width
        width *= 2
    return found
