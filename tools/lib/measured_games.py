"""The games that docs/measurements.md measures: those that once kept a solver busy, and usual ones."""
from __future__ import annotations

import math
import random
from collections.abc import Callable, Iterator
from fractions import Fraction
from functools import partial
from typing import Any

LIMIT = 1 << 40
Game = dict[str, Any]
Making = Callable[[], Game]


def table(players: int, worth: Callable[[int], int]) -> Game:
    """The table whose worths are a function of the mask, scaled down below the limit of numbers."""
    worths = [worth(mask) for mask in range(1, 1 << players)]
    divisor = max(1, -(-max(abs(value) for value in worths) // (LIMIT - 1)))
    return {"class": "table", "players": players, "worths": [value // divisor for value in worths]}


def size_of(mask: int) -> int:
    """The number of members."""
    return bin(mask).count("1")


def weight_of(weights: list[int], mask: int) -> int:
    """The sum of the members' weights."""
    return sum(weight for i, weight in enumerate(weights) if mask >> i & 1)


def squares(weights: list[int]) -> Game:
    """The table of the squares of the sums of weights."""
    return table(len(weights), lambda mask: weight_of(weights, mask) ** 2)


def grown(players: int, ratio: float) -> list[int]:
    """Weights from 10 on, each the one before times a ratio, rounded down."""
    return [int(10 * ratio**i) for i in range(players)]


def fibonacci(players: int) -> list[int]:
    """The Fibonacci numbers 1, 2, 3, 5, .."""
    weights = [1, 2]
    while len(weights) < players:
        weights.append(weights[-1] + weights[-2])
    return weights[:players]


def network(players: int, cost: Callable[[int, int], int]) -> Game:
    """The network whose links cost a function of their two points."""
    points = range(players + 1)
    rows = [[cost(min(i, j), max(i, j)) if i != j else 0 for j in points] for i in points]
    return {"class": "tree", "matrix": rows}


def cut(players: int, weights: dict[tuple[int, int], int]) -> Game:
    """The table of a cut function: the weights of the pairs of which a coalition holds just one."""
    return table(players, lambda mask: sum(w for (i, j), w in weights.items() if (mask >> i ^ mask >> j) & 1))


def generated(players: int, seed: int) -> list[int]:
    """The worths of `gen table`, which docs/formats.md describes."""
    state, worths = seed, []
    for mask in range(1, 1 << players):
        if mask & (mask - 1):
            state = (state * 1103515245 + 12345) % (1 << 31)
            worths.append(state >> 11)
        else:
            worths.append(0)
    return worths


def solved_games(players: int) -> Iterator[tuple[str, Making]]:
    """The games that the solvers are measured on, by name. All numbers are drawn before the first is made."""
    draw = random.Random(1)
    shuffled = [draw.randrange(1, 100) for _ in range(players)]
    votes = [draw.randrange(1, 61) for _ in range(players)]
    links = {(i, j): draw.randrange(LIMIT) for j in range(players + 1) for i in range(j)}
    extra = [draw.randrange(3) for _ in range(1, 1 << players)]
    pairs = {(i, j): draw.randrange(100) for i in range(players) for j in range(i)}
    quota = -(-2 * sum(votes) // 3)
    numbers = list(range(1, players + 1))
    yield "the generator's table", lambda: {"class": "table", "players": players, "worths": generated(players, 1)}
    yield "the same as costs", lambda: {"class": "cost-table", "players": players, "worths": generated(players, 1)}
    yield "near ties", lambda: table(players, lambda mask: 1000 * size_of(mask) ** 2 + extra[mask - 1])
    yield "square of the mask", lambda: table(players, lambda mask: mask**2)
    yield "cube of the mask", lambda: table(players, lambda mask: mask**3)
    yield "squares, Fibonacci weights", lambda: squares(fibonacci(players))
    yield "squares, weights growing by 1.3", lambda: squares(grown(players, 1.3))
    yield "squares, sorted random weights", lambda: squares(sorted(shuffled))
    yield "squares, random weights", lambda: squares(shuffled)
    yield "squares, weights from 1 on", lambda: squares(numbers)
    yield "squares of sizes", lambda: table(players, lambda mask: 1000 * size_of(mask) ** 2)
    yield "mask xor its half", lambda: table(players, lambda mask: mask ^ mask >> 1)
    yield "root of the mask", lambda: table(players, lambda mask: math.isqrt(mask * 10**18))
    yield "size times its distance", lambda: table(players, lambda mask: size_of(mask) * (2 * players - size_of(mask)))
    yield "cut", lambda: cut(players, pairs)
    yield "network, a line", lambda: network(players, lambda i, j: j - i)
    yield "network, random links", lambda: network(players, lambda i, j: links[i, j])
    yield "votes, two thirds", lambda: {"class": "voting", "quota": quota, "weights": votes}


# Of the hardest table that a search over some sixty families and 230,000 games of 12 players led to: what each player
# adds, and what pairs of players add, by their letters from a on.
HARD_PLAYERS = [12, 186, 129, 49, 129, 166, 14, 34, 187, 174, 107, 6, 33, 52, 198, 188]
HARD_PAIRS = {
    100: "bj bp ch dg di do eg eh em fk im lm np",
    50: "bn hk ho ip",
    3: "ci cp de ej ep fm gh gi gn hm mo",
    2: "be bh cl cn dk fg fn fo gj gl io jl jm",
    1: "af ah aj ak an ao ce cf ck dh fi gk gm hj ik jk jp ko kp",
}


def hardest_table() -> Game:
    """A table near a concave function of the sizes, whose many levels are told by small numbers and by coins. A single
    player has nothing."""
    draw, players = random.Random(1), len(HARD_PLAYERS)

    def mask_of(letters: str) -> int:
        return sum(1 << ord(letter) - ord("a") for letter in letters)

    pairs = [(mask_of(pair), more) for more, words in HARD_PAIRS.items() for pair in words.split()]

    def worth(mask: int) -> int:
        size = size_of(mask)
        if size < 2:
            return 0
        inside = sum(more for pair, more in pairs if pair & mask == pair)
        return 1000 * size * (2 * players - size) + weight_of(HARD_PLAYERS, mask) + inside + draw.randrange(2)

    return table(players, worth)


def rising_market(size: int) -> Game:
    """A market whose least prices take exponentially many steps where buyers don't take turns: pairs on the diagonal
    are worth the same, those below it a bit more, the later the seller, and those above it nothing."""
    base = 1 << size + 1
    rows = [[base if i == k else base + (1 << k) if k < i else 0 for k in range(size)] for i in range(size)]
    return {"class": "market", "matrix": rows}


def turned(market: Game) -> Game:
    """The market with its buyers and sellers changed."""
    return {"class": "market", "matrix": [list(row) for row in zip(*market["matrix"])]}


def larger_games() -> Iterator[tuple[str, Making]]:
    """The greatest games of classes with bodies of their own, and the greatest with excess per head, by name."""
    draw = random.Random(2)
    costs = [draw.randrange(1, 10000) for _ in range(64)]
    votes = [draw.randrange(1, 32) for _ in range(32)]
    offers = [[LIMIT - 1 - draw.randrange(1000) for _ in range(32)] for _ in range(32)]
    yield "airport of 64", lambda: {"class": "airport", "costs": costs}
    yield "airport of 32", lambda: {"class": "airport", "costs": costs[:32]}
    yield "estate of 64", lambda: {"class": "bankruptcy", "claims": costs, "estate": sum(costs) // 3}
    yield "votes of 32", lambda: {"class": "voting", "quota": -(-2 * sum(votes) // 3), "weights": votes}
    yield "market, rising prices", lambda: rising_market(32)
    yield "the same, turned", lambda: turned(rising_market(32))
    yield "market, offers near 2^40", lambda: {"class": "market", "matrix": offers}
    few = {"class": "table", "excess": "per-head", "players": 8, "worths": generated(8, 1)}
    yield "per head, 8 players", lambda: few
    yield "airport of 16", lambda: {"class": "airport", "costs": costs[:16]}
    yield "estate of 16", lambda: {"class": "bankruptcy", "claims": costs[:16], "estate": sum(costs[:16]) // 3}
    for players in range(11, 16):
        yield f"square of the mask, {players} players", partial(table, players, lambda mask: mask**2)
    yield "the hardest table known", hardest_table
    yield "a sparse table of all coalitions", sparse_table
    yield "a table of fractions", fractions


def members(mask: int) -> list[int]:
    """The players of a coalition, as documents number them."""
    return [player + 1 for player in range(mask.bit_length()) if mask >> player & 1]


def sparse_table() -> Game:
    """All coalitions of 16 players as pairs, some with members by name: a document nearly as long as one may be."""
    names = [chr(ord("a") + player) for player in range(16)]
    pairs: list[Any] = []
    for mask in range(1, 1 << 16):
        group = members(mask)
        named = [names[player - 1] for player in group] if mask % 32 < 15 else group
        pairs.append([named, len(group) ** 2 + mask % 3])
    return {"class": "table", "names": names, "players": 16, "sparse": pairs}


def fractions() -> Game:
    """A table of 16 players with halves, thirds and sixths."""
    worths = [Fraction(size_of(mask) ** 3, (1, 6, 2, 3)[mask % 4]) for mask in range(1, 1 << 16)]
    return {"class": "table", "players": 16, "version": 2, "worths": [as_written(worth) for worth in worths]}


def as_written(number: Fraction) -> int | str:
    """A number as documents of version 2 have it."""
    return number.numerator if number.denominator == 1 else str(number)


def level(groups: list[list[int]], total: int, earlier: list[list[int]] | None = None) -> dict[str, Any]:
    """A level of a certificate whose coalitions, and earlier ones, have the excess 0 and the weight 1."""
    pairs, more = [[group, 1] for group in groups], [[group, 1] for group in earlier or []]
    return {"bounds": [], "coalitions": pairs, "earlier": more, "excess": "0", "total": total}


def settling(players: int) -> list[dict[str, Any]]:
    """Levels of which each settles one player more, by that player alone and all others."""
    everybody = list(range(1, players + 1))
    # (for the last player, who needs no level, these would not be in mask order)
    return [level([[player], [other for other in everybody if other != player]], 1) for player in everybody[:-1]]


def claim(game: Game, levels: list[dict[str, Any]], mode: str, shares: list[int]) -> dict[str, Any]:
    """A document to check."""
    certificate = {"levels": levels, "mode": mode}
    return {"answer": "nucleolus", "certificate": certificate, "game": game, "shares": shares}


def long_claims() -> Iterator[tuple[str, Making]]:
    """Documents to check with certificates made by hand, by name: long ones, and those of mode players. In each game
    every excess is 0 at the shares."""
    draw = random.Random(3)
    votes = [200, *(draw.randrange(1, 7) for _ in range(31))]
    nothing, free = [0] * 16, {"class": "airport", "costs": [0] * 16}
    table_of_nothing: Game = {"class": "table", "players": 16, "worths": [0] * ((1 << 16) - 1)}
    first_decides: Game = {"class": "voting", "quota": 200, "weights": votes}
    every = [members(mask) for mask in range(1, (1 << 16) - 1)]
    once, again = level(every, (1 << 15) - 1), level(every, (1 << 16) - 2, every)
    yield "five levels of all coalitions", lambda: claim(free, [once] * 5, "span", nothing)
    yield "three levels, all earlier", lambda: claim(free, [once, again, again], "span", nothing)
    yield "mode players, votes of 32", lambda: claim(first_decides, settling(32), "players", [1] + [0] * 31)
    yield "mode players, a table of 16", lambda: claim(table_of_nothing, settling(16), "players", nothing)
    per_head = {**table_of_nothing, "excess": "per-head"}
    yield "mode players, a table of 16 per head", lambda: claim(per_head, settling(16), "players", nothing)
    yield "mode span, 16 per head", lambda: claim({**free, "excess": "per-head"}, settling(16), "span", nothing)
