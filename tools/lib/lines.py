"""Documents to check: games of every class whose lines the program prints, lines made by hand, games at the limits of
what is read, and texts that aren't one document."""
from __future__ import annotations

import glob
import json
import os
import subprocess
import sys
from collections.abc import Callable, Iterator, Sequence
from fractions import Fraction
from random import Random
from typing import Any

from games import Tree, halved, members
from program import TOP
from spoils import spoilt_in_turn as spoilt
from statuses import is_whole, status_of

__all__ = ["spoilt"]  # is handed on

# Games of each class; in version 2 they have half of each number.
GAMES: list[Any] = [
    {"class": "table", "players": 3, "worths": [0, 0, 4, 0, 0, 0, 0]},
    {"class": "table", "players": 4, "worths": [1, 0, 6, 2, 5, 4, 9, 0, 3, 3, 7, 4, 8, 6, 14]},
    {
        "class": "table",
        "players": 4,
        "names": ["ann", "bob", "cem", "dan"],
        "default": 1,
        "sparse": [
            [["bob", "ann"], 4],
            [[1, "cem"], 3],
            [[3, 4], 2],
            [[1, 2, 3], 6],
            [["dan", 1, 2], 5],
            [[1, 2, 3, 4], 10],
        ],
    },
    {"class": "cost-table", "players": 3, "worths": [8, 7, 11, 6, 10, 9, 13]},
    {"class": "airport", "costs": [2, 4, 4, 6, 9]},
    {"class": "bankruptcy", "claims": [10, 20, 30, 40], "estate": 45},
    {"class": "bankruptcy", "claims": [10, 20, 30, 40], "estate": 70},
    {"class": "tree", "matrix": [[0, 7, 9, 8, 4], [7, 0, 2, 9, 6], [9, 2, 0, 3, 5], [8, 9, 3, 0, 1], [4, 6, 5, 1, 0]]},
    {"class": "assignment", "matrix": [[5, 8, 2], [7, 6, 3]]},
    {"class": "assignment", "matrix": [[5, 8], [7, 6], [6, 6]]},
    {"class": "voting", "quota": 5, "weights": [4, 2, 1, 1]},
]
LARGE_GAMES: list[Any] = [
    {"class": "airport", "costs": [7 * i * i % 41 + 1 for i in range(20)]},
    {"class": "bankruptcy", "claims": [5 * i * i % 31 + 1 for i in range(19)], "estate": 90},
]
# Games of a few players at a limit of what is read, each with shares.
LIMITS: list[Any] = [
    ({"class": "tree", "matrix": [[0, 1], [1, 0]]}, [1]),
    ({"class": "tree", "matrix": [[0, 1], [2, 0]]}, [1]),
    ({"class": "tree", "matrix": [[0, 1], [1, 1]]}, [1]),
    ({"class": "tree", "matrix": [[0, 1, 1], [1, 0, 1]]}, [1, 0]),
    ({"class": "tree", "matrix": [[0]]}, []),
    ({"class": "assignment", "matrix": [[1]]}, [1, 0]),
    ({"class": "assignment", "matrix": [[1] * 16]}, [1] + [0] * 16),
    ({"class": "market", "matrix": [[1]]}, [1, 0]),
    ({"class": "airport", "costs": [1], "names": ["ü" * 32]}, [1]),
    ({"class": "airport", "costs": [1], "names": ["ü" * 33]}, [1]),
    ({"class": "airport", "costs": [2**40 - 1]}, [2**40 - 1]),
    ({"class": "airport", "costs": [2**40]}, [2**40]),
    ({"class": "airport", "costs": [str(2**39) + "/3"], "version": 2}, [str(2**39) + "/3"]),
    ({"class": "airport", "costs": [str(2**40 + 1) + "/3"], "version": 2}, [str(2**40 + 1) + "/3"]),
    ({"class": "airport", "costs": [1] * 64}, [1] + [0] * 63),
    ({"class": "airport", "costs": [1] * 65}, [1] + [0] * 64),
    ({"class": "airport", "costs": [1] * 17, "excess": "per-head"}, [1] + [0] * 16),
    ({"class": "airport", "costs": [1]}, [f"1/{2**63}"]),
    ({"class": "airport", "costs": [1]}, [f"1/{2**63 + 1}"]),
    ({"class": "airport", "costs": [1]}, [str(2**110 - 1)]),
    ({"class": "airport", "costs": [1]}, [str(2**110)]),
    ({"class": "airport", "costs": [1]}, [str(-(2**127))]),
    ({"class": "airport", "costs": [1]}, [-(2**63)]),
    ({"class": "airport", "costs": [1]}, [2**63]),
    ({"class": "table", "players": 1, "sparse": [[[1], 1]], "default": "1/65536", "version": 2}, [1]),
    ({"class": "table", "players": 1, "sparse": [[[1], 1]], "default": "1/65537", "version": 2}, [1]),
    ({"class": "table", "players": 1, "worths": [-1]}, [-1]),
    ({"class": "bankruptcy", "claims": [1, 1], "estate": 2}, [1, 1]),
    ({"class": "bankruptcy", "claims": [1, 1], "estate": 3}, [1, 2]),
    ({"class": "voting", "quota": 1000, "weights": [1000]}, [1]),
    ({"class": "voting", "quota": 1, "weights": [1001]}, [1]),
    ({"class": "voting", "quota": 2, "weights": [1]}, [1]),
    ({"class": "voting", "quota": 0, "weights": [1]}, [1]),
    ({"class": "voting", "quota": 1, "weights": [1] + [0] * 32}, [1] + [0] * 32),
]
# Texts that aren't one document to check, and what may be put in front of one, where only the last `game` counts.
TEXTS = [
    b"",
    b"[]",
    b"7",
    b"{}",
    b'{"game":1}',
    b"{} {}",
    b'{"answer":"nucleolus"}',
    b"\xff",
    b"\xef\xbb\xbf{}",
    b"[" * 4000,
]
EARLIER_GAMES = [
    '"\\ud800"',
    '"\\ud83d\\ude00"',
    "NaN",
    "1e400",
    "9" * 400,
    "-0",
    '"[[\\"[["',
    "[" * 126 + "]" * 126,
    "[" * 127 + "]" * 127,
]


def run(words: list[str], text: bytes) -> tuple[int, bytes, bytes]:
    done = subprocess.run(words, input=text, stdout=subprocess.PIPE, stderr=subprocess.PIPE)
    return done.returncode, done.stdout, done.stderr


# ---- Lines of few players, and at limits


def printed_lines(program: str) -> Iterator[Any]:
    """The lines of the program for each game, version, measure and answer."""
    games = [dict(game, excess=measure) for game in GAMES for measure in ("plain", "per-head")] + LARGE_GAMES
    for game in games + [halved(game) for game in games]:
        for answer in ("nucleolus", "prenucleolus"):
            status, line, _ = run([program, answer], json.dumps({"game": game}).encode())
            tree = json.loads(line) if is_whole(line) and status_of(line.decode()) == status else {}
            if status not in (0, 1) or (status == 0) != ("certificate" in tree):
                sys.exit(f"lines: {answer} of {game} ends with {status} and prints {line[:80]!r}")
            if status == 0:
                yield tree


def document_of(game: Any, shares: Sequence[Any], levels: list[Any], mode: str = "players") -> Any:
    certificate = {"mode": mode, "levels": levels}
    return {
        "answer": "prenucleolus",
        "certificate": certificate,
        "game": game,
        "shares": [str(share) for share in shares],
    }


def level_of(excess: Any, groups: list[list[int]]) -> Any:
    """A level of groups that hold each player once."""
    return {
        "excess": str(excess),
        "coalitions": [[group, 1] for group in groups],
        "earlier": [],
        "bounds": [],
        "total": 1,
    }


def one_and_others(players: int, player: int) -> list[list[int]]:
    others = [i for i in range(1, players + 1) if i != player]
    return [[player], others] if player < players else [others, [player]]


def at_the_limits() -> Iterator[Any]:
    for game, shares in LIMITS:
        for mode in ("players", "span"):
            yield dict(document_of(game, shares, [], mode), shares=shares)
    level = level_of(-1, [[1], [2]])
    yield document_of({"class": "airport", "costs": [2, 2]}, [1, 1], [level, level])


def large_votes() -> Iterator[Any]:
    """Votes that the first player wins, alone or with the second. With all to the first each player alone has the
    excess 0, and the certificate is right; where others get something, the third alone and all others still have
    it."""
    for players in (17, 32):
        for weights in ([500] + [4 + i % 3 for i in range(players - 1)], [496, 4] + [0] * (players - 2)):
            game = {"class": "voting", "quota": 500, "weights": weights}
            third = level_of(0, one_and_others(players, 3))
            yield document_of(game, [1] + [0] * (players - 1), [level_of(0, [[i] for i in range(1, players + 1)])])
            for some in (["1/4", "1/4", 0, "1/2"], ["1/3", "2/3", 0, "1/6", "-1/6"], [-1, 1, 0, "1/2", "1/2"]):
                yield document_of(game, some + [0] * (players - len(some)), [third])


def large_losses() -> Iterator[Any]:
    """An airport and an estate at shares that are far from the nucleolus but for the first player, who pays half of
    its cost or gets half of its claim: it alone and all others have one excess, and some group has more."""
    costs, claims = LARGE_GAMES[0]["costs"], LARGE_GAMES[1]["claims"]
    for most in (3, 7, 12):
        payments = [Fraction(costs[0], 2)] + [Fraction(0)] * (len(costs) - 1)
        payments[most] = max(costs) - payments[0] + 5
        payments[1] = Fraction(-5)
        yield document_of(LARGE_GAMES[0], payments, [level_of(-payments[0], one_and_others(len(costs), 1))])
        for beyond in (4, -3):
            shares = [Fraction(claims[0], 2)] + [Fraction(claim, 4) for claim in claims[1:]]
            shares[most] = claims[most] + beyond if beyond > 0 else Fraction(beyond)
            shares[most - 1] += LARGE_GAMES[1]["estate"] - sum(shares)
            yield document_of(LARGE_GAMES[1], shares, [level_of(-shares[0], one_and_others(len(claims), 1))])


def texts(program: str) -> Iterator[bytes]:
    """All texts that aren't spoilt: examples, lines of the program and by hand, and what isn't one document."""
    documents = [*printed_lines(program), *large_votes(), *large_losses()]
    examples = sorted(glob.glob(os.path.join(TOP, "examples", "*.json")))
    if not examples:
        sys.exit("lines: there are no examples")
    for path in examples:
        with open(path, "rb") as file:
            yield file.read()
    for document in [*documents, *at_the_limits()]:
        yield json.dumps(document).encode()
    yield from TEXTS
    for game in EARLIER_GAMES:
        yield ('{"game":' + game + "," + json.dumps(documents[0])[1:]).encode()


# ---- Lines whose levels are made by hand, by chance, of games of many players


def votes_line(draw: Random) -> Tree:
    """A line about votes of above 16 players."""
    n = draw.randint(17, 32)
    weights = [draw.choice([0, 1, 4, 5, 400])] + [draw.randint(0, 18) for _ in range(n - 1)]
    weights[1] += not sum(weights)
    quota = draw.randint(1, sum(weights))
    game = {"class": "voting", "weights": weights, "quota": quota}
    shares = [Fraction(0)] * n
    for _ in range(draw.randint(1, 4)):
        i, j, part = draw.randrange(n), draw.randrange(n), Fraction(draw.randint(0, 4), draw.randint(1, 4))
        shares[i] += part
        shares[j] -= part
    shares[draw.randrange(n)] += 1
    return with_levels(draw, game, shares, lambda some: sum(weights[i] for i in some) >= quota, 1)


def large_line(draw: Random) -> Tree:
    """A line about an airport or an estate of many players, at shares that are far from right, or near."""
    n = draw.choice([2, 3, 5, 8, 17, 18, 20, 33, 64])
    numbers = [draw.randint(0, draw.choice([3, 40])) for _ in range(n)]
    if draw.random() < 0.5:
        game: Tree = {"class": "airport", "costs": numbers}
        sign, whole = -1, max(numbers)
        worth: Callable[[set[int]], int] = lambda some: -max((numbers[i] for i in some), default=0)  # noqa: E731
    else:
        whole = sum(numbers) * draw.randint(0, 12) // 12
        game, sign = {"class": "bankruptcy", "claims": numbers, "estate": whole}, 1
        worth = lambda some: max(0, whole - sum(numbers[i] for i in range(n) if i not in some))  # noqa: E731
    shares = [Fraction(0)] * n
    for _ in range(draw.randint(1, n)):
        shares[draw.randrange(n)] += Fraction(draw.randint(-1, 6), draw.randint(1, 3))
    shares[draw.randrange(n)] += whole - sum(shares)
    return with_levels(draw, game, shares, worth, sign)


def with_levels(
    draw: Random, game: Tree, shares: list[Fraction], worth: Callable[[set[int]], int], sign: int
) -> Tree:
    """The line of some levels, whose excesses are right."""
    everyone, levels = set(range(len(shares))), []

    def excess(some: set[int]) -> Fraction:
        return worth(some) - sign * sum((shares[i] for i in some), Fraction(0))

    for _ in range(draw.randint(0, 3)):
        some = set(draw.sample(range(len(shares)), min(len(shares) - 1, draw.choice([1, 1, 1, 2, 3])) or 1))
        groups = [some, everyone - some, *({i} for i in everyone), *(everyone - {i} for i in everyone)]
        equal = [group for group in groups if group and group != everyone and excess(group) == excess(some)]
        masks = sorted({sum(1 << i for i in group) for group in equal})
        coalitions = [[members(mask), 1] for mask in masks]
        level: Tree = {"bounds": [], "coalitions": coalitions, "earlier": [], "excess": str(excess(some))}
        levels.append({**level, "total": sum(mask & 1 for mask in masks)})
    mode = "span" if len(shares) <= 16 and draw.random() < 0.5 else "players"
    certificate, rule = {"levels": levels, "mode": mode}, draw.choice(["nucleolus", "prenucleolus"])
    return {"answer": rule, "certificate": certificate, "game": game, "shares": [str(share) for share in shares]}
