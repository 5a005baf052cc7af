"""Documents that the program refuses: ways to spoil a line in its text or its tree, by the refusal that they aim at."""
from __future__ import annotations

import copy
import json
import random
from collections.abc import Callable, Iterator
from typing import Any

Document = Any
Way = Callable[[list[Document], random.Random], bytes]
# The most bytes of a document to check.
MOST_BYTES = 8388608
# How many documents of each refusal are wanted at least; of how many fewer are made, as they are large; and of all.
LEAST, FEW, REFUSED = 20, {1: 3}, 2000
TABLES = {"table", "cost-table"}
LISTS = {"airport", "bankruptcy", "voting"}
MATRICES = {"tree", "assignment"}
CLASSES = TABLES | LISTS | MATRICES


def game_of(kinds: set[str], lines: list[Document], draw: random.Random) -> Document:
    """A line of one of these classes, to be changed."""
    return copy.deepcopy(draw.choice([line for line in lines if line["game"]["class"] in kinds]))


def some_numbers(game: Any, draw: random.Random) -> tuple[list[Any], int]:
    """A list of numbers of a game, and a place in it."""
    if "matrix" in game:
        row = draw.choice(game["matrix"])
    elif "sparse" in game:
        return draw.choice(game["sparse"]), 1
    else:
        row = next(game[key] for key in ("worths", "costs", "claims", "weights") if key in game)
    return row, draw.randrange(len(row))


def written(document: Document) -> bytes:
    """A document as a text."""
    return json.dumps(document).encode()


def too_long(lines: list[Document], draw: random.Random) -> bytes:
    return written(draw.choice(lines)) + b" " * MOST_BYTES


def no_json(lines: list[Document], draw: random.Random) -> bytes:
    text = written(draw.choice(lines))
    i = draw.randrange(1, len(text) - 1)
    bads = [b"\xff", b"\x00", b"/* */", b"'", b"NaN", b'"\\ud800"', b"1e400", b"[" * 130, b"}", b",,", b"01"]
    bad = draw.choice(bads)
    return draw.choice([text[:i], text[:i] + bad + text[i:], text + bad, b"\xef\xbb\xbf" + text])


def no_shape(lines: list[Document], draw: random.Random) -> bytes:
    document = copy.deepcopy(draw.choice(lines))
    part = draw.choice([document, document["game"]])
    key = draw.choice(sorted(part))
    way = draw.randrange(4)
    if way == 0:
        del part[key]
    elif way == 1:
        part[draw.choice(["key", "Game", "note", "cost", "worth", ""])] = draw.choice([1, "a", [], None])
    elif way == 2:
        part[key] = draw.choice([None, True, {}, "x", 3])
    else:
        document["game"]["version"] = draw.choice(["2", 3, 0, "1", None, 1.5])
    return written(document)


def other_players(lines: list[Document], draw: random.Random) -> bytes:
    document = game_of(TABLES | LISTS, lines, draw)
    game = document["game"]
    if "players" in game and ("worths" not in game or draw.random() < 0.5):
        game["players"] = draw.choice([0, 17, -1, 2**63 - 1, 1.5])
    else:
        key = next(key for key in ("worths", "costs", "claims", "weights") if key in game)
        game[key] = draw.choice([[], game[key] + [1] * 70] + [game[key][1:]] * (key == "worths"))
    return written(document)


def other_number(lines: list[Document], draw: random.Random) -> bytes:
    document = game_of(CLASSES, lines, draw)
    values = [2**40, -(2**40), 10**30, "2/4", "1/65537", "-0", "+1", "1.5", "0x3/2", "1_0", "9" * 40, 2.5, -0.0, 1e3]
    if draw.random() < 0.3:
        shares = document["shares"]
        bad = draw.choice(["2/4", "1/0", "", "x", 2.5, 2**63, "9" * 40, "9" * 1000, "1/" + "9" * 40])
        shares[draw.randrange(len(shares))] = bad
    else:
        row, i = some_numbers(document["game"], draw)
        row[i] = draw.choice(values)
    return written(document)


def other_names(lines: list[Document], draw: random.Random) -> bytes:
    document = game_of(CLASSES, lines, draw)
    n = len(document["shares"])
    names = [f"player {i}" for i in range(n)]
    bad = draw.choice(["", "a" * 65, "ü" * 33])
    document["game"]["names"] = draw.choice([names[1:], names + ["one"], [bad] + names[1:], [names[-1]] + names[1:]])
    if n == 1:
        document["game"]["names"] = []
    return written(document)


def other_coalition(lines: list[Document], draw: random.Random) -> bytes:
    sparse = [line for line in lines if "sparse" in line["game"]]
    document = copy.deepcopy(draw.choice(sparse))
    items = document["game"]["sparse"]
    item = draw.randrange(len(items))
    bad = draw.choice([[], [1, 1], [0], [len(document["shares"]) + 1], [2**62], items[item - 1][0]])
    items[item] = [bad, items[item][1]]
    return written(document)


def other_estate(lines: list[Document], draw: random.Random) -> bytes:
    document = game_of({"bankruptcy"}, lines, draw)
    document["game"]["estate"] = draw.randint(101, 10**6)
    return written(document)


def other_matrix(lines: list[Document], draw: random.Random) -> bytes:
    document = game_of(MATRICES, lines, draw)
    matrix = document["game"]["matrix"]
    i = draw.randrange(len(matrix))
    if document["game"]["class"] == "tree" and draw.random() < 0.7:
        matrix[i][draw.randrange(len(matrix))] = draw.randint(10, 99)
    elif i:
        matrix[i] = matrix[i][1:]
    else:
        matrix[-1] = matrix[-1] + [1]
    return written(document)


def other_proposal(lines: list[Document], draw: random.Random) -> bytes:
    document = copy.deepcopy(draw.choice(lines))
    shares = document["shares"]
    document["shares"] = draw.choice([shares[1:], shares + [0], []])
    return written(document)


def too_fine(lines: list[Document], draw: random.Random) -> bytes:
    document = copy.deepcopy(draw.choice(lines))
    fine = [f"1/{2**63 + draw.randint(1, 999)}", str(2**110 + draw.randint(0, 9)), f"-1/{2**100 + draw.randint(1, 99)}"]
    document["shares"][draw.randrange(len(document["shares"]))] = draw.choice(fine)
    return written(document)


def other_certificate(lines: list[Document], draw: random.Random) -> bytes:
    document = copy.deepcopy(draw.choice([line for line in lines if line["certificate"]["levels"]]))
    certificate, n = document["certificate"], len(document["shares"])
    levels = certificate["levels"]
    level = draw.choice(levels)
    groups = level["coalitions"]
    ways: list[Callable[[], Any]] = [
        lambda: groups.clear(),
        lambda: groups.append(groups[0]),
        lambda: groups.insert(0, [[], 1]),
        lambda: groups.insert(0, [[draw.choice([0, n + 1, 40000000, 2**62])], 1]),
        lambda: groups.append([list(range(1, n + 1)), 1]),
        lambda: groups[0].__setitem__(0, groups[0][0][::-1] + groups[0][0][:1]),
        lambda: groups[0].__setitem__(1, draw.choice([2**63, -(2**63), "1", 1.5, None])),
        lambda: level.__setitem__("total", draw.choice([2**63, "1", 0.5])),
        lambda: level.__setitem__("excess", draw.choice([1, "2/4", "1e3", "", "9" * 40, "-0"])),
        lambda: level["bounds"].append([draw.choice([0, n + 1, 900000000]), 1]),
        lambda: level["earlier"].append([[n], 1]) if level is levels[0] else level["earlier"].append([[], 1]),
        lambda: level.__setitem__("note", 1),
        lambda: level.pop(draw.choice(sorted(level))),
        lambda: certificate.__setitem__("mode", draw.choice(["Span", "", 1])),
        lambda: certificate.__setitem__("levels", levels * n),
        lambda: certificate.__setitem__("note", 1),
    ]
    draw.choice(ways)()
    return written(document)


def other_quota(lines: list[Document], draw: random.Random) -> bytes:
    document = game_of({"voting"}, lines, draw)
    game = document["game"]
    if draw.random() < 0.5:
        game["quota"] = draw.choice([0, sum(game["weights"]) + draw.randint(1, 99), 1001])
    else:
        game["weights"][0] = draw.randint(1001, 9999)
    return written(document)


def other_class(lines: list[Document], draw: random.Random) -> bytes:
    """What the program answers by its usage, as it serves no certificate of the class or of so many players."""
    document = game_of({"assignment"}, lines, draw)
    document["game"]["class"] = "market"
    return written(document)


WAYS: dict[int, Way] = {
    1: too_long, 2: no_json, 3: no_shape, 4: other_players, 5: other_number, 6: other_names, 7: other_coalition,
    8: other_estate, 9: other_matrix, 10: other_proposal, 11: too_fine, 12: other_certificate, 13: other_quota,
    14: other_class,
}  # fmt: skip


def refused(lines: list[Document], draw: random.Random) -> Iterator[bytes]:
    """Documents that mostly are refused, as many of each way but for the large ones."""
    for way, make in WAYS.items():
        for _ in range(FEW.get(way, REFUSED // (len(WAYS) - len(FEW)) + LEAST)):
            yield make(lines, draw)
