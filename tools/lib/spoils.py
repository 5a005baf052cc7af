"""Ways to spoil a line: by its numbers, by its structure, and as bytes. For the tools that try checkers."""
from __future__ import annotations

import copy
import json
import re
from collections.abc import Callable, Iterator, Sequence
from contextlib import suppress
from fractions import Fraction
from random import Random
from typing import Any

from games import MAKERS, NAMES, Tree


class Raw(str):
    """A text that is written into the JSON as it stands."""


class Pairs(list[Any]):
    """An object as a list of its keys and values, in which a key may stand twice."""


def text_of(tree: Any) -> str:
    """The JSON of a tree."""
    if isinstance(tree, Raw):
        return str(tree)
    if isinstance(tree, (Pairs, dict)):
        items = tree.items() if isinstance(tree, dict) else tree
        return "{" + ",".join(f"{text_of(key)}:{text_of(part)}" for key, part in items) + "}"
    if isinstance(tree, list):
        return "[" + ",".join(map(text_of, tree)) + "]"
    return json.dumps(tree, ensure_ascii=isinstance(tree, str) and len(tree) % 2 == 0)


# ---- Ways to spoil a tree

VALUES: list[Any] = [
    None, True, False, 0, 1, -1, 2, 2.5, "", "1", "2/4", "1/2", "-0", "-1/2", "ann", "span", "players", [], {}, [1, 1],
    [[1], 1],
    *map(Raw, [
        "-0", "1.0", "1e2", "1E400", "-1e400", "1e-400", "0e999999999999", "1.7976931348623158e308",
        "1.7976931348623159e308", "179769313486231580793" + "0" * 288, "9" * 400, "00", "01", "+1", ".5", "1.", "NaN",
        "Infinity", "-", '"\\ud800"', '"\\ud83d\\ude00"', '"\\u0031"', '"\\u0000"', '"\\x41"', "'a'",
        '"\t"', '"\x7f"', '"\\/"',
    ]),
    *(sign * 2**power + more for power in (40, 53, 62, 63, 64, 127) for more in (-1, 0, 1) for sign in (1, -1)),
    *map(str, [
        2**63, 2**110, 2**110 - 1, -(2**110), 2**127, 2**127 - 1, -(2**127), -(2**127) - 1, f"1/{2**63}",
        f"1/{2**63 + 1}", f"1/{2**127 - 1}", f"1/{2**127}", f"{2**127 - 1}/{2**127 - 2}",
    ]),
    "1/65536", "1/65537", "1/65535", "1/0", "0/1", "0/5", "1/1", "6/4", "1/ 2", " 1", "1 ", "1\n", "٣", "１", "1/2/3",
    "+1", "1e2", "1.5", "0x10", "1_000", "1/-2", "--1", "9" * 39, "9" * 40, "1/" + "9" * 39, "1/" + "0" * 40 + "2",
    "0" * 39,
    "1/" + "0" * 5000 + "7",
]


def places(tree: Any, path: tuple[Any, ...] = ()) -> Iterator[tuple[Any, ...]]:
    """The paths of all parts of a tree."""
    yield path
    items: Any = ()
    if isinstance(tree, dict):
        items = tree.items()
    elif isinstance(tree, list) and not isinstance(tree, Pairs):
        items = enumerate(tree)
    for key, part in items:
        yield from places(part, (*path, key))


def at(tree: Any, path: tuple[Any, ...]) -> Any:
    """The part at a path."""
    for key in path:
        tree = tree[key]
    return tree


def exact(text: Any) -> Fraction:
    """The fraction of a text that isn't long."""
    if not re.fullmatch("-?[0-9]{1,45}(/[0-9]{1,45})?", str(text)):
        raise ValueError
    return Fraction(text)


def anything(tree: Tree, draw: Random) -> None:
    """A part that is gone, twice there, elsewhere, another's, a little greater, or of another kind."""
    paths = [path for path in places(tree) if path]
    *front, last = draw.choice(paths)
    parent, way = at(tree, tuple(front)), draw.random()
    if way < 0.15:
        del parent[last]
    elif way < 0.25 and isinstance(parent, list):
        parent.insert(draw.randint(0, len(parent)), copy.deepcopy(parent[last]))
    elif way < 0.35 and isinstance(parent, list):
        other = draw.randrange(len(parent))
        parent[last], parent[other] = parent[other], parent[last]
    elif way < 0.45:
        parent[last] = copy.deepcopy(at(tree, draw.choice(paths)))
    elif way < 0.6 and type(parent[last]) is int:
        parent[last] += draw.choice([-1, 1, 2, -2, 2**32, 2**63, 2**64, -(2**64), 2**40])
    elif way < 0.75 and type(parent[last]) is str:
        try:
            parent[last] = str(exact(parent[last]) + Fraction(draw.choice([-1, 1]), draw.randint(1, 4)))
        except (ValueError, ZeroDivisionError):
            parent[last] = draw.choice(NAMES)
    else:
        parent[last] = draw.choice(VALUES)


# ---- Shares and certificates


def levels_of(tree: Tree) -> Any:
    """The levels of a certificate."""
    return tree["certificate"]["levels"]


def level(tree: Tree, draw: Random) -> Any:
    """One of them."""
    return draw.choice(levels_of(tree))


def move(tree: Tree, draw: Random) -> None:
    """What one gets goes to another."""
    shares = tree["shares"]
    i, j = draw.randrange(len(shares)), draw.randrange(len(shares))
    part = Fraction(draw.randint(1, 4), draw.choice([1, 2, 3, 7, 2**20, 2**61]))
    shares[i] = str(exact(shares[i]) + part)
    shares[j] = str(exact(shares[j]) - part)


def whole(tree: Any) -> int:
    """A weight that is a number still."""
    if type(tree) is not int:
        raise TypeError
    return tree


def scale_weights(tree: Tree, draw: Random) -> None:
    """All weights and the total of a level times a number; the total perhaps as it is after an overflow."""
    one, by = level(tree, draw), draw.choice([2, 3, -1, 0, 2**31, 2**40, 2**61, 2**62 - 1, 2**62, 2**63 - 1])
    for key in ("coalitions", "earlier", "bounds"):
        one[key] = [[place, whole(w) * by] for place, w in one[key]]
    one["total"] = whole(one["total"]) * by
    if draw.random() < 0.6:
        one["total"] = (one["total"] + 2**63) % 2**64 - 2**63


def wrap_weights(tree: Tree, draw: Random) -> None:
    """Weights whose sums are the total only after an overflow of 64 bits."""
    one = level(tree, draw)
    pairs = one["coalitions"]
    for pair in pairs:
        pair[1] += draw.choice([0, 2**62, 2**63 - 1 - pair[1]])
    alone = {player: weight for player, weight in one["bounds"]}
    sums = [sum(w for s, w in pairs + one["earlier"] if i in s) + alone.get(i, 0) for i in players_of(tree)]
    one["total"] = (draw.choice(sums) + 2**63) % 2**64 - 2**63


def players_of(tree: Tree) -> range:
    """The players of a line, from 1."""
    return range(1, len(tree["shares"]) + 1)


def copy_level(tree: Tree, draw: Random) -> None:
    """A level once more, anywhere."""
    levels = levels_of(tree)
    levels.insert(draw.randint(0, len(levels)), copy.deepcopy(draw.choice(levels)))


def lose_level(tree: Tree, draw: Random) -> None:
    """A level that is gone."""
    levels = levels_of(tree)
    del levels[draw.randrange(len(levels))]


def swap_levels(tree: Tree, draw: Random) -> None:
    """Levels in another order."""
    draw.shuffle(levels_of(tree))


def add_earlier(tree: Tree, draw: Random) -> None:
    """Coalitions of earlier levels with weights."""
    levels = levels_of(tree)
    j = draw.randrange(len(levels))
    known = {mask(s): s for one in levels[:j] for s, _ in one["coalitions"]}
    if not known:
        return
    have = {mask(s): [s, w] for s, w in levels[j]["earlier"]}
    for m in draw.sample(sorted(known), draw.randint(1, min(3, len(known)))):
        have[m] = [known[m], draw.choice([-2, -1, 0, 1, 2, 2**63 - 1, 1 - 2**63])]
    levels[j]["earlier"] = [have[m] for m in sorted(have)]
    balance(tree, draw, levels[j])


def mask(group: Any) -> int:
    """The mask of a group."""
    return sum(1 << i - 1 for i in group if isinstance(i, int) and 0 < i < 100)


def balance(tree: Tree, draw: Random, one: Any) -> None:
    """Makes the sums of a level even again, by weights of players alone in `bounds` or by more coalitions."""
    sums = {i: sum(w for s, w in one["coalitions"] + one["earlier"] if i in s) for i in players_of(tree)}
    top = max(sums.values()) + draw.choice([0, 0, 1])
    if draw.random() < 0.7:
        one["bounds"] = [[i, top - found] for i, found in sums.items() if top != found]
        one["total"] = top


def bound(tree: Tree, draw: Random) -> None:
    """A player alone with a weight."""
    one = level(tree, draw)
    have = {i: w for i, w in one["bounds"]}
    have[draw.randint(1, len(tree["shares"]))] = draw.choice([-1, 0, 1, 2, -(2**63) + 1])
    one["bounds"] = [[i, have[i]] for i in sorted(have)]
    if draw.random() < 0.5:
        balance(tree, draw, one)


def bound_all(tree: Tree, draw: Random) -> None:
    """All players alone, with as much more."""
    one = level(tree, draw)
    have, by = {i: w for i, w in one["bounds"]}, draw.choice([-1, 1, 2])
    one["bounds"] = [[i + 1, have.get(i + 1, 0) + by] for i in range(len(tree["shares"]))]
    one["total"] += by


def more_groups(tree: Tree, draw: Random) -> None:
    """A level gets coalitions of another level, or all of one excess, in their order."""
    one, other = level(tree, draw), level(tree, draw)
    have = {mask(s): [s, w] for s, w in one["coalitions"]}
    for s, w in other["coalitions"]:
        have.setdefault(mask(s), [s, w])
    one["coalitions"] = [have[m] for m in sorted(have)]
    balance(tree, draw, one)


def complement(tree: Tree, draw: Random) -> None:
    """A coalition and all the others instead, in the order of masks."""
    one, n = level(tree, draw), len(tree["shares"])
    have = {}
    for s, w in one["coalitions"]:
        t = [i for i in range(1, n + 1) if i not in s] if draw.random() < 0.5 else s
        have[mask(t)] = [t, w]
    one["coalitions"] = [have[m] for m in sorted(have)]


def turn_groups(tree: Tree, draw: Random) -> None:
    """The coalitions of a level in the other order."""
    level(tree, draw)["coalitions"].reverse()


def lose_group(tree: Tree, draw: Random) -> None:
    """A coalition that is gone."""
    groups = level(tree, draw)["coalitions"]
    del groups[draw.randrange(len(groups))]


def member(tree: Tree, draw: Random) -> None:
    """Another member of a coalition."""
    group = draw.choice(level(tree, draw)["coalitions"])[0]
    group[draw.randrange(len(group))] = draw.randint(1, len(tree["shares"]))


def weight(tree: Tree, draw: Random) -> None:
    """Another weight of a coalition, or another total."""
    one, by = level(tree, draw), draw.choice([-1, 1, 2])
    if draw.random() < 0.5:
        draw.choice(one["coalitions"])[1] += by
    else:
        one["total"] += by


def mode(tree: Tree, draw: Random) -> None:
    """The other mode."""
    certificate = tree["certificate"]
    certificate["mode"] = "span" if certificate["mode"] == "players" else "players"


def answer(tree: Tree, draw: Random) -> None:
    """The other rule."""
    tree["answer"] = "nucleolus" if tree["answer"] == "prenucleolus" else "prenucleolus"


def measure(tree: Tree, draw: Random) -> None:
    """Another measure, or a word for none."""
    tree["game"]["excess"] = draw.choice(["plain", "per-head", "per_head", None, "Plain"])


def excess(tree: Tree, draw: Random) -> None:
    """An excess that is a little greater or less."""
    one = level(tree, draw)
    one["excess"] = str(exact(one["excess"]) + Fraction(draw.choice([-1, 1]), draw.choice([1, 2, 3, 2**63, 2**90])))


def kind(tree: Tree, draw: Random) -> None:
    """Another class."""
    tree["game"]["class"] = draw.choice([*MAKERS, "Table", "constructor"])


def version(tree: Tree, draw: Random) -> None:
    """Another version, or none."""
    tree["game"]["version"] = draw.choice([1, 2, 3, 0, "2", None, Raw("2.0"), True])


def names(tree: Tree, draw: Random) -> None:
    """Other names, which may stand twice."""
    n = len(tree["shares"])
    some = [draw.choice(NAMES) for _ in range(n)]
    tree["game"]["names"] = some if draw.random() < 0.5 else draw.sample(NAMES * 3, n)


NUMBERS = ("worths", "sparse", "costs", "claims", "weights", "matrix", "estate", "quota", "default")
LISTS = ("worths", "costs", "claims", "weights", "matrix", "names", "sparse")


def numbers(tree: Tree, draw: Random) -> None:
    """Another number of the game."""
    game = tree["game"]
    key = draw.choice([key for key in NUMBERS if key in game] or ["default"])
    value = draw.choice([0, 1, -1, 2**40 - 1, 2**40, "1/2", "1/3", "1/65536", "-7/2", f"{2**40-1}/3", 5])
    part = game.get(key)
    if key == "matrix":
        i, j = draw.randrange(len(part)), draw.randrange(len(part[0]))
        part[i][j] = value
        if game["class"] == "tree" and draw.random() < 0.8 and j < len(part) and i < len(part[j]):
            part[j][i] = value
    elif key == "sparse" and part:
        draw.choice(part)[1] = value
    elif isinstance(part, list) and part:
        part[draw.randrange(len(part))] = value
    else:
        game[key] = value


def twice(tree: Tree, draw: Random) -> None:
    """A key twice in one object, with another value in front or behind."""
    objects = [path for path in places(tree) if isinstance(at(tree, path), dict)]
    path = draw.choice(objects)
    one = at(tree, path)
    pairs = Pairs([k, v] for k, v in one.items())
    if not pairs:
        return
    key, value = draw.choice(pairs)
    escaped = Raw('"' + "".join(f"\\u{ord(letter):04x}" for letter in key) + '"')
    pairs.insert(draw.randint(0, len(pairs)), [draw.choice([key, key, escaped]), draw.choice([value, *VALUES])])
    if not path:
        tree.clear()
        tree["\0"] = pairs
        return
    at(tree, path[:-1])[path[-1]] = pairs


def sizes(tree: Tree, draw: Random) -> None:
    """Another length of a list that the game has."""
    game = tree["game"]
    key = draw.choice([key for key in LISTS if key in game])
    if draw.random() < 0.5:
        game[key].append(copy.deepcopy(game[key][-1]) if game[key] else 0)
    elif game[key]:
        game[key].pop()


def add_to_a_share(tree: Tree, draw: Random) -> None:
    """One gets more, and nobody less."""
    i = draw.randrange(len(tree["shares"]))
    tree["shares"][i] = str(exact(tree["shares"][i]) + 1)


def reshare(tree: Tree, draw: Random) -> None:
    """A share of any kind."""
    tree["shares"][draw.randrange(len(tree["shares"]))] = draw.choice(VALUES)


Way = Callable[[Tree, Random], None]
ONCE: list[Way] = [
    move, add_to_a_share, excess, weight, scale_weights, wrap_weights, bound, bound_all, turn_groups, lose_group,
    member, copy_level, lose_level, swap_levels, add_earlier, more_groups, complement, mode, answer, measure, kind,
    version, names, numbers, sizes, reshare, anything,
]
SPOILS = [
    *ONCE, *[anything] * 4, move, move, wrap_weights, add_earlier, bound, more_groups, mode, excess, numbers,
    twice, twice, reshare,
]
# What a way ends by where a line has nothing of its kind any more.
NOTHING = (IndexError, KeyError, TypeError, ValueError, AttributeError, ZeroDivisionError)


def spoilt(base: Tree, draw: Random) -> Any:
    """A copy of a line, spoilt in some ways; some stay as they are."""
    tree = copy.deepcopy(base)
    for _ in range(draw.choice([0, 1, 1, 1, 1, 2, 2, 3])):
        with suppress(*NOTHING):
            draw.choice(SPOILS)(tree, draw)
    return tree["\0"] if list(tree) == ["\0"] else tree


def spoilt_in_turn(lines: Sequence[Tree], count: int) -> Iterator[Tree]:
    """Of each line as many copies that are spoilt once, by each way in turn."""
    ways = 0
    for number, line in enumerate(lines):
        for _ in range(count):
            tree = copy.deepcopy(line)
            with suppress(*NOTHING):
                ONCE[ways % len(ONCE)](tree, Random(number))
            ways += 1
            yield tree


# ---- Ways to spoil bytes

PIECES = [
    *b"\x00 \xff \x0b \x0c \x1c \x85 \n \t , ] [ } { \" : - 0 . e / \\ ' \x7f \x1f".split(b" "), b" ", b"\r\n",
    *(text.encode("utf-8", "surrogatepass") for text in ("\ufeff", "\ud800", "\xa0", "\u2028", "\u202e", "\x85")),
    b"\xc0\x80", b"\xf4\x90\x80\x80", b"\\u0000", b"//x", b"/*x*/", b"null", b"1e999",
]


def spoilt_bytes(data: bytes, draw: Random) -> bytes:
    """The bytes with pieces put in, taken out or changed, cut, doubled, or nested deeply."""
    for _ in range(draw.choice([1, 1, 1, 2, 3])):
        way, place, piece = draw.random(), draw.choice([draw.randint(0, len(data)), 0, len(data)]), draw.choice(PIECES)
        front, rest = data[:place], data[place:]
        if way < 0.4:
            data = front + piece + rest
        elif way < 0.6:
            data = front + rest[1:]
        elif way < 0.7:
            data = front + piece + rest[1:]
        elif way < 0.78:
            data = front
        elif way < 0.84:
            data = data.replace(b",", b",\r\n").replace(b":", b" :\t")
        elif way < 0.88:
            data = data + data
        elif way < 0.93:
            depth = draw.choice([1, 124, 125, 126, 127, 128, 129, 2000])
            data = data.replace(b'"total":', b'"total":' + b"[" * depth + b"]" * depth + b',"total":', 1)
        else:
            depth = draw.choice([123, 124, 125, 126, 127, 128])
            data = data.replace(b'{"', b'{"x":' + b'{"":' * depth + b"1" + b"}" * depth + b',"', 1)
    return data
