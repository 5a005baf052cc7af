"""Runs to compare, by words and document: of each class, command, measure, version, refusal, limit and size."""
import json
import os
import random
import subprocess
import sys
from collections.abc import Iterator
from importlib.machinery import SourceFileLoader
from importlib.util import module_from_spec, spec_from_loader
from types import ModuleType
from typing import Any, NamedTuple

TOP = os.path.realpath(os.path.join(os.path.dirname(os.path.abspath(__file__)), "..", "..", ".."))
sys.path.insert(0, os.path.join(TOP, "python"))
from coop.classes import COMMANDS, GENERATED, LIMITS

OF_GAMES, OF_SHARES = (
    tuple(command for command, row in COMMANDS.items() if row["needs"] == needs)
    for needs in (["game"], ["game", "shares"])
)
MOST = 2 ** LIMITS["bits"] - 1
SHORT, LONG = sorted({row["bytes"] for row in COMMANDS.values()})
# Bytes of a document above which no limits of memory are tried.
LONGEST_LIMITED = 100_000

Game = dict[str, Any]


class Run(NamedTuple):
    """What the program is called with."""

    words: list[str]
    document: bytes


def tool(name: str) -> ModuleType:
    """A tool of the repository, for the documents that it has."""
    loader = SourceFileLoader(name.replace("-", "_"), os.path.join(TOP, "tools", "gate", name))
    spec = spec_from_loader(loader.name, loader)
    assert spec is not None
    module = module_from_spec(spec)
    loader.exec_module(module)
    return module


def text_of(**keys: Any) -> bytes:
    """A document."""
    return json.dumps(keys, ensure_ascii=False).encode()


def matrix(rows: int, draw: random.Random, most: int) -> list[list[int]]:
    """The rows of a network's links."""
    entries = [[draw.randint(1, most) for _ in range(rows)] for _ in range(rows)]
    return [[entries[min(i, j)][max(i, j)] if i != j else 0 for j in range(rows)] for i in range(rows)]


def named_sparse(draw: random.Random) -> Game:
    """A table whose document is nearly as long as one may be, by long names."""
    names = [f"{player:02}" + "ü" * 31 for player in range(16)]
    groups = sorted({tuple(sorted(draw.sample(range(16), draw.randint(2, 9)))) for _ in range(4900)})
    rows = [[[names[player] for player in group], draw.randint(0, 99) * len(group)] for group in groups]
    return {"class": "table", "names": names, "players": 16, "sparse": rows}


def largest_games() -> Iterator[Game]:
    """Games of as many players as a class has, with small numbers and with large ones, and those of one more."""
    for seed, most in ((1, 9), (2, 1000), (3, MOST)):
        draw = random.Random(seed)

        def numbers(count: int, least: int = 0) -> list[int]:
            return [draw.randint(least, most) for _ in range(count)]

        yield {"class": "table", "players": 16, "worths": numbers(2**16 - 1)}
        yield {"class": "cost-table", "players": 12, "worths": numbers(2**12 - 1)}
        yield {"class": "table", "players": 14, "default": 1, "sparse": [[[1, 2, 3, 14], most], [[5, 6], 7]]}
        yield {"class": "tree", "matrix": matrix(17, draw, most)}
        yield {"class": "tree", "matrix": matrix(18, draw, most)}
        yield {"class": "assignment", "matrix": [numbers(8) for _ in range(8)]}
        yield {"class": "assignment", "matrix": [numbers(13) for _ in range(3)]}
        yield {"class": "assignment", "matrix": [numbers(9) for _ in range(8)]}
        yield {"class": "airport", "costs": numbers(64)}
        yield {"class": "airport", "costs": numbers(32)}
        yield {"class": "airport", "costs": numbers(65)}
        claims = numbers(64)
        yield {"class": "bankruptcy", "claims": claims, "estate": sum(claims) // 3}
        yield {"class": "bankruptcy", "claims": claims[:16], "estate": sum(claims[:16]) * 2 // 3}
        votes = [draw.randint(0, 40) for _ in range(32)]
        yield {"class": "voting", "quota": 200, "weights": votes[:16]}
        yield {"class": "voting", "quota": sum(votes) // 2 + 1, "weights": votes}
        yield {"class": "market", "matrix": [numbers(32) for _ in range(32)]}
        yield {"class": "market", "matrix": [numbers(5) for _ in range(9)]}
        for measure in ("per-head", "plain"):
            yield {"class": "table", "excess": measure, "players": 8, "worths": numbers(255)}
            yield {"class": "tree", "excess": measure, "matrix": matrix(9, draw, most)}
            yield {"class": "airport", "excess": measure, "costs": numbers(8)}
            yield {"class": "airport", "excess": measure, "costs": numbers(9)}
    yield named_sparse(random.Random(4))


def even_games() -> Iterator[Game]:
    """Games in which much is equal: no worths, sums of what players have alone, worths by the number of members."""
    for players in (1, 2, 3, 5, 8, 16):
        masks = range(1, 2**players)
        alone = [player % 3 for player in range(players)]
        for worths in ([0 for _ in masks], [-1 for _ in masks], [bin(mask).count("1") for mask in masks],
                       [bin(mask).count("1") ** 2 for mask in masks], [int(mask == masks[-1]) for mask in masks],
                       [sum(alone[i] for i in range(players) if mask >> i & 1) for mask in masks],
                       [int(mask & 3 == 3) for mask in masks], [int(bin(mask & 7).count("1") > 1) for mask in masks]):
            for measure in ("plain", "per-head") if players < 9 else ("plain",):
                yield {"class": "table", "excess": measure, "players": players, "worths": worths}
    rising, falling = list(range(64)), list(range(64, 0, -1))
    for numbers in (rising, falling, rising[:40] + falling[:24], falling[:40] + rising[:24], [7] * 64, [0, 9] * 32,
                    [abs(place * 37 % 64 - 20) for place in range(64)]):
        yield {"class": "airport", "costs": numbers}
        for part in (1, 2, 3):
            yield {"class": "bankruptcy", "claims": numbers, "estate": sum(numbers) * part // 4}


def on_game(program: str, game: Game) -> Iterator[Run]:
    """Each command on a game: shares are those of the nucleolus, where it has one, and such as few would agree on."""
    text = text_of(game=game)
    for command in OF_GAMES:
        yield Run([command], text)
    line = subprocess.run([program, "nucleolus"], input=text, stdout=subprocess.PIPE).stdout
    answer = json.loads(line)
    if "certificate" in answer:
        yield Run(["check"], line)
    shares = answer.get("shares", [1, 2, 3])
    for command in OF_SHARES:
        for proposed in (shares, shares[::-1], [7, *shares[1:]]):
            yield Run([command], text_of(game=game, shares=proposed))


def spoilt_texts(games: list[Game], spoil: Any, count: int) -> Iterator[Run]:
    """Documents with a part changed, a byte changed, an end cut off, or something behind it."""
    for number in range(count):
        draw = random.Random(number)
        document: Any = {"game": json.loads(json.dumps(draw.choice(games)))}
        if number % 2:
            spoil(document, draw)
        text = bytearray(json.dumps(document).encode())
        place = draw.randrange(len(text))
        if number % 4 == 0:
            text[place] = draw.choice(b'0123456789"[]{},:-.eE\\/ \n\x00\x7f\xc3\xff')
        elif number % 8 == 2:
            del text[place:]
        elif number % 8 == 6:
            text += draw.choice([b"\n", b"\n\n", b" ", b"{}", b"\x00", b"\xef\xbb\xbf"])
        yield Run([OF_GAMES[number % len(OF_GAMES)]], bytes(text))


# Numbers at the limits of a float, of 64 bits and of a game; texts that are fractions or not; names with escapes.
NUMBERS = """0 -0 1.0 1e0 1E+2 -1 1099511627775 1099511627776 9223372036854775807 9223372036854775808
18446744073709551616 1.7976931348623157e308 1.7976931348623159e308 1e309 -1e400 1e-400 2.2250738585072011e-308
4.9e-324 2.4703282292062328e-324 1.7976931348623158079e308 9007199254740993e10 5e-400 1e22 1e23
9007199254740992.999999999999999999999999999999999999999999 1234567890123456789012345678901234567890e269
123456789012345678901234567890 0.1 00 01 +1 .5 1. 1e NaN Infinity "1/2" "2/4" "1/65536" "1/65537" "-1/3"
"1/0" "1/-2" "" " 1" "1 " "0/1" "-0"
"170141183460469231731687303715884105727/2" "340282366920938463463374607431768211456/3" true null [] {}""".split()
NAMES = ['"a"', '"\\u0061"', '"\\ud83d\\ude00"', '"\\ud800"', '"\\n\\t\\"\\\\\\/"', '"\u2028"', '"😀"', '""',
         '"' + "x" * 64 + '"', '"' + "x" * 65 + '"', '"\\u0000"', '"é"', '"e\u0301"', "7"]
# Words that are no command, but for the largest seed.
WORDS: list[list[str]] = [
    [], [""], ["", ""], ["nucleoli"], ["nucleolus", "core"], ["Core"], ["core "], ["cöre"], ["gen"],
    *(["gen", *rest.split()] for rest in ("table", "market 3 1", "table 03 1", "table 3 -1", "table 3 +1",
                                          "table 3 1 1", "table 3 4294967295", "table 3 4294967296")),
]


def odd_texts() -> Iterator[Run]:
    """Games with odd numbers and names, and texts without end."""
    for command in ("nucleolus", "shapley"):
        for number in NUMBERS:
            yield Run([command], f'{{"game":{{"class":"airport","costs":[3,{number}]}}}}'.encode())
            yield Run([command], f'{{"game":{{"class":"airport","costs":[3,{number}],"version":2}}}}'.encode())
        for name in NAMES:
            game = f'{{"class":"airport","costs":[3,4],"names":["a{command}",{name}]}}'
            yield Run([command], f'{{"game":{game}}}'.encode())
    draw = random.Random(6)
    for count in (5, 11, 12, 13, 60, 700):
        keys = [f'"{number:04}":{number}' for number in range(count)] * 2
        for many in (",".join(keys), ",".join(keys[::-1]), ",".join(draw.sample(keys, len(keys)))):
            game = '"game":{"class":"airport","costs":[3,4]}'
            yield Run(["core"], f'{{{many},{game}}}'.encode())
            yield Run(["core"], f'{{"game":{{{many}}},{game}}}'.encode())
    for depth in (126, 127, 128, 100000):
        yield Run(["core"], b"[" * depth + b"]" * depth)
        yield Run(["core"], b'{"game":' * depth + b"1" + b"}" * depth)


def at_lengths() -> Iterator[Run]:
    """Documents that are just as long as they may be, and longer by one."""
    game = text_of(game={"class": "airport", "costs": [2, 4, 6]})
    for command, length in (("nucleolus", SHORT), ("propose", SHORT), ("check", LONG)):
        for more in (-1, 0, 1):
            yield Run([command], game.ljust(length + more))
    with open(os.path.join(TOP, "examples", "airport-solved.json"), "rb") as file:
        solved = file.read().strip()
    for length in (SHORT + 1, LONG, LONG + 1):
        yield Run(["check"], solved.ljust(length))
    yield Run(["nucleolus"], game[:-1] + b"," + b" " * 7000000)


def long_texts() -> Iterator[Run]:
    """A line of 2 MB, and a document of 8 MB to check, without blanks."""
    from measured_games import long_claims, sparse_table

    claim = dict(long_claims())["five levels of all coalitions"]()
    for command, tree in (("prenucleolus", {"game": sparse_table()}), ("check", claim)):
        yield Run([command], json.dumps(tree, separators=(",", ":")).encode())


def with_faults() -> Iterator[Run]:
    """Documents with a fault of a coalition, and with shares that are too fine."""
    for group in ([], [1, 1], [1, "a"], [0], [3], ["a", "a"], [1.5], [[1]], "a"):
        game = {"class": "table", "names": ["a", "b"], "players": 2, "sparse": [[group, 1]]}
        for command in ("nucleolus", "convex"):
            yield Run([command], text_of(game=game))
    for share in (f"1/{2**63}", f"1/{2**63 + 1}", str(2**110 - 1), str(2**110), -(2**63), 2**63):
        for command in OF_SHARES:
            yield Run([command], text_of(game={"class": "airport", "costs": [1, 2]}, shares=[share, 0]))


def words_alone() -> Iterator[Run]:
    """Words that are no command, games from numbers, and a document where none is read."""
    game = text_of(game={"class": "airport", "costs": [2, 4, 6]})
    yield from (Run(words, game) for words in WORDS)
    for kind in GENERATED:
        for players in (0, 1, 2, 3, 4, 5, 6, 7, 8, 9, 10, 12, 15, 16, 17, 63, 64, 65):
            for seed in (1, 4294967295):
                yield Run(["gen", kind, str(players), str(seed)], b"")


def runs(program: str) -> Iterator[Run]:
    """All runs."""
    import lines
    from games import game_of, halved, some_game
    from spoils import anything, spoilt_in_turn

    yield from (Run(["check"], text) for text in lines.texts(program))
    printed = [*lines.printed_lines(program), *lines.large_votes(), *lines.large_losses()]
    yield from (Run(["check"], json.dumps(line).encode()) for line in spoilt_in_turn(printed, 8))
    known = [dict(game, excess=measure) for game in lines.GAMES for measure in ("plain", "per-head")]
    draw = random.Random(53)
    markets = (game_of("market", players, draw) for players in (2, 3, 5, 8))
    games = [*known, *map(halved, known), *(some_game(draw) for _ in range(90)), *markets]
    for game in [*games, *(game for game, _ in lines.LIMITS), *even_games(), *largest_games()]:
        yield from on_game(program, game)
    yield from spoilt_texts(games, anything, 500)
    for source in (odd_texts(), with_faults(), at_lengths(), long_texts(), words_alone()):
        yield from source


def runs_for_memory(program: str) -> Iterator[tuple[Run, dict[str, bool]]]:
    """Runs, with whether each request for memory is refused in its turn, or limits rise."""
    for tried in tool("refuse-memory").all_runs(program):
        run = Run(tried.words.split(), tried.text.encode())
        if tried.least is None:
            yield run, {"refusing": True}
        # (longer ones would take minutes)
        if len(run.document) < LONGEST_LIMITED:
            yield run, {"limiting": True}
