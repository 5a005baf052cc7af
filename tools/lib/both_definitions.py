"""Worths and excesses of small games by the definitions of Rattle and of Coq, through their programs."""
from __future__ import annotations

import json
import os
import re
from fractions import Fraction
from typing import Any

from hostile_lines import run
from refused_lines import MATRICES, written

faults: list[str] = []

SIDES = """From Coq Require Import List ZArith NArith QArith Qreduction.
From Nucleolus Require Import Numbers Games Documents Whole Scale.
Import ListNotations.
Open Scope Q_scope.
Definition worths (d : document) : list Q :=
  map (fun s => Qred (whole_worth (whole_game_of d) s # scale_of (numbers_in d))) (masks (players_of d)).
Definition excesses (m : measure) (d : document) (written : list Q) : list Q :=
  map (fun s => Qred (unscaled (scale_of (numbers_in d))
    (whole_excess m (whole_game_of d) (allocation_of d written) s))) (proper_coalitions (players_of d)).
"""


def members(mask: int) -> list[int]:
    """The players of a mask, from 1."""
    return [i + 1 for i in range(mask.bit_length()) if mask >> i & 1]


def is_of_costs(game: Any) -> bool:
    """Whether shares of the game are payments."""
    return game["class"] in ("cost-table", "airport", "tree")


def as_shares(game: Any, gains: list[Fraction]) -> list[str]:
    """What players get, as shares of a document."""
    return [str(-gain if is_of_costs(game) else gain) for gain in gains]


def proposed(program: str, game: Any, gains: list[Fraction]) -> Any:
    """What the program answers to a proposal."""
    plain = {key: value for key, value in game.items() if key != "excess"}
    document = {"game": plain, "shares": as_shares(game, gains)}
    return json.loads(run([program, "propose"], written(document))[1])


def worths_by_program(program: str, game: Any, players: int) -> list[Fraction]:
    """The worth of each coalition, from that of nobody: proposals that it blocks as no other does."""
    far = Fraction(10**9)
    answer = proposed(program, game, [far] * players)
    everybody = Fraction(answer["total"]) * (-1 if is_of_costs(game) else 1)
    found = [Fraction(0)]
    for mask in range(1, 2**players - 1):
        group = members(mask)
        rest = (everybody + far * len(group)) / (players - len(group))
        answer = proposed(program, game, [-far if i + 1 in group else rest for i in range(players)])
        if answer.get("coalition") != group:
            faults.append(f"{game}: {group} doesn't block, but {answer}")
            return []
        found.append(Fraction(answer["excess"]) - far * len(group))
    return found + [everybody]


def has_excess(program: str, game: Any, shares: list[str], group: list[int], excess: Fraction) -> bool:
    """Whether the program says that a coalition has this excess."""
    level = {"bounds": [], "coalitions": [[group, 1]], "earlier": [], "excess": str(excess), "total": 1}
    certificate = {"levels": [level], "mode": "span"}
    document = {"answer": "prenucleolus", "certificate": certificate, "game": game, "shares": shares}
    answer = json.loads(run([program, "check"], written(document))[1])
    if answer.get("answer") != "no" or answer["reason"] in (1, 2):
        faults.append(f"{document}: {answer} isn't about excesses")
    return bool(answer.get("reason") != 3)


def players_in(game: Any) -> int:
    """How many players a game has."""
    if game["class"] in MATRICES:
        rows = game["matrix"]
        return len(rows) - 1 if game["class"] == "tree" else len(rows) + len(rows[0])
    return game.get("players") or len(next(game[key] for key in ("costs", "claims", "weights") if key in game))


def by_coq(folder: str, cases: list[tuple[Any, list[str]]]) -> list[list[list[Fraction]]]:
    """The worths and the excesses of games with shares, as Coq computes them from its definitions."""
    text = SIDES
    for game, shares in cases:
        certificate = {"levels": [], "mode": "span"}
        line = written({"answer": "prenucleolus", "certificate": certificate, "game": game, "shares": shares})
        file = run([os.path.join(folder, "check"), "--coq"], line)[1].decode()
        parts = re.findall(r"Definition (?:this_game|these_shares) : [^=]*:=\s*(.*?)\.\n", file, re.DOTALL)
        measure = "PerHead" if game.get("excess") == "per-head" else "Plain"
        text += f"Eval vm_compute in (worths ({parts[0]})).\n"
        text += f"Eval vm_compute in (excesses {measure} ({parts[0]}) {parts[1]}).\n"
    with open(os.path.join(folder, "Sides.v"), "w", encoding="utf-8") as written_file:
        written_file.write(text)
    status, printed, errors = run(["coqc", "-Q", folder, "Nucleolus", os.path.join(folder, "Sides.v")], b"")
    lists = re.findall(r"= \[(.*?)\]\s*: list Q", printed.decode(), re.DOTALL)
    if status or len(lists) != 2 * len(cases):
        faults.append(f"Sides.v prints {len(lists)} lists: {errors[-500:].decode()}")
        return []
    numbers = [[Fraction(part.replace(" # ", "/").strip("() \n")) for part in items.split(";")] for items in lists]
    return [numbers[i : i + 2] for i in range(0, len(numbers), 2)]


def compare_sides(folder: str, program: str, games: list[Any]) -> tuple[int, list[str]]:
    """How many games were compared, and what differs between the two definitions."""
    cases = []
    for number, game in enumerate(games):
        players = players_in(game)
        worths = worths_by_program(program, game, players)
        cut = [Fraction(i - number % 3, 2) for i in range(players - 1)]
        cases.append((game, worths, as_shares(game, cut + [worths[-1] - sum(cut)]) if worths else []))
    found = [] if faults else by_coq(folder, [(game, shares) for game, _, shares in cases])
    for (game, worths, shares), (coq_worths, coq_excesses) in zip(cases, found):
        if worths != coq_worths:
            faults.append(f"{game}: worths {worths} by the program, {coq_worths} by Coq")
        for mask, excess in enumerate(coq_excesses, 1):
            found_here = has_excess(program, game, shares, members(mask), excess)
            found_above = has_excess(program, game, shares, members(mask), excess + Fraction(1, 7))
            if not found_here or found_above:
                faults.append(f"{game}, {shares}: {members(mask)} has the excess {excess} by Coq alone")
    return len(found), faults
