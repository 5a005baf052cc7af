"""Documents and lines with all their amounts divided by a number, to be told.

A game whose numbers are too fine for a document is multiplied (`games`). Then each amount of an answer is so many times
what it is: shares, excesses, sums. Players, weights and counts aren't. What is divided is for telling alone: it may be
too fine for the program.
"""
from __future__ import annotations

from typing import Any, Sequence

from ..amounts import count_of, written
from .documents import Document
from ..errors import BadInput
from ..game import Game, number

OF_A_LINE = {"against", "deficit", "excess", "ij", "ji", "singles", "sum", "total", "value"}
OF_A_LINE |= {"shares", "marginal", "shapley", "buyers best", "sellers best"}
OF_A_GAME = {"claims", "costs", "default", "estate", "matrix", "worths"}


def divided(tree: dict[str, Any], by: int) -> dict[str, Any]:
    """A document or a line with each amount over a number."""
    if count_of(by, "parts") == 1:
        return tree
    try:
        return parts_divided(tree, by)
    except (KeyError, TypeError, ValueError) as fault:
        raise BadInput(f"this isn't a whole document or line: {fault!r}") from None


def parts_divided(tree: dict[str, Any], by: int) -> dict[str, Any]:
    result = {key: amounts(part, by) if key in OF_A_LINE else part for key, part in tree.items()}
    if "game" in tree:
        result["game"] = game_divided(tree["game"], by)
    if "certificate" in tree:
        levels = [{**level, "excess": amounts(level["excess"], by)} for level in tree["certificate"]["levels"]]
        result["certificate"] = {**tree["certificate"], "levels": levels}
    if "tree" in tree:
        result["tree"] = [[end, new, amounts(cost, by)] for end, new, cost in tree["tree"]]
    return result


def game_divided(tree: Any, by: int) -> dict[str, Any]:
    if Game(tree).kind == "voting":
        raise BadInput("a vote has no amounts to divide")
    result = {key: amounts(part, by) if key in OF_A_GAME else part for key, part in tree.items()}
    if "sparse" in tree:
        result["sparse"] = [[group, amounts(amount, by)] for group, amount in tree["sparse"]]
    return result


def amounts(part: Any, by: int) -> Any:
    if type(part) is list:
        return [amounts(item, by) for item in part]
    return written(number(part, "an amount") / by)


def as_given(game: Game) -> Game:
    """A game with its numbers as they were given."""
    return game if game.factor == 1 else Game(divided({"game": game.tree}, game.factor)["game"])


def all_divided(documents: Sequence[Document], by: int) -> list[Document]:
    return [Document(document.where, divided(document.tree, by)) for document in documents]
