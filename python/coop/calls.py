"""The program's commands as calls. Each gives an answer of `answers`, or raises what `errors` has."""
from __future__ import annotations

import json
from fractions import Fraction
from functools import partial
from typing import Any, Callable, Mapping, Optional, Sequence, Union, cast

from . import answers, classes
from .amounts import Amount, amounts_of, fractions_of, named_items, written
from .answers import Answer
from .errors import BadInput, Failure, Fault, NoAnswer, NoMemory, Refused, Slip, Usage
from .game import WRITER, Game, bytes_of, encoded, require_game
from .program import Program, find

COMMANDS = tuple(classes.COMMANDS)
ON_A_GAME = tuple(word for word, row in classes.COMMANDS.items() if row["needs"] == ["game"])
"""The words of the commands that a game alone is enough for."""

Outcome = Union[Answer, Failure]
"""An answer; or, if there is none, what has the exception that the call would raise."""

Chosen = Union[None, str, Program]
"""A program by its name or itself; None for the one that is found."""

Proposal = Union[Mapping[str, Amount], Sequence[Amount]]
FAULTS = {5: "reading failed", 6: "writing failed", 70: "the program couldn't answer", 124: "it took too long"}
USAGES = {
    "class": "the command doesn't serve the class of the game",
    "players": "the game has more players than the command serves",
    "words": "there is no such command",
}


def nucleolus(game: Game, program: Chosen = None) -> Union[answers.Nucleolus, answers.NoImputation]:
    """The division that treats the worst-off groups best, where nobody gets less than alone."""
    return cast("Union[answers.Nucleolus, answers.NoImputation]", ask("nucleolus", game, program=program))


def prenucleolus(game: Game, program: Chosen = None) -> answers.Nucleolus:
    """The same among all divisions of the whole."""
    return cast(answers.Nucleolus, ask("prenucleolus", game, program=program))


def least_core(game: Game, program: Chosen = None) -> Fraction:
    """The value of the least core: the greatest excess of a group by those divisions of the whole by which it is least.
    The core is empty where it is above 0. For costs an excess is what a group pays above its own cost."""
    levels = prenucleolus(game, program).certificate["levels"]
    if not levels:
        raise BadInput("a game of one player has no smaller group, and so no least core")
    return Fraction(levels[0]["excess"]) / game.factor


def core(game: Game, program: Chosen = None) -> Union[answers.CorePoint, answers.EmptyCore]:
    """A division by which no group could do better, or why there is none."""
    return cast("Union[answers.CorePoint, answers.EmptyCore]", ask("core", game, program=program))


def shapley(game: Game, program: Chosen = None) -> answers.Shapley:
    """What each adds, on average over all orders of joining."""
    return cast(answers.Shapley, ask("shapley", game, program=program))


def propose(
    game: Game, shares: Proposal, program: Chosen = None, *, digits: Optional[int] = None
) -> Union[answers.InCore, answers.Blocked, answers.NotEfficient]:
    """Whether some group could do better by itself than by these shares; with a number of digits by the shares rounded
    so, which may be floats."""
    answer = ask("propose", game, rounded(game, shares, digits), program=program)
    return cast("Union[answers.InCore, answers.Blocked, answers.NotEfficient]", answer)


def convex(game: Game, program: Chosen = None) -> Union[answers.Convex, answers.NotConvex]:
    """Whether a player always adds no less where more have joined."""
    return cast("Union[answers.Convex, answers.NotConvex]", ask("convex", game, program=program))


def kernel(
    game: Game, shares: Proposal, program: Chosen = None, *, digits: Optional[int] = None
) -> Union[answers.InPrekernel, answers.NotInPrekernel, answers.NotEfficient]:
    """Whether any two players have the same hold on each other by these shares, with digits as for `propose`."""
    answer = ask("kernel", game, rounded(game, shares, digits), program=program)
    return cast("Union[answers.InPrekernel, answers.NotInPrekernel, answers.NotEfficient]", answer)


def bird(game: Game, program: Chosen = None) -> answers.Bird:
    """The cheapest network, and who pays which link."""
    return cast(answers.Bird, ask("bird", game, program=program))


def matching(game: Game, program: Chosen = None) -> answers.Matching:
    """Who trades with whom, and both ends of the core."""
    return cast(answers.Matching, ask("matching", game, program=program))


def check(line: Union[str, bytes, answers.Nucleolus], program: Chosen = None) -> Union[answers.Yes, answers.No]:
    """Whether the certificate of a line shows that its shares are the nucleolus, or the prenucleolus, of its game. Of
    an answer it is asked with the shares and the certificate that the answer has now."""
    document = to_check(line)
    game = line.game if isinstance(line, answers.Nucleolus) else game_of(document)
    return cast("Union[answers.Yes, answers.No]", answered("check", document, game, program))


def to_check(line: Any) -> bytes:
    """What `check` reads of a line. An answer without a certificate is refused."""
    if isinstance(line, (Answer, Failure)) and not isinstance(line, answers.Nucleolus):
        told = "only an answer of nucleolus or prenucleolus with shares has one"
        raise BadInput(f"{type(line).__name__} has no certificate to check: {told}")
    return bytes_now(line)


def bytes_now(told: Any) -> bytes:
    """The bytes of a line, a document or a game; of an answer its line with the shares and the certificate that the
    answer has now, which somebody may have changed."""
    shares = getattr(told, "shares", None)
    if not isinstance(told, Answer) or shares is None:
        return bytes_of(told)
    tree = json.loads(told.line)
    now: dict[str, Any] = {"shares": [str(q * told.game.factor) for q in rounded(told.game, shares, None)]}
    if isinstance(told, answers.Nucleolus):
        now["certificate"] = told.certificate
    if all(tree[key] == part for key, part in now.items()):
        return bytes_of(told)
    return encoded(WRITER.encode({**tree, **now}), "a name")


def game_of(document: bytes) -> Game:
    """The game of a document; of one that is no document a game of nobody's, which the program refuses to answer."""
    try:
        return Game(json.loads(document)["game"])
    except (ValueError, KeyError, TypeError, RecursionError, BadInput):
        return Game({"class": "airport", "costs": [0]})


def ask(command: str, game: Game, shares: Optional[Proposal] = None, program: Chosen = None) -> Answer:
    return answered(command, document_of(game, shares), game, program)


def document_of(game: Game, shares: Optional[Proposal] = None) -> bytes:
    require_game(game)
    if shares is None:
        return game.document()
    return game.document(shares=[written(share * game.factor) for share in rounded(game, shares, None)])


def rounded(game: Game, shares: Proposal, digits: Optional[int], what: str = "share") -> list[Fraction]:
    """Shares by names, or in the players' order, as exact numbers in that order."""
    require_game(game)
    items = named_items(shares)
    if items is not None:
        named = dict(zip((str(name) for name, _ in items), amounts_of(shares, items, digits)))
        if len(items) != game.n or set(named) != set(game.names):
            raise BadInput(f"give a {what} to each of these names, each once: {', '.join(game.names)}")
        return [named[name] for name in game.names]
    return fractions_of(shares, digits)


def one_each(game: Game, values: Proposal, what: str = "share") -> list[Fraction]:
    """Numbers by names, or in the players' order: one for each."""
    exact = rounded(game, values, None, what)
    if len(exact) != game.n:
        raise BadInput(f"{len(exact)} {what}s for {game.n} players")
    return exact


def answered(command: str, document: bytes, game: Game, program: Chosen) -> Answer:
    return answer_from(command, *find(program).run([command], document), document, game)


def answer_from(command: str, status: int, data: bytes, document: bytes, game: Game) -> Answer:
    line = data.decode("utf-8", "replace").rstrip("\n")
    if status not in (0, 1):
        raise fault_of(command, status, line, document)
    try:
        return answers.answer_of(line, status, game)
    except (ValueError, KeyError, TypeError, AttributeError, ZeroDivisionError) as fault:
        raise Fault(f"the line isn't one of coop: {line[:80]!r} ({fault})", status, line) from None


def kept(call: Callable[..., Answer], *given: Any) -> Outcome:
    """The answer of a call; or what has the exception, where there is none."""
    try:
        return call(*given)
    except NoAnswer as fault:
        return Failure(fault)


def fault_of(command: str, status: int, line: str, document: bytes) -> NoAnswer:
    if status == 7:
        return NoMemory("the program ran out of memory", status)
    if status in (2, 3):
        try:
            tree = json.loads(line)
            if status == 2:
                return Usage(f"{command}: {USAGES[tree['usage']]}", status, line)
            return Refused(line, tree["number"], tree["refused"], partial(slip_of, command, document))
        except (ValueError, KeyError, TypeError):
            pass
    return Fault(f"{FAULTS.get(status, 'the program ended')} (status {status})", status, line)


def slip_of(command: str, document: bytes) -> Optional[Slip]:
    from .telling import slips

    return slips(document, command)[0]
