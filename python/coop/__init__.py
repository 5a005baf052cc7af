"""Games for coop, its answers as numbers by name, and what one does with them.

    import coop

    game = coop.airport({"light": 2, "medium": 4, "heavy": 6})
    print(coop.nucleolus(game).shares["medium"])        # 3/2

The constructors make games (`games`), the calls ask the program (`calls`) and give answers (`answers`) or raise
(`errors`). This is the client, of numbers alone; `coop.desk` tells and draws. Both have modules that are imported when
they are first named, as `coop.readers`. docs/python.md of the project tells more.
"""
from importlib import import_module
from typing import Any

from . import shown
from .answers import Answer, Bird, Blocked, Convex, CorePoint, EmptyCore, InCore, InPrekernel, Matching, No
from .answers import NoImputation, NotConvex, NotEfficient, NotInPrekernel, Nucleolus, Shapley, Yes
from .calls import bird, check, convex, core, kernel, least_core, matching, nucleolus, prenucleolus, propose, shapley
from .errors import BadInput, CoopError, Failure, Fault, Lost, NoAnswer, NoMemory, NotFound, Refused, Usage
from .game import Game
from .games import airport, assignment, bankruptcy, cost_table, landings, market, table, table_of, tree, voting
from .many import many
from .program import find
from .rounding import rounded
from .version import VERSION as __version__

MODULES = (  # fmt: skip
    "airlines", "answers", "checking", "desk", "doubt", "errors", "families", "far", "filling", "games", "names",
    "networks", "program", "readers", "runways", "sensitivity", "server", "sheets", "solved", "styles", "telling",
    "variants", "vectors", "versus", "votes",
)
"""What is imported when it is first named."""


def __getattr__(name: str) -> Any:
    """A module of this package."""
    if name in MODULES:
        return import_module(f".{name}", __name__)
    raise AttributeError(f"module {__name__!r} has no attribute {name!r}")


def _of_desk(name: str) -> Any:
    """A function of the desk’s notebook, which is imported when it is called."""
    return lambda *words: getattr(import_module(".desk.notebook", __name__), name)(*words)


shown.makers.update(game=_of_desk("of_game"), answer=_of_desk("of_answer"), series=_of_desk("series"))

__all__ = [  # fmt: skip
    "__version__", "Answer", "BadInput", "Bird", "Blocked", "Convex", "CoopError", "CorePoint", "EmptyCore",
    "Failure", "Fault", "Game", "InCore", "InPrekernel", "Lost", "Matching", "No", "NoAnswer", "NoImputation",
    "NoMemory", "NotConvex", "NotEfficient", "NotFound", "NotInPrekernel", "Nucleolus", "Refused", "Shapley", "Usage",
    "Yes", "airport", "assignment", "bankruptcy", "bird", "check", "convex", "core", "cost_table", "find", "kernel",
    "landings", "least_core", "many", "market", "matching", "nucleolus", "prenucleolus", "propose", "rounded",
    "shapley", "table", "table_of", "tree", "voting",
]
