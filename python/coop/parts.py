"""Where the parts of the project are that each package has: in an installed package, or in the repository."""
from __future__ import annotations

import os
from typing import Optional

from .errors import NotFound
from .machine import which

TOP = os.path.dirname(os.path.dirname(os.path.dirname(os.path.abspath(__file__))))


def path_of(*words: str) -> Optional[str]:
    """Where a file of the project is, in an installed package or in the repository; None where it is missing."""
    paths = (os.path.join(top, *words) for top in (os.path.dirname(os.path.abspath(__file__)), TOP))
    return next((path for path in paths if os.path.exists(path)), None)


def part_of(what: str, *words: str) -> str:
    """Where a file is that each package has."""
    path = path_of(*words)
    if path is None:
        raise NotFound(f"{what} is missing: install the package again")
    return path


def serving() -> list[str]:
    """The command of a process of Node that stays, and answers by the page's module; empty without Node or page."""
    node, module = which("node") or which("nodejs"), path_of("runtime", "serve.mjs")
    return [node, module] if node and module else []
