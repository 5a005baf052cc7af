"""The second checker, scripts/check-anew: of the repository, or of an installed package, which has it too."""
from __future__ import annotations

import json
from functools import lru_cache
from types import CodeType
from typing import Any

from .calls import to_check
from .errors import BadInput
from .parts import part_of


@lru_cache(None)
def compiled() -> CodeType:
    path = part_of("the second checker", "scripts", "check-anew")
    with open(path, "rb") as file:
        code: CodeType = compile(file.read(), path, "exec")
    return code


def verdict(data: Any) -> dict[str, Any]:
    """The line of yes or no to a document, as a tree; what is none to check is bad input. Of an answer it is that to
    the shares and the certificate that the answer has now, as of `coop.check`."""
    module: dict[str, Any] = {"__name__": "check_anew"}
    exec(compiled(), module)  # anew each time, since it keeps the excesses that it finds
    try:
        tree: dict[str, Any] = json.loads(module["line_for"](to_check(data)))
    except module["Refused"] as fault:
        raise BadInput(str(fault)) from None
    return tree
