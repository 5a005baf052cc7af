"""A paper of HTML to print: who gets how much, the picture, the reasons, and how to check. The page's modules make it,
under Node."""
from __future__ import annotations

import json
from typing import Any, Union

from .. import telling
from ..answers import Answer
from ..calls import to_check
from ..game import KINDS, WRITER, Game
from ..styles import EXACT, Style
from .over import divided
from .reasons import checked


def report(
    document: Union[Answer, str, bytes, dict[str, Any]],
    title: str = "",
    style: Style = EXACT,
    note: str = "",
    over: int = 1,
    *,
    with_added: bool = True,
) -> str:
    """Returns the page of an answer or a line of nucleolus or prenucleolus, whose certificate is checked, or of the
    document of a line that was checked; with a note below the title. All amounts but those of the line are told over a
    number. The picture has marks at what each adds to all others, or none."""
    if not isinstance(document, dict):
        over *= document.game.factor if isinstance(document, Answer) else 1
        document = checked(to_check(document), "the line")
    game = Game(document["game"])
    name = title or f"{KINDS[game.kind].capitalize()}: who {'pays' if game.costs else 'gets'} how much"
    about = {"title": name, "note": note, "over": over, "hasAdded": with_added}
    printed = json.dumps(document, ensure_ascii=False, separators=(",", ":"), sort_keys=True)
    line = WRITER.encode(divided(document, over))
    return str(telling.asked("report", style.spelling(), line, printed, json.dumps(about))["html"])
