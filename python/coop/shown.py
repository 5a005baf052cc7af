"""What notebooks show of games and answers. The desk makes it; the client doesn't know how."""
from __future__ import annotations

from typing import Any, Callable

makers: dict[str, Callable[..., Any]] = {}
"""The ways to show "game" and "answer" as HTML, and shares as a "series"; the package puts them here."""
