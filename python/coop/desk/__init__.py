"""What tells and draws: tables, sentences, pictures and papers, for scripts and notebooks.

It asks the program as the client does, and the page's modules under Node for what the page tells, too.
"""
from importlib import import_module
from typing import Any

MODULES = ("documents", "excesses", "pictures", "reasons", "report")


def __getattr__(name: str) -> Any:
    """A module of the desk, which is imported when it is first named."""
    if name in MODULES:
        return import_module(f".{name}", __name__)
    raise AttributeError(f"module {__name__!r} has no attribute {name!r}")
