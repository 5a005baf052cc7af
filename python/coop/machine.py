"""What the system gives a process: programs on the path, processors, and other processes."""
from __future__ import annotations

import os
from typing import Any, Optional

from .errors import BadInput


def which(name: str) -> Optional[str]:
    name += ".exe" if os.name == "nt" else ""
    for folder in os.environ.get("PATH", os.defpath).split(os.pathsep):
        path = os.path.join(folder or ".", name)
        if os.path.isfile(path) and os.access(path, os.X_OK):
            return path
    return None


def words_of(command: Any) -> list[str]:
    """The words of a command; a text is none, since nobody can say where its words end."""
    if isinstance(command, (str, bytes)) or not command:
        raise BadInput(f"{command!r} isn't a list of words: give the program and its words, such as ['node', 'x.mjs']")
    return list(command)


def processors() -> int:
    """How many processors this process may use: a container, a batch system or taskset may give it less than all."""
    if hasattr(os, "sched_getaffinity"):
        return len(os.sched_getaffinity(0))
    return os.cpu_count() or 1


def spawned(words: list[str], document: bytes) -> tuple[int, bytes]:
    """The status and the output of one process, which has the document as its input."""
    import subprocess

    done = subprocess.run(words, input=document, stdout=subprocess.PIPE)
    return done.returncode, done.stdout
