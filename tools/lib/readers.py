"""The readers that tools compare: those in JavaScript, by a process of Node, and the scripts' own."""
from __future__ import annotations

import base64
import json
import os
import subprocess
import sys
from collections import Counter
from importlib.machinery import SourceFileLoader
from importlib.util import module_from_spec, spec_from_loader
from typing import Any, Optional

from program import TOP

sys.path.insert(0, os.path.join(TOP, "python"))
MOST_SHOWN = 3  # examples of each kind of difference


class Node:
    """A process of readers.mjs."""

    def __init__(self) -> None:
        words = ["node", os.path.join(TOP, "tools", "lib", "readers.mjs"), TOP]
        self.process = subprocess.Popen(words, stdin=subprocess.PIPE, stdout=subprocess.PIPE)

    def ask(self, command: str, data: bytes, agreed: Optional[str] = None) -> dict[str, Any]:
        """What each reader says."""
        more = {} if agreed is None else {"agreed": agreed}
        request = {"command": command, "bytes": base64.b64encode(data).decode(), **more}
        assert self.process.stdin is not None and self.process.stdout is not None
        self.process.stdin.write(json.dumps(request).encode() + b"\n")
        self.process.stdin.flush()
        line = self.process.stdout.readline()
        if not line:
            tool = os.path.basename(sys.argv[0])
            raise SystemExit(f"{tool}: the process of Node ended at {command} of {data[:300]!r}")
        found: dict[str, Any] = json.loads(line)
        return found

    def end(self) -> None:
        """Ends the process."""
        self.process.communicate()


def loaded(name: str) -> Any:
    """A script as a module."""
    loader = SourceFileLoader(name.replace("-", "_"), os.path.join(TOP, "scripts", name))
    spec = spec_from_loader(loader.name, loader)
    assert spec is not None
    module = module_from_spec(spec)
    loader.exec_module(module)
    return module


class Differences:
    """What differs, with some examples of each kind."""

    def __init__(self) -> None:
        self.counts: Counter[str] = Counter()

    def tell(self, what: str, *about: object) -> None:
        """Counts a difference, and prints the first ones."""
        self.counts[what] += 1
        if self.counts[what] <= MOST_SHOWN:
            print(what, *(f"\n    {str(part)[:2000]}" for part in about))
