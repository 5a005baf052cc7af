"""What tests share that ask the program."""
import unittest
from typing import Sequence

from coop.errors import NotFound
from coop.program import find, page_server


def has_program() -> bool:
    """Whether there is a program to ask."""
    try:
        find()
    except NotFound:
        return False
    return True


needs_program = unittest.skipUnless(has_program(), "there is no program coop")
needs_node = unittest.skipUnless(page_server(), "there is no Node, which tells what the page does")


class Answering:
    """A program that gives one status and one line, and keeps what it was asked."""

    def __init__(self, status: int, line: str = ""):
        self.status, self.line = status, line
        self.asked: list[tuple[list[str], bytes]] = []

    def run(self, words: Sequence[str], document: bytes) -> tuple[int, bytes]:
        """Keeps the words and the document."""
        self.asked.append((list(words), document))
        return self.status, self.line.encode()
