"""The shares along a change, piece by piece, with the lines that show each piece."""
from __future__ import annotations

import json
from dataclasses import dataclass, field
from fractions import Fraction
from typing import Any

from . import calls, checking
from .amounts import Amount, fraction_of
from .answers import Shares
from .errors import BadInput
from .moving import Moving


@dataclass(frozen=True)
class Piece:
    """A range of changes within which each share is linear: the shares at both ends, and what each pays or gets more
    for each 1 of the change. `lines` are documents for `check`, by their changes; all have one certificate, but for its
    excesses. Those of the first and the last are the ends, unless no document has the numbers of an end: then the
    lines stand so near to it as `proved` tells."""

    low: Fraction
    high: Fraction
    at_low: Shares
    at_high: Shares
    slopes: Shares
    lines: tuple[tuple[Fraction, bytes], ...] = field(repr=False)

    @property
    def proved(self) -> tuple[Fraction, Fraction]:
        """The range between the first line and the last."""
        return self.lines[0][0], self.lines[-1][0]

    def at(self, t: Amount) -> Shares:
        """The shares after a change of the range."""
        exact = fraction_of(t)
        if not self.low <= exact <= self.high:
            raise BadInput(f"{exact} isn't between {self.low} and {self.high}")
        return {name: share + (exact - self.low) * self.slopes[name] for name, share in self.at_low.items()}


@dataclass(frozen=True)
class Path:
    """The shares along a change, piece by piece."""

    pieces: list[Piece]
    rule: str
    moving: Moving = field(repr=False, compare=False)

    def at(self, t: Amount) -> Shares:
        """The shares after a change."""
        exact = fraction_of(t)
        return next((piece for piece in self.pieces if exact <= piece.high), self.pieces[-1]).at(exact)

    def bends(self) -> list[Fraction]:
        """Where the slopes change."""
        return [a.high for a, b in zip(self.pieces, self.pieces[1:]) if a.slopes != b.slopes]

    @property
    def is_proved(self) -> bool:
        """Whether the lines reach all ends of pieces. If not, shares next to an end are right since shares never jump,
        and nothing says that slopes don't change there."""
        return all(piece.proved == (piece.low, piece.high) for piece in self.pieces)

    def check(self, program: calls.Chosen = None, anew: bool = False) -> bool:
        """Whether the program takes each line, or the second checker does (`anew`), and the lines show the pieces: they
        are of the game after their changes, have the piece's shares, and one certificate but for its excesses."""
        joined = all(a.high == b.low and a.at_high == b.at_low for a, b in zip(self.pieces, self.pieces[1:]))
        return joined and all(self.shows(piece, program, anew) for piece in self.pieces)

    def shows(self, piece: Piece, program: calls.Chosen, anew: bool) -> bool:
        """Whether the lines of a piece show it: enough of them, and one wherever worths bend the wrong way."""
        frames = []
        for t, line in piece.lines:
            tree, (game, factor) = json.loads(line), self.moving.tree_at(t)
            wanted = [share * factor for share in piece.at(t).values()]
            if tree["game"] != game or tree["answer"] != self.rule or list(map(Fraction, tree["shares"])) != wanted:
                return False
            frames.append(frame_of(tree["certificate"]))
            if anew and checking.verdict(line)["answer"] != "yes":
                return False
            if not anew and not calls.answered("check", line, self.moving.game, program):
                return False
        places, enough = {t for t, _ in piece.lines}, 2 if self.moving.is_linear else 3
        has_kinks = places.issuperset(self.moving.kinks(*piece.proved))
        return has_kinks and len(places) >= enough and all(frame == frames[0] for frame in frames)


def joined(pieces: list[Piece]) -> list[Piece]:
    """Pieces one behind the other; two next to each other with one certificate are one."""
    found: list[Piece] = []
    for piece in pieces:
        last = found[-1] if found else None
        meet = last is not None and last.lines[-1][0] == piece.lines[0][0]
        if last and meet and last.slopes == piece.slopes and frame_in(last) == frame_in(piece):
            lines = (*last.lines, *piece.lines[1:])
            piece = Piece(last.low, piece.high, last.at_low, piece.at_high, piece.slopes, lines)
            found.pop()
        found.append(piece)
    return found


def frame_of(certificate: dict[str, Any]) -> Any:
    """All of a certificate but its excesses."""
    levels = [{key: part for key, part in level.items() if key != "excess"} for level in certificate["levels"]]
    return certificate["mode"], levels


def frame_in(piece: Piece) -> Any:
    """What the lines of a piece have in common."""
    return frame_of(json.loads(piece.lines[0][1])["certificate"])
