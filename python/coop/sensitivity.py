"""Which numbers a nucleolus rests on, and how it changes when numbers do: exactly, and with evidence for whole ranges.

    path = coop.sensitivity.along(game, "Sales+Ops", -2, 2)     # this group costs up to 2 less or more
    for piece in path.pieces:
        print(piece.low, piece.high, piece.slopes)               # what each pays more if it costs 1 more
    path.check()                                                 # by the program

A certificate says which groups are worst off at each level. As long as that stays so, shares are a linear function of
the worths, and so is all that a certificate has to meet. So a certificate that, but for its excesses, is right for two
games is right for each game between them. A piece of a path has the lines for `check` of both ends. That is a proof of
the whole piece for tables and airports, whose worths are linear on it. Those of estates, networks and markets are
convex, which suffices together with a third line, of a change between: a convex function that meets a straight line at
three points is straight between them, and else lies below.

What is proved: that the program's `check` is right, and in Coq that two certificates carry to the games between, and to
those with worths below (`coq/Between.v`). By hand: that three points suffice. What is computed here: slopes and ends of
pieces, which the lines then show; and margins, by no more than the certificate.
"""
from __future__ import annotations

from dataclasses import dataclass
from fractions import Fraction
from typing import Any, Iterable, Iterator, Mapping, Optional, Sequence

from . import calls
from .amounts import Amount, fraction_of
from .answers import Names, Nucleolus, Shares
from .changed import TooFine
from .errors import BadInput, Fault
from .frames import Frame
from .game import Game
from .linear import simplest
from .margins import Margin, Margins, margins
from .moving import Moving
from .names import row_of
from .paths import Path, Piece, joined
from .places import What, names_of, what_moves

__all__ = ["Margin", "Margins", "Path", "Piece", "Range", "along", "margins", "ranges"]

MOST_PIECES = 1000
MOST_UNASKED = 255  # numbers of a game that are moved without a list: those of a table of 8
RULES = ("nucleolus", "prenucleolus")
LARGEST = 1 << 20  # parts into which the place of a bend that no document can have is cut


def along(
    game: Game, what: What, low: Amount, high: Amount, rule: str = "nucleolus", program: calls.Chosen = None
) -> Path:
    """The shares while a number is from `low` to `high` more than it is; or several, each by its own rate.

    A number is a group of a table, "Sales+Ops"; ("cost", "light") of an airport, where an airline's or a type's name is
    all its landings; "estate" or ("claim", "Anna"); ("link", "source", "Anna"); ("pair", "Anna", "house"). Several are
    a mapping from these to rates. Of a vote it is a group of the table of who wins, which its lines have as their game.

    The program has taken all lines before anything is told; `Path.check` lets others ask again.
    """
    run = Run(game, what, rule, program)
    first, last = fraction_of(low), fraction_of(high)
    if first >= last:
        raise BadInput(f"{first} isn't below {last}")
    for end in (first, last):
        run.moving.require(end, rule)
    ends = run.moving.kinks(first, last)
    pieces = [piece for a, b in zip(ends, ends[1:]) for piece in run.cover(a, b)]
    return Path(joined(sorted(pieces, key=lambda piece: piece.low)), rule, run.moving)


@dataclass(frozen=True)
class Range:
    """`what` moves, the `number` that it is, and how far that may go alone, `down` and `up`, before the slopes change;
    None is as far as a document's numbers go. `below` and `above` are what each share gains for each 1 more, on either
    side; they differ at a bend only. Where the number can't go at all one way, that side has no slopes. `matters` says
    whether any slope isn't 0."""

    what: Names
    number: Fraction
    down: Optional[Fraction]
    up: Optional[Fraction]
    below: Shares
    above: Shares
    matters: bool


def ranges(
    game: Game, some: Optional[Iterable[Any]] = None, rule: str = "nucleolus", program: calls.Chosen = None
) -> list[Range]:
    """The ranges of numbers, which are named as for `along`; without a list, of all of the game, at most 255."""
    if some is None:
        some = what_moves(game)
        if len(some) > MOST_UNASKED:
            told = f"the game has {len(some)} numbers, and at most {MOST_UNASKED} are moved unasked"
            raise BadInput(f"{told}: name some, such as [{some[0]!r}], or ask `margins` which count")
    if isinstance(some, (str, Mapping)) or not isinstance(some, Iterable):
        raise BadInput(f"{some!r} isn't a list of numbers: write [{some!r}]")
    return [range_of(Run(game, what, rule, program), what) for what in some]


def range_of(run: Run, what: Any) -> Range:
    """The range of a number; the landings of an airline, if they cost the same, are one."""
    (number, *unlike), (place, *others) = set(run.moving.numbers.values()), run.moving.rates
    if unlike or isinstance(what, Mapping):
        raise BadInput(f"{what!r} is several numbers: a range is of one")
    names = names_of(run.game, place)
    down, below = run.side(-1)
    up, above = run.side(1)
    names = (*names[:-1], row_of(names[-1])) if others else names
    return Range(names, number, down, up, below, above, any([*below.values(), *above.values()]))


class Run:
    """The program, asked along a change."""

    def __init__(self, game: Game, what: What, rule: str, program: calls.Chosen):
        if rule not in RULES:
            raise BadInput(f"{rule!r} has no certificates: name nucleolus or prenucleolus")
        self.rule, self.program = rule, program
        self.moving = Moving(game, what)
        self.game = self.moving.game
        self.known: dict[Fraction, Optional[Frame]] = {}
        self.found: list[Piece] = []
        self.pool: set[int] = set()  # groups that ended a piece: the first to be looked at

    def frame_at(self, t: Fraction) -> Optional[Frame]:
        """The certificate at a change, with slopes; None where it has none."""
        if t not in self.known:
            document, factor = self.moving.document(t)
            answer = calls.answered(self.rule, document, unscaled(self.game), self.program)
            if not isinstance(answer, Nucleolus):
                raise BadInput(f"after a change of {t} there is no imputation")
            frame = Frame(self.moving, self.rule, t, answer, factor)
            self.known[t] = frame if frame.slopes is not None else None
        return self.known[t]

    def cover(self, low: Fraction, high: Fraction) -> Iterator[Piece]:
        """Pieces that cover a range, in any order."""
        todo, count = [(low, high)], 0
        while todo:
            low, high = todo.pop()
            piece = self.piece_in(low, high)
            count += 1
            if count > MOST_PIECES:
                raise BadInput(f"there are more than {MOST_PIECES} pieces: take a smaller range")
            yield piece
            todo += [(a, b) for a, b in ((low, piece.low), (piece.high, high)) if a < b]

    def piece_in(self, low: Fraction, high: Fraction) -> Piece:
        for t in inside(low, high):
            frame = self.frame_at(t)
            piece = frame and self.piece(frame, low, high)
            if piece:
                self.found.append(piece)
                return piece
        raise BadInput(f"no piece was found between {low} and {high}")

    def piece(self, frame: Frame, low: Fraction, high: Fraction) -> Optional[Piece]:
        """The piece of a frame within a range; None if it is but a point."""
        (first, near), (last, far) = self.reach(frame, low), self.reach(frame, high)
        if first == last:
            return None
        between = [] if self.moving.is_linear else [frame.t if first < frame.t < last else (first + last) / 2]
        lines = [(near, frame.line(near)), *((t, frame.line(t)) for t in between), (far, frame.line(far))]
        self.require_taken(lines)
        return Piece(first, last, frame.shares(first), frame.shares(last), frame.named(), tuple(lines))

    def require_taken(self, lines: Sequence[tuple[Fraction, bytes]]) -> None:
        """Refuses to tell anything of a piece, unless the program takes each of its lines."""
        for t, line in lines:
            said = calls.answered("check", line, unscaled(self.game), self.program)
            if not said:
                raise Fault(f"after a change of {t} the program doesn't take the line", said.status, said.line)

    def reach(self, frame: Frame, end: Fraction) -> tuple[Fraction, Fraction]:
        """How far towards a change a frame holds, and the last place on the way there that a line shows. They differ
        where no document has the numbers of the first."""
        while end != frame.t and (limit := frame.broken_at(end, self.pool)) is not None:
            self.pool.add(limit[0])
            end = frame.crossing(end, limit)
        return end, end if end == frame.t else self.nearest(frame, end)

    def nearest(self, frame: Frame, end: Fraction) -> Fraction:
        """The change itself, or the nearest simple one before it at which a document can be made."""
        try:
            self.moving.tree_at(end)
            return end
        except TooFine:
            parts = LARGEST
            while parts > 1:
                low, high = sorted((end, end + (frame.t - end) / parts))
                near = simplest(low, high)
                try:
                    self.moving.tree_at(near)
                    return near
                except TooFine:
                    parts //= 4
            raise

    # ---- Ranges

    def side(self, way: int) -> tuple[Optional[Fraction], Shares]:
        """How far one may go from here one way with the slopes that hold next to it."""
        low, high = self.moving.room(self.rule)
        limit = high if way > 0 else low
        here, slopes = Fraction(0), None
        if limit == here:
            return here, {}
        ends = self.moving.kinks(min(limit, here), max(limit, here))
        stops = ends if way > 0 else ends[::-1]
        count = 0
        for stop in stops[1:]:
            while here != stop:
                piece = self.next_piece(here, stop)
                if slopes is not None and piece.slopes != slopes:
                    return abs(here), slopes
                slopes, here = piece.slopes, piece.high if way > 0 else piece.low
                count += 1
                if count > MOST_PIECES:
                    raise BadInput(f"there are more than {MOST_PIECES} pieces one way")
        assert slopes is not None
        return (None if self.is_far(limit, way) else abs(limit)), slopes

    def is_far(self, limit: Fraction, way: int) -> bool:
        """Whether nothing but the size of a document's numbers ends the way."""
        return all(bound.b * way >= 0 or bound.a + limit * bound.b > 0 for bound in self.moving.bounds(self.rule))

    def next_piece(self, here: Fraction, stop: Fraction) -> Piece:
        """The piece that begins here on the way to a stop."""
        way = 1 if stop > here else -1
        for piece in self.found:
            if (piece.low if way > 0 else piece.high) == here and piece.low < piece.high:
                return piece
        while True:
            near = min(abs(stop - here), Fraction(1)) * way + here if not self.known else stop
            piece = self.piece_in(*sorted((here, near)))
            start = piece.low if way > 0 else piece.high
            if start == here:
                if near == stop or (piece.high if way > 0 else piece.low) != near:
                    return piece
                frame = next(frame for frame in self.known.values() if frame and piece.low <= frame.t <= piece.high)
                whole = self.piece(frame, *sorted((here, stop)))
                assert whole is not None
                self.found.append(whole)
                return whole
            stop = start


def unscaled(game: Game) -> Game:
    """The players of a game, for the answers to documents whose factor is their own."""
    if game.factor == 1:
        return game
    copy: Game = object.__new__(Game)
    copy.__dict__.update(game.__dict__, factor=1)
    return copy


def inside(low: Fraction, high: Fraction) -> Iterator[Fraction]:
    """Simple numbers inside a range: one of them is inside a piece."""
    width = high - low
    for parts in range(3, 200):
        for part in range(1, parts - 1):
            yield simplest(low + width * part / parts, low + width * (part + 1) / parts)
