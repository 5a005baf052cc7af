"""Many games by an executor: in order, with what it loses, mixes up or never gives."""
import multiprocessing
import pickle
import time
import unittest
from concurrent.futures import Future, ProcessPoolExecutor, ThreadPoolExecutor
from fractions import Fraction
from typing import Any, Collection, Iterator

import coop

from .asking import Answering, needs_program

WORDS = ("nucleolus", "shapley")
GAMES = [coop.airport([1, 2, 3 + k]) if k % 10 else coop.table([1, 1, 1]) for k in range(60)]
REFUSED = coop.Game({"class": "airport", "costs": [-1]})


def shares_in(rows: Iterator[tuple[Any, ...]]) -> list[tuple[Any, ...]]:
    """What each row says, in short."""
    return [tuple(getattr(one, "shares", None) or type(one) for one in row) for row in rows]


class Losing:
    """An executor in this process that sends all through pickle, and loses some calls: those of these numbers."""

    def __init__(self, lost: Collection[int] = ()):
        self.lost, self.count = lost, 0

    def submit(self, function: Any, /, *arguments: Any) -> "Future[Any]":
        """A future that is done, unless its call was lost."""
        future: "Future[Any]" = Future()
        self.count += 1
        if self.count in self.lost:
            future.set_exception(RuntimeError("the worker is gone"))
        else:
            call, given = pickle.loads(pickle.dumps((function, arguments)))
            future.set_result(pickle.loads(pickle.dumps(call(*given))))
        return future


class Mixing(Losing):
    """Gives each call what the call before was given."""

    def submit(self, function: Any, /, *arguments: Any) -> "Future[Any]":
        """The future of the call before."""
        own = super().submit(function, *arguments)
        last, self.last = getattr(self, "last", own), own
        return last


class Breaking(Losing):
    """Takes some calls, and then no more, as a pool with a process that was killed."""

    def __init__(self, most: int):
        super().__init__()
        self.most = most

    def submit(self, function: Any, /, *arguments: Any) -> "Future[Any]":
        """A future, if there is one."""
        if self.count == self.most:
            raise RuntimeError("the pool is broken")
        return super().submit(function, *arguments)


class Late(Losing):
    """Loses its connection."""

    def submit(self, function: Any, /, *arguments: Any) -> "Future[Any]":
        """A future that is over."""
        future: "Future[Any]" = Future()
        future.set_exception(TimeoutError("comm closed"))
        return future


class Silent(Losing):
    """Never answers."""

    def submit(self, function: Any, /, *arguments: Any) -> "Future[Any]":
        """A future that is never done."""
        return Future()


@needs_program
class Executors(unittest.TestCase):
    def test_the_same_rows(self) -> None:
        wanted = shares_in(coop.many(WORDS, GAMES))
        with ThreadPoolExecutor(2) as threads:
            self.assertEqual(shares_in(coop.many(WORDS, GAMES, executor=threads, batch=7)), wanted)
        with ProcessPoolExecutor(2, multiprocessing.get_context("spawn")) as processes:
            self.assertEqual(shares_in(coop.many(WORDS, GAMES, executor=processes, batch=20)), wanted)
        self.assertEqual(shares_in(coop.many(WORDS, GAMES, executor=Losing((1, 3, 4, 8)), batch=7)), wanted)

    def test_refused_games(self) -> None:
        rows = list(coop.many("core", [GAMES[1], REFUSED, GAMES[2]], executor=Losing(), batch=2))
        self.assertEqual([type(row[0]) for row in rows], [coop.CorePoint, coop.Failure, coop.CorePoint])
        assert isinstance(rows[1][0], coop.Failure)
        self.assertEqual((rows[1][0].status, rows[1][0].line), (3, '{"number":5,"refused":"Number"}'))
        self.assertRegex(str(rows[1][0].fault), "^refused, 5 Number(: game.costs, item 1 .*)?$")
        with self.assertRaises(coop.Refused):
            list(coop.many("core", [GAMES[1], REFUSED], executor=Losing(), batch=2, faults="raise"))


class Losses(unittest.TestCase):
    program = Answering(0, '{"answer":"core point","shares":["1","1"]}')

    def rows(self, executor: Losing, **more: Any) -> Iterator[Any]:
        """The rows of 20 games, four at a time."""
        games = [coop.airport([1, 2])] * 20
        return coop.many("core", games, executor=executor, batch=4, program=self.program, **more)

    def test_lost_for_ever(self) -> None:
        rows = self.rows(Losing(range(3, 99)))
        for _ in range(8):
            self.assertEqual(next(rows)[0].shares["1"], Fraction(1))
        said = "games 9 to 12, and all after them, .*: the executor lost them 3 times"
        with self.assertRaisesRegex(coop.Lost, said) as found:
            next(rows)
        again = pickle.loads(pickle.dumps(found.exception))
        self.assertEqual((again.first, again.last, str(again)), (9, 12, str(found.exception)))
        self.assertEqual(str(found.exception.__cause__), "the worker is gone")

    def test_mixed_up(self) -> None:
        with self.assertRaisesRegex(coop.Lost, "games 5 to 8, .* the lines of other games"):
            list(self.rows(Mixing()))

    def test_never(self) -> None:
        begun = time.monotonic()
        with self.assertRaisesRegex(coop.Lost, "games 1 to 4, .* more than 0.1 s"):
            list(self.rows(Silent(), seconds=0.1))
        self.assertLess(time.monotonic() - begun, 4)

    def test_closed(self) -> None:
        pool = ThreadPoolExecutor(1)
        pool.shutdown()
        with self.assertRaisesRegex(coop.Lost, "the executor takes no more"):
            list(self.rows(pool))  # type: ignore[arg-type]

    def test_a_pool_that_breaks(self) -> None:
        """Rows of batches that are there come first, although the pool is broken as a later one is handed over."""
        rows, found = 0, None
        try:
            for _ in self.rows(Breaking(3)):
                rows += 1
        except coop.Lost as lost:
            found = (lost.first, lost.last)
        self.assertEqual((rows, found), (12, (13, 16)))

    def test_a_timeout_of_the_executor(self) -> None:
        """One of its own is no limit that was set here: it is tried again."""
        with self.assertRaisesRegex(coop.Lost, "lost them 3 times"):
            list(self.rows(Late()))

    def test_an_endless_source(self) -> None:
        drawn: list[int] = []

        def games() -> Iterator[coop.Game]:
            while len(drawn) < 5000:
                drawn.append(1)
                yield coop.airport([1, 2])

        rows = coop.many("core", games(), executor=Losing(), batch=4, program=self.program)
        next(rows)
        self.assertLess(len(drawn), 400)


if __name__ == "__main__":
    unittest.main()
