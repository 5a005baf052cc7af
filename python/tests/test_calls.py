"""The calls: what each answers, and what is raised."""
import contextlib
import io
import json
import os
import re
import time
import unittest
from concurrent.futures import ThreadPoolExecutor
from dataclasses import replace
from fractions import Fraction
from typing import Any, Iterator, Union

import coop
from coop import answers
from coop.checking import verdict
from coop.program import TOP
from coop.server import Server

from .asking import Answering, needs_program

AIRPORT = coop.airport({"light": 2, "medium": 4, "heavy": 6})
TRIO = coop.table({"s": 20, "p": 30, "s+p": 80, "d": 0, "s+d": 50, "p+d": 65, "s+p+d": 120})
MAJORITY = coop.table([0, 0, 1, 0, 1, 1, 1], order="mask")


def fractions(text: str) -> list[Fraction]:
    """Fractions between blanks."""
    return [Fraction(part) for part in text.split()]


@needs_program
class Calls(unittest.TestCase):
    def test_nucleolus_and_check(self) -> None:
        answer = coop.nucleolus(AIRPORT)
        assert isinstance(answer, answers.Nucleolus)
        self.assertEqual(answer.shares, dict(zip(["light", "medium", "heavy"], fractions("1 3/2 7/2"))))
        self.assertEqual((answer.status, answer.rule, bool(answer)), (0, "nucleolus", True))
        self.assertEqual(json.loads(answer.line)["certificate"], answer.certificate)
        lines: list[Union[str, bytes, answers.Nucleolus]] = [answer, answer.line, answer.line.encode()]
        for line in lines:
            self.assertIsInstance(coop.check(line), answers.Yes)
        spoilt = replace(answer, shares=dict(answer.shares))
        spoilt.shares["light"] = Fraction(99)
        self.assertIsInstance(coop.check(spoilt), answers.No)
        self.assertEqual((verdict(answer)["answer"], verdict(spoilt)["answer"]), ("yes", "no"))
        spoilt.shares["light"] = 1.0  # type: ignore[assignment]
        with self.assertRaisesRegex(coop.BadInput, "light: 1.0 is a float"):
            coop.check(spoilt)
        with self.assertRaisesRegex(coop.BadInput, "int isn't a line, a document, an answer or a game"):
            coop.check(1)  # type: ignore[arg-type]
        no = coop.check(answer.line.replace('"-1"', '"-2"'))
        assert isinstance(no, answers.No)
        self.assertEqual((no.reason, no.level, no.coalition, bool(no)), (3, 1, ("light",), False))
        self.assertEqual(coop.prenucleolus(AIRPORT).rule, "prenucleolus")
        none = coop.nucleolus(coop.table([1, 2, 2]))
        assert isinstance(none, answers.NoImputation)
        self.assertEqual((none.singles, none.total, bool(none)), (3, 2, False))
        failed = coop.Failure(coop.Usage("too many", 2))
        for call in (coop.check, verdict):
            for other in (none, coop.shapley(AIRPORT), failed):
                with self.assertRaisesRegex(coop.BadInput, f"{type(other).__name__} has no certificate to check"):
                    call(other)  # type: ignore[operator]

    def test_the_core(self) -> None:
        point, empty = coop.core(AIRPORT), coop.core(MAJORITY)
        assert isinstance(point, answers.CorePoint) and isinstance(empty, answers.EmptyCore)
        self.assertEqual(list(point.shares.values()), fractions("1 3/2 7/2"))
        self.assertEqual(empty.collection, ((("1", "2"), 1), (("1", "3"), 1), (("2", "3"), 1)))
        self.assertEqual((empty.k, empty.value, empty.against), (2, 3, 2))

    def test_the_least_core(self) -> None:
        self.assertEqual(coop.least_core(MAJORITY), Fraction(1, 3))
        self.assertEqual(coop.least_core(AIRPORT), -1)
        self.assertEqual(coop.least_core(coop.airport(["0.00002", 4, 6])), Fraction(-1, 100000))  # over the factor
        with self.assertRaisesRegex(coop.BadInput, "one player"):
            coop.least_core(coop.airport([1]))

    def test_floats_as_shares(self) -> None:
        self.assertIsInstance(coop.propose(AIRPORT, [1.0, 1.5, 3.499999], digits=2), answers.InCore)
        shares = {"heavy": 3.5, "light": 1.0, "medium": 1.5}
        self.assertIsInstance(coop.kernel(AIRPORT, shares, digits=1), answers.InPrekernel)
        with self.assertRaisesRegex(coop.BadInput, "give a number of digits"):
            coop.propose(AIRPORT, [1.0, 1.5, 3.5])

    def test_proposals(self) -> None:
        blocked = coop.propose(AIRPORT, {"light": 3, "heavy": 2, "medium": 1})
        assert isinstance(blocked, answers.Blocked)
        self.assertEqual((blocked.coalition, blocked.excess), (("light",), 1))
        self.assertIsInstance(coop.propose(AIRPORT, ["1", "1.5", Fraction(7, 2)]), answers.InCore)
        unequal = coop.propose(AIRPORT, [1, 2, 4])
        assert isinstance(unequal, answers.NotEfficient)
        self.assertEqual((unequal.sum, unequal.total), (7, 6))
        hold = coop.kernel(TRIO, ["125/3", "325/6", "145/6"])
        assert isinstance(hold, answers.NotInPrekernel)
        self.assertEqual((hold.i, hold.j, hold.ij, hold.ji), ("s", "p", Fraction(-95, 6), Fraction(-40, 3)))
        self.assertIsInstance(coop.kernel(TRIO, [40, 55, 25]), answers.InPrekernel)

    def test_the_others(self) -> None:
        self.assertEqual(list(coop.shapley(coop.voting(5, [4, 2, 1])).shares.values()), fractions("2/3 1/6 1/6"))
        bird = coop.bird(coop.tree([[0, 10, 10], [10, 0, 1], [10, 1, 0]], ["harbour", "mill"]))
        self.assertEqual(bird.links, (("0", "harbour", 10), ("harbour", "mill", 1)))
        convex, other = coop.convex(TRIO), coop.convex(MAJORITY)
        assert isinstance(convex, answers.Convex) and isinstance(other, answers.NotConvex)
        self.assertEqual(list(convex.marginal.values()), [20, 60, 40])
        self.assertEqual((other.coalition, other.i, other.j, other.deficit), (("1",), "2", "3", 1))
        homes = coop.matching(coop.market([[5, 8], [7, 6], [6, 6]], ["Ann", "Ben", "Cem", "house", "flat"]))
        self.assertEqual((homes.pairs, homes.value), ((("Ann", "flat"), ("Ben", "house")), 15))
        self.assertEqual((homes.buyers_best["Ann"], homes.sellers_best["flat"]), (2, 8))

    def test_numbers_are_over_the_factor(self) -> None:
        game = coop.airport([0.2, 0.4, 0.6], ["light", "medium", "heavy"], digits=9)
        self.assertEqual(game.factor, 10**9)
        answer = coop.nucleolus(game)
        assert isinstance(answer, answers.Nucleolus)
        self.assertEqual(list(answer.shares.values()), fractions("1/10 3/20 7/20"))
        self.assertIsInstance(coop.propose(game, answer.shares), answers.InCore)
        blocked = coop.propose(game, ["0.3", "0.1", "0.2"])
        assert isinstance(blocked, answers.Blocked)
        self.assertEqual(blocked.excess, Fraction(1, 10))
        self.assertEqual(sum(coop.shapley(game).shares.values()), Fraction(3, 5))
        none = coop.nucleolus(coop.table(["0.10001", "0.2", "0.2"], digits=5))
        assert isinstance(none, answers.NoImputation)
        self.assertEqual((none.singles, none.total), (Fraction(30001, 100000), Fraction(1, 5)))

    def test_what_is_raised(self) -> None:
        with self.assertRaisesRegex(coop.Usage, "class of the game"):
            coop.bird(AIRPORT)
        with self.assertRaises(coop.Refused) as raised:
            coop.nucleolus(coop.Game({"class": "airport", "costs": [-1]}))
        self.assertEqual((raised.exception.number, raised.exception.name), (5, "Number"))
        place = "game.costs, item 1 (the cost of player 1)"
        self.assertEqual(str(raised.exception), f"refused, 5 Number: {place}: A number here can’t be negative.")
        with self.assertRaises(coop.Refused) as raised:
            coop.check("{}")
        self.assertEqual((raised.exception.status, raised.exception.number), (3, 3))

    def test_many(self) -> None:
        games = [coop.airport([2, 4, cost]) for cost in range(5, 25)]
        games.insert(3, coop.Game({"class": "airport", "costs": [-1]}))
        found = list(coop.many(("nucleolus", "shapley"), games, processors=1))
        self.assertEqual(len(found), len(games))
        for game, (nucleolus, shapley) in zip(games, found):
            if game is games[3]:
                for one in (nucleolus, shapley):
                    self.assertIsInstance(getattr(one, "fault", None), coop.Refused)
                continue
            assert isinstance(nucleolus, answers.Nucleolus) and isinstance(shapley, answers.Shapley)
            self.assertEqual(sum(nucleolus.shares.values()), game.whole())
            self.assertEqual(shapley.shares, coop.shapley(game).shares)
        self.assertEqual([len(some) for some in coop.many("core", iter(games[:2]))], [1, 1])
        again = [outcome.line for outcome, _ in coop.many(("nucleolus", "shapley"), games, processors=3)]
        self.assertEqual(again, [outcome.line for outcome, _ in found])


class Modules(unittest.TestCase):
    def test_what_the_pages_name(self) -> None:
        """Whatever the pages name behind `coop.` is there after `import coop` alone."""
        named: set[str] = set()
        for page in ("python.md", "calling.md", "scripts.md", "examples.md"):
            with open(os.path.join(TOP, "docs", page), encoding="utf-8") as file:
                named.update(re.findall(r"`(coop(?:\.[a-z_A-Z]+)+)[`(]", file.read()))
        files = {name for name in named if name.endswith((".mjs", ".html", ".so", ".json", ".h", ".pc"))}
        self.assertGreater(len(named - files), 20)
        for name in sorted(named - files):
            thing: object = coop
            for part in name.split(".")[1:]:
                thing = getattr(thing, part)


@needs_program
class Rows(unittest.TestCase):
    """What the first loop of a user counts."""

    def test_a_failure_counts_as_no(self) -> None:
        """Whatever the program ends with."""
        for status in (2, 3, 5, 6, 7, 70, 124, -9):
            rows = list(coop.many(("core", "convex"), [AIRPORT] * 3, program=Answering(status, '{"usage":"players"}')))
            self.assertEqual([sum(bool(one) for one in row) for row in rows], [0, 0, 0])
            self.assertEqual({type(one) for row in rows for one in row}, {coop.Failure})

    def test_failures_of_a_program(self) -> None:
        refused, many = coop.Game({"class": "bankruptcy", "estate": 100, "claims": [1, 2]}), coop.airport(range(1, 21))
        rows = list(coop.many(("core", "convex"), [refused, many]))
        self.assertEqual([[bool(one) for one in row] for row in rows], [[False, False], [True, False]])

    def test_faults_are_raised(self) -> None:
        with self.assertRaises(coop.Usage):
            list(coop.many("convex", [AIRPORT], program=Answering(2, '{"usage":"players"}'), faults="raise"))
        with self.assertRaisesRegex(coop.BadInput, "'rase' isn't a way"):
            coop.many("convex", [AIRPORT], faults="rase")

    def test_commands_before_the_first_game(self) -> None:
        program = Answering(0)
        wrong = ("convexx", "is no command"), ("propose", "needs more"), (("core", "check"), "map coop.check"), ((), "")
        for words, said in wrong:
            with self.assertRaisesRegex(coop.BadInput, said):
                coop.many(words, [AIRPORT], program=program)
        self.assertEqual(program.asked, [])

    def test_what_nobody_can_take(self) -> None:
        """A batch of no games would give no rows; a set has no order; what can't be run is no program."""
        program = Answering(0)
        with ThreadPoolExecutor(1) as pool:
            for count in (0, -1, 1.5, True):
                for more in ({"batch": count, "executor": pool}, {"processors": count}):
                    with self.assertRaisesRegex(coop.BadInput, f"^{count} isn't a number of"):
                        coop.many("core", [AIRPORT], program=program, **more)  # type: ignore[arg-type]
                with self.assertRaisesRegex(coop.BadInput, f"^{count} isn't a number of processes"):
                    Server(["node"], processes=count)  # type: ignore[arg-type]
        some: Any = frozenset([1, 2])
        for make in (coop.airport, lambda some: coop.airport([1, 2], some), lambda some: coop.tree([some, some])):
            with self.assertRaisesRegex(coop.BadInput, "a set has no order"):
                make(set(some))  # type: ignore[operator]
        with self.assertRaisesRegex(coop.BadInput, "a set has no order"):
            coop.many({"core", "shapley"}, [AIRPORT], program=program)  # type: ignore[arg-type]
        for games, more, sentence in (
            ([AIRPORT], {"seconds": 1}, "are for an executor: .* give program=Server"),
            ([AIRPORT], {"batch": 4}, "are for an executor"),
            ([AIRPORT], {"executor": "Pool"}, "a str has no `submit`: give one that has, such as concurrent"),
            (AIRPORT, {}, "a Game isn't a list of games: give .game."),
            ({"May": AIRPORT}, {}, "a dict isn't a list of games: give its .values"),
        ):
            with self.assertRaisesRegex(coop.BadInput, sentence):
                coop.many("core", games, program=program, **more)  # type: ignore[arg-type]
        with self.assertRaisesRegex(coop.BadInput, "5 isn't a program"):
            coop.core(AIRPORT, program=5)  # type: ignore[arg-type]
        self.assertEqual(program.asked, [])

    def test_a_slow_source(self) -> None:
        """A row that is there doesn't wait for others."""
        drawn: list[int] = []

        def games() -> Iterator[coop.Game]:
            for number in range(20):
                drawn.append(number)
                yield AIRPORT
                time.sleep(0.05)

        next(coop.many("core", games(), program=Answering(0, '{"answer":"core point","shares":["1","1","1"]}')))
        self.assertLess(len(drawn), 10)

    def test_an_exception_is_true(self) -> None:
        """Some versions of concurrent.futures ask whether an exception is true before they raise it."""
        with ThreadPoolExecutor(1) as pool:
            with self.assertRaises(coop.Usage):
                pool.submit(coop.core, AIRPORT, Answering(2, '{"usage":"players"}')).result()


class Bars(unittest.TestCase):
    def test_progress(self) -> None:
        program = Answering(1, '{"answer":"blocked","coalition":[1],"excess":"1"}')
        games = [AIRPORT] * 7
        errors = io.StringIO()
        with contextlib.redirect_stderr(errors):
            list(coop.many("core", games, program=program, processors=2))
        self.assertEqual(errors.getvalue(), "")
        with contextlib.redirect_stderr(errors):
            list(coop.many("core", games, program=program, processors=2, progress=True))
        bars = errors.getvalue().split("\r")
        self.assertTrue(bars[1].startswith("[####......"), bars)
        self.assertEqual((bars[-1], len(program.asked)), (f"[{'#' * 30}] 7 of 7 games, 0 s left \n", 14))


class Statuses(unittest.TestCase):
    """Each status by a program that gives just that."""

    def test_what_is_asked(self) -> None:
        program = Answering(0, '{"answer":"core"}\n')
        coop.propose(AIRPORT, [1, "1.5", Fraction(7, 2)], program=program)
        ((words, document),) = program.asked
        self.assertEqual(words, ["propose"])
        tree = {"class": "airport", "names": ["light", "medium", "heavy"], "costs": [2, 4, 6]}
        self.assertEqual(json.loads(document), {"game": tree, "shares": [1, "3/2", "7/2"]})

    def test_a_slip_of_another_refusal_is_not_told(self) -> None:
        game = coop.Game({"class": "airport", "costs": [-1]})
        for number, name, has_place in ((5, "Number", True), (8, "Estate", False)):
            program = Answering(3, json.dumps({"number": number, "refused": name}))
            with self.assertRaises(coop.Refused) as raised:
                coop.core(game, program=program)
            self.assertEqual(raised.exception.where is not None, has_place)

    def test_shares_of_others(self) -> None:
        for shares in ({"light": 1, "medium": 2}, {"light": 1, "medium": 2, "heavy": 3, "x": 0}):
            with self.assertRaisesRegex(coop.BadInput, "light, medium, heavy"):
                coop.propose(AIRPORT, shares, program=Answering(0))

    def test_no_answers(self) -> None:
        cases: list[tuple[int, str, type[coop.NoAnswer], str]] = [
            (2, '{"usage":"players"}', coop.Usage, "more players than the command serves"),
            (3, '{"number":8,"refused":"Estate"}', coop.Refused, "8 Estate"),
            (5, "", coop.Fault, "reading failed"),
            (6, '{"answ', coop.Fault, "writing failed"),
            (7, "", coop.NoMemory, "out of memory"),
            (70, "", coop.Fault, "couldn't answer"),
            (-9, "", coop.Fault, "status -9"),
            (2, "usage: cat", coop.Fault, "status 2"),
            (0, "no line", coop.Fault, "isn't one of coop"),
            (0, '{"answer":"maybe"}', coop.Fault, "isn't one of coop"),
            (0, '{"answer":"shapley"}', coop.Fault, "isn't one of coop"),
            (0, '{"answer":"shapley","shares":["1","1/0"]}', coop.Fault, "isn't one of coop"),
            (0, '{"answer":"shapley","shares":["1","1.5"]}', coop.Fault, "isn't one of coop"),
            (0, '{"answer":"shapley","shares":["1",1]}', coop.Fault, "isn't one of coop"),
        ]
        for status, line, kind, sentence in cases:
            with self.assertRaisesRegex(kind, sentence) as raised:
                coop.shapley(AIRPORT, program=Answering(status, line))
            self.assertEqual(raised.exception.status, status)


if __name__ == "__main__":
    unittest.main()
