"""Margins, paths and ranges: by hand, and over random games of each class against the program."""
import random
import unittest
from dataclasses import replace
from fractions import Fraction
from typing import Any, Optional, Sequence

import coop
from coop import sensitivity
from coop.amounts import Amount
from coop.answers import answer_of
from coop.errors import BadInput, Fault
from coop.desk.grounds import told
from coop.families import game as game_of
from coop.masks import members
from coop.moving import Moving
from coop.places import what_moves
from coop.sensitivity import along, margins, ranges
from coop.widest import Many
from coop.worths import worths_of

from .asking import needs_node, needs_program
from .test_excesses import drawn_games

RUNWAY = coop.airport({"light": 2, "medium": 4, "heavy": 6})
ESTATE = coop.bankruptcy(200, {"Anna": 100, "Bert": 200, "Cleo": 300})
LABELLED = coop.bankruptcy(200, {0: 100, 1: 200, 2: 300})  # type: ignore[dict-item]
NETWORK = coop.tree([[0, 10, 10], [10, 0, 1], [10, 1, 0]], ["harbour", "mill"])
MARKET = coop.assignment([[8, 5], [7, 6]], ["Ann", "Ben", "house", "flat"])
AIRLINES = coop.landings([("Aer", 2, 3), ("Bee", 4, 1)])
NO_DIVISION = coop.table({"a": 3, "b": 3, "a+b": 4})
VOTE = coop.voting(3, {"a": 2, "b": 1, "c": 1})
VALLEY = coop.cost_table(
    {"n": 163520, "f": 140826, "p": 250096, "n+f": 301607, "n+p": 378821, "f+p": 367370, "n+f+p": 412584}
)


def nucleolus(game: coop.Game, rule: str = "nucleolus") -> coop.Nucleolus:
    """The answer of a game that has one."""
    answer = coop.nucleolus(game) if rule == "nucleolus" else coop.prenucleolus(game)
    assert isinstance(answer, coop.Nucleolus)
    return answer


def words(shares: "dict[str, Fraction]") -> str:
    """Numbers in one text."""
    return " ".join(map(str, shares.values()))


class Worths(unittest.TestCase):
    def test_all_groups_at_once(self) -> None:
        for game in drawn_games(random.Random(3)):
            unit, found = worths_of(game)
            wanted = [game.worth(group) / game.factor for group in range(game.everyone + 1)]
            self.assertEqual([Fraction(worth, unit) for worth in found], wanted, game)

    def test_along_a_change(self) -> None:
        """The game after a change, by its worths, its slopes and its document."""
        draw = random.Random(4)
        for game in drawn_games(draw):
            if game.kind == "voting":
                continue
            moving = Moving(game, {draw.choice(what_moves(game)): Fraction(1, 2)})
            low, high = moving.room("prenucleolus")
            t = max(low, Fraction(-1)) + (min(high, Fraction(1)) - max(low, Fraction(-1))) / 3
            tree, factor = moving.tree_at(t)
            written = coop.Game(tree, factor)
            unit, found = moving.worths(t)
            for group in range(1, game.everyone + 1):
                self.assertEqual(written.worth(group) / factor, moving.worth(t, group), game)
                self.assertEqual(Fraction(found[group], unit), moving.worth(t, group), game)
                if game.n > 3:
                    continue
                step = Fraction(1, 10**6)
                near = (moving.worth(t + step, group) - moving.worth(t, group)) / step
                self.assertEqual(moving.slope(t, group, 1), near, game)


class OfMany(unittest.TestCase):
    def test_the_worst_group(self) -> None:
        """The groups that are found by sorting, against a list of all, of some players."""
        draw = random.Random(64)
        for _ in range(200):
            n = draw.randint(2, 6)
            numbers, gets = ([draw.randint(least, 9) for _ in range(n)] for least in (0, -4))
            game = coop.bankruptcy(draw.randint(0, sum(numbers)), numbers)
            if draw.random() < 0.5:
                game, gets = coop.airport(numbers), [-share for share in gets]
            many, rest = Many(game, 6, [6 * share for share in gets]), draw.randint(1, 2**n - 1)

            def left(group: int) -> Fraction:
                return 6 * (sum(gets[i] for i in members(group)) - game.worth(group))

            is_open = [group for group in range(1, 2**n - 1) if 0 != group & rest != rest]
            found = list(many.widest(rest))
            self.assertTrue(set(found) <= {*is_open, game.everyone}, (game, rest))
            self.assertEqual([many.left(group) for group in found], list(map(left, found)))
            self.assertEqual(min(map(left, found), default=None), min(map(left, is_open), default=None), (game, gets))

    @needs_program
    def test_a_path_of_many(self) -> None:
        """A runway of 20, past six other costs; by hand the cost of the longest is borne by its owner."""
        game = coop.airport({f"p{k}": 10 * (k + 1) for k in range(20)})
        path = along(game, ("cost", "p19"), -61, 5)
        self.assertTrue(path.is_proved and path.check())
        self.assertEqual((path.pieces[-1].slopes["p19"], set(list(path.pieces[-1].slopes.values())[:-1])), (1, {0}))
        for t in (Fraction(-45), Fraction(-123, 4)):
            tree, factor = path.moving.tree_at(t)
            self.assertEqual(nucleolus(coop.Game(tree, factor)).shares, path.at(t))


class Refusing:
    """The program, but `check` says no to everything."""

    def run(self, words: Sequence[str], document: bytes) -> "tuple[int, bytes]":
        """Answers as the program, or no."""
        if list(words) == ["check"]:
            return 1, b'{"answer":"no","reason":3}\n'
        return coop.find().run(words, document)


@needs_program
class SensitivityOfMargins(unittest.TestCase):
    def test_by_hand(self) -> None:
        found = margins(nucleolus(VALLEY))
        self.assertEqual([margin.group for margin in found.counted()], [("n",), ("f",), ("p",)])
        bounds = [(margin.group, margin.bound, margin.room) for margin in found.closest(2)]
        self.assertEqual(bounds, [(("n", "p"), 366330, 12491), (("f", "p"), 343636, 23734)])
        self.assertEqual((len(found), found[2].group, len(found[1:3])), (6, ("n", "f"), 2))
        self.assertEqual([margin.bound for margin in margins(nucleolus(coop.airport([3])))], [])
        with self.assertRaisesRegex(BadInput, "17 players"):
            margins(nucleolus(coop.airport([1] * 17)))
        for answer in (VALLEY, coop.nucleolus(NO_DIVISION), coop.shapley(VALLEY), None):
            with self.assertRaisesRegex(BadInput, "isn't an answer of nucleolus or prenucleolus that has shares"):
                margins(answer)  # type: ignore[arg-type]

    @needs_node
    def test_told(self) -> None:
        text = " ".join(told(nucleolus(VALLEY), most=1).split())
        self.assertIn("rest on 4 of the 7 numbers as they are: n alone, f alone, p alone and all together.", text)
        self.assertIn("Each of the other 3 may be off, all at once: as long as none costs less than its bound,", text)
        self.assertIn("line proves it. Those nearest to it: group", text)
        self.assertNotIn("there are ties", text)
        self.assertIn("n and p together 378821 366330 3.3 %", text)
        text = told(nucleolus(ESTATE))
        self.assertIn("Of 4 numbers 2 matter", text)
        self.assertIn("the estate         200   150    250     0   1/2   1/2", text)
        self.assertIn("the link source - harbour  10     0   10        1     0\n", told(nucleolus(NETWORK)))
        text = " ".join(told(nucleolus(coop.voting(2, [1, 1, 1]))).split())
        self.assertIn("rest on 4 of the 7 numbers as they are: player 1 and player 2 together; player 1 and", text)
        self.assertIn("as long as none gains more than its bound, the shares stay as they are, and the same line", text)
        tied = " ".join(told(nucleolus(coop.table([0, 0, 1, 0, 0, 1, 3], order="mask"))).split())
        self.assertIn("Some of the others have no room at all: there are ties.", tied)
        alone = told(nucleolus(coop.table([3], order="size")))
        self.assertEqual(alone, "By this evidence, the shares rest on 1 of the 1 numbers as they are: all together.\n")
        with self.assertRaisesRegex(BadInput, "at most 10"):
            told(nucleolus(big_network()))


def big_network() -> coop.Game:
    """A network of eleven players."""
    return coop.tree([[0 if i == j else 1 + i * j % 3 for j in range(12)] for i in range(12)])


@needs_program
class Paths(unittest.TestCase):
    def test_by_hand(self) -> None:
        """The Talmud's rule along the estate: thirds, then the two larger claims, and so on, and back again."""
        path = along(ESTATE, "estate", -200, 400)
        self.assertEqual(path.bends(), [-50, 50, 150, 250])
        slopes = ["1/3 1/3 1/3", "0 1/2 1/2", "0 0 1", "0 1/2 1/2", "1/3 1/3 1/3"]
        self.assertEqual([words(piece.slopes) for piece in path.pieces], slopes)
        self.assertEqual((words(path.at(0)), words(path.at("1/2")), words(path.at(400))), (
            "50 75 75", "50 301/4 301/4", "100 200 300"
        ))
        self.assertTrue(path.is_proved and path.check() and path.check(anew=True))
        self.assertEqual(words(along(VOTE, "b+c", 0, 1).at("1/2")), "2/3 1/6 1/6")  # a sixth each, of what b+c may win
        for t in (-201, 401):
            with self.assertRaisesRegex(BadInput, "isn't between"):
                path.at(t)

    def test_each_class(self) -> None:
        cases: list[tuple[coop.Game, Any, Amount, Amount, str]] = [
            (RUNWAY, ("cost", "medium"), -4, 10, "-8/3 -2 -1 2"),
            (RUNWAY, {"light": 1, "heavy": 1}, 0, 4, "2/3 2"),
            (NETWORK, ("link", "mill", "harbour"), -1, 30, "9"),
            (NETWORK, ("link", "source", "mill"), -10, 5, "0"),
            (MARKET, ("pair", "Ann", "flat"), -5, 10, "-8/3 0 2 4"),
            (coop.market([[8, 5], [7, 6]]), ("pair", "1", "4"), -5, 10, "-8/3 0 2 4"),
            (VALLEY, "n+p", -20000, 5, "-12491"),
            (VOTE, "b+c", 0, 1, ""),
            (AIRLINES, ("cost", "Aer"), -1, 1, ""),
            (NO_DIVISION, "a", -3, -2, ""),  # after the change there is one
        ]
        for game, what, low, high, bends in cases:
            path = along(game, what, low, high)
            self.assertTrue(path.check() and path.check(anew=True), what)
            self.assertEqual(" ".join(map(str, path.bends())), bends, what)

    def test_a_spoilt_path(self) -> None:
        """Lines of another game, other shares, another certificate, or one line too few show nothing."""
        path = along(ESTATE, "estate", -40, 40)
        piece, other = path.pieces[0], along(ESTATE, "estate", -40, 30).pieces[0]
        self.assertTrue(path.check())
        twice = (*piece.lines[:2], piece.lines[1])
        shares = [(t, line.replace(b'"75"', b'"76"')) for t, line in piece.lines]
        for lines in (piece.lines[:2], twice, other.lines, shares):
            wrong = sensitivity.Piece(
                piece.low, piece.high, piece.at_low, piece.at_high, piece.slopes, tuple(lines)
            )
            spoilt = sensitivity.Path([wrong], path.rule, path.moving)
            self.assertFalse(spoilt.check() and spoilt.is_proved)

    def test_nothing_is_told_of_a_line_that_is_not_taken(self) -> None:
        """A program that takes no line; and a line with other shares."""
        with self.assertRaisesRegex(Fault, "the program doesn't take the line"):
            along(ESTATE, "estate", -40, 40, program=Refusing())
        with self.assertRaisesRegex(Fault, "the program doesn't take the line"):
            ranges(ESTATE, ["estate"], program=Refusing())
        answer = nucleolus(ESTATE)
        spoilt = answer_of(answer.line.replace('"75"', '"74"', 1).replace('"75"', '"76"', 1), 0, ESTATE)
        assert isinstance(spoilt, coop.Nucleolus)
        with self.assertRaisesRegex(BadInput, "doesn't show these shares"):
            margins(spoilt)

    def test_an_end_that_no_document_has(self) -> None:
        """Numbers so large that a bend's denominator makes them too large: the lines stand beside it, and say so."""
        a, b, c = 10**11 + 1, 10**11 + 7, 10**11 + 11
        game = coop.cost_table(
            {"a": a, "b": b, "c": c, "a+b": 2 * a - 3, "a+c": 2 * a + 1, "b+c": 2 * b - 5, "a+b+c": 3 * a - 11}
        )
        path = along(game, "a+b", -40, 40)
        self.assertTrue(path.check())
        for piece in path.pieces:
            self.assertTrue(piece.low <= piece.proved[0] < piece.proved[1] <= piece.high)
        self.assertEqual(path.at(0), nucleolus(game).shares)

    def test_costs_that_cross_where_no_document_is(self) -> None:
        """No piece goes on past a crossing without a line there; and one that does shows nothing."""
        most = 10**11
        costs = [most + 12, most + 31, most + 24, 3 * most + 32, 3 * most + 1]
        path = along(coop.airport(costs), {"1": 13, "2": 2}, -3, "5/3")
        crossing = Fraction(12, 13)
        self.assertIn(crossing, path.moving.kinks(Fraction(-3), Fraction(5, 3)))
        self.assertTrue(path.check() and not path.is_proved)
        self.assertTrue(all(not piece.proved[0] < crossing < piece.proved[1] for piece in path.pieces))
        first = max(k for k, piece in enumerate(path.pieces) if piece.high == crossing)
        one, other = path.pieces[first : first + 2]
        both = replace(one, high=other.high, at_high=other.at_high, lines=(*one.lines, *other.lines))
        spoilt = sensitivity.Path([*path.pieces[:first], both, *path.pieces[first + 2 :]], path.rule, path.moving)
        self.assertFalse(spoilt.check())

    def test_floats_are_refused(self) -> None:
        for what, low, high in (("estate", -0.5, 1), ("estate", 0, 1.5), ({"estate": 0.5}, 0, 1)):
            with self.assertRaises(BadInput):
                along(ESTATE, what, low, high)  # type: ignore[arg-type]

    def test_what_is_refused(self) -> None:
        cases: list[tuple[str, coop.Game, Any, Amount, Amount, str]] = [
            ("17 players: a table has 1 to 16", coop.voting(2, [1] * 17), "1", 0, 1, "nucleolus"),
            ("quota isn't a player: there are a, b, c; of a vote name a group: who", VOTE, "quota", 0, 1, "nucleolus"),
            ("votes isn't a player: .*; of a vote", VOTE, ("votes", "a"), 0, 1, "nucleolus"),
            ("no pair of a buyer and a seller", coop.market([[1]]), ("pair", "2", "1"), 0, 1, "nucleolus"),
            ("2 isn't below 2", ESTATE, "estate", 2, 2, "nucleolus"),
            ("2 isn't below 1", ESTATE, "estate", 2, 1, "nucleolus"),
            ("after a change of -1 there is no imputation", NO_DIVISION, "a", -1, 0, "nucleolus"),
            ("a member of 'n.n' is there twice", VALLEY, "n+n", 0, 1, "nucleolus"),
            ("1 isn't a player: there are n, f, p; give a name, not a place", VALLEY, ("n", 1), 0, 1, "nucleolus"),
            ("1 isn't a player: there are light, ", RUNWAY, ("cost", 1), 0, 1, "nucleolus"),
            ("1 isn't a player: there are harbour, ", NETWORK, ("link", 0, 1), 0, 1, "nucleolus"),
            ("True isn't a player", coop.airport([1, 2]), ("cost", True), 0, 1, "nucleolus"),
            ("'f.n' is a number that was named before", VALLEY, {"n+f": 1, "f+n": 1}, 0, 1, "nucleolus"),
            ("'Aer 1' is a number that was named before", AIRLINES, {"Aer": 1, "Aer 1": 1}, 0, 1, "nucleolus"),
            ("is no number of such a game", ESTATE, (), 0, 1, "nucleolus"),
            ("None isn't a player", ESTATE, None, 0, 1, "nucleolus"),
            ("all rates are 0", ESTATE, {}, 0, 1, "nucleolus"),
            ("after a change of 1099511627776 a number, .* 1, is 2.40 or more", VALLEY, "n+p", 0, 2**40, "nucleolus"),
            ("after a change of 1/99999989 a number, .* is 2.40 or more", VALLEY, "n", 0, "1/99999989", "nucleolus"),
            ("str isn't a game", "game", "n", 0, 1, "nucleolus"),  # type: ignore[list-item]
            ("of 401 the claims add to less than", ESTATE, "estate", 0, 401, "nucleolus"),
            ("of -201 the estate is below 0", ESTATE, "estate", -201, 0, "nucleolus"),
            ("the cost of light is below 0", RUNWAY, "light", -3, 0, "nucleolus"),
            ("the link of harbour and mill is below 0", NETWORK, ("link", "harbour", "mill"), -2, 0, "nucleolus"),
            ("after a change of 200000 there is no imputation", VALLEY, "n+f+p", 0, 200000, "nucleolus"),
            ("x isn't a player: there are Anna", ESTATE, ("claim", "x"), 0, 1, "nucleolus"),
            ("is no number of such a game", ESTATE, ("cost", "Anna"), 0, 1, "nucleolus"),
            ("needs two ends", NETWORK, ("link", "mill", "mill"), 0, 1, "nucleolus"),
            ("no pair of a buyer and a seller", MARKET, ("pair", "house", "Ann"), 0, 1, "nucleolus"),
            ("the empty group has no number", VALLEY, (), 0, 1, "nucleolus"),
            ("all rates are 0", VALLEY, {"n": 0}, 0, 1, "nucleolus"),
            ("name nucleolus or prenucleolus", VALLEY, "n", 0, 1, "shapley"),
        ]
        for sentence, game, what, low, high, rule in cases:
            with self.assertRaisesRegex(BadInput, sentence):
                along(game, what, low, high, rule)


@needs_program
class Ranges(unittest.TestCase):
    def test_by_hand(self) -> None:
        def ends(game: coop.Game, what: Any) -> "tuple[Optional[Fraction], Optional[Fraction], str, str]":
            found, = ranges(game, [what])
            return found.down, found.up, words(found.below), words(found.above)

        self.assertEqual(ends(ESTATE, "estate"), (50, 50, "0 1/2 1/2", "0 1/2 1/2"))
        self.assertEqual(ends(ESTATE, ("claim", "Cleo")), (150, None, "0 0 0", "0 0 0"))
        self.assertEqual(ends(RUNWAY, "heavy"), (2, None, "0 0 1", "0 0 1"))
        self.assertEqual(ends(NETWORK, ("link", "source", "harbour")), (10, None, "1 0", "1/2 -1/2"))
        self.assertEqual(ends(VALLEY, "n+p"), (12491, None, "0 0 0", "0 0 0"))
        whole = coop.bankruptcy(600, {"Anna": 100, "Bert": 200, "Cleo": 300})
        self.assertEqual(ends(whole, "estate"), (150, 0, "1/3 1/3 1/3", ""))

    def test_names(self) -> None:
        """However a number is asked for, it has the names of `what_moves`."""
        asked: list[tuple[coop.Game, Any, tuple[str, ...]]] = [
            (ESTATE, "Anna", ("claim", "Anna")), (ESTATE, ["claim", "Bert"], ("claim", "Bert")),
            (VALLEY, "p+n", ("n", "p")),
            (NETWORK, ("link", "mill", 0), ("link", "source", "mill")), (AIRLINES, "Aer", ("cost", "Aer")),
            (MARKET, ("pair", "Ben", "flat"), ("pair", "Ben", "flat")), (LABELLED, ("claim", 1), ("claim", "1")),
            (LABELLED, 0, ("claim", "0")),
            (coop.landings([("17", 2, 2), ("3", 4, 1)]), ("cost", 17), ("cost", "17")),
            (coop.assignment([[1]]), ("pair", 1, 2), ("pair", "1", "2")),
        ]
        for game, what, names in asked:
            self.assertEqual([found.what for found in ranges(game, [what])], [names])

    def test_what_is_refused(self) -> None:
        unlike = coop.landings([("Aer", 2, 1), ("Aer", 3, 1)])
        cases: list[tuple[str, coop.Game, Any]] = [
            ("'estate' isn't a list of numbers: write ..estate", ESTATE, "estate"),
            ("5 isn't a list of numbers", ESTATE, 5),
            ("is several numbers", ESTATE, [{"Anna": 1, "Bert": 1}]),
            ("'Aer' is several numbers", unlike, ["Aer"]),
            ("before the change there is no imputation", NO_DIVISION, ["a"]),
            ("str isn't a game", "game", None),  # type: ignore[list-item]
            ("the game has 65535 numbers, and at most 255 are moved unasked: name some", game_of("III", 16, 1), None),
        ]
        for sentence, game, some in cases:
            with self.assertRaisesRegex(BadInput, sentence):
                ranges(game, some)

    def test_which_matter(self) -> None:
        matter = [found.what for found in ranges(ESTATE) if found.matters]
        self.assertEqual(matter, [("estate",), ("claim", "Anna")])
        self.assertEqual(len(ranges(MARKET)), 4)


if __name__ == "__main__":
    unittest.main()
