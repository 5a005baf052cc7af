"""Rules side by side: by published numbers and by hand."""
import unittest
from fractions import Fraction

import coop
from coop import solved, versus
from coop.errors import BadInput
from coop.desk.rivals import csv, told
from coop.styles import EXACT, Style

from .asking import needs_node, needs_program
from .test_sensitivity import ESTATE, RUNWAY, VALLEY, words


class Formulas(unittest.TestCase):
    def test_by_hand(self) -> None:
        cases = {
            "in proportion": "1 2 3",
            versus.REMAINING: "4/5 8/5 18/5",
            "equal savings": "0 2 4",
            "equal charge": "4/3 4/3 10/3",
            "equal shares": "2 2 2",
        }
        for rule, wanted in cases.items():
            shares = versus.FORMULAS[rule](RUNWAY)
            assert shares is not None
            self.assertEqual((words(shares), sum(shares.values())), (wanted, 6), rule)

    def test_published(self) -> None:
        """The Tennessee Valley, by its agency's rule (Straffin and Heaney 1981)."""
        shares = versus.remaining(VALLEY)
        assert shares is not None
        self.assertEqual([round(share) for share in shares.values()], [117476, 99157, 195951])

    def test_published_at_lund(self) -> None:
        """The split by the agencies' rule (Young, Okada and Hashimoto 1982), whose hundredths are one off at three."""
        shares = versus.remaining(solved.example("lund-nucleolus").game)
        assert shares is not None
        printed = map(Fraction, ("19.54", "13.28", "5.62", "10.90", "16.66", "17.82"))
        apart = [abs(share / 100 - other) for share, other in zip(shares.values(), printed)]
        self.assertEqual((len(apart), max(apart) < Fraction("0.015"), sum(shares.values())), (6, True, 8382))

    def test_benefits(self) -> None:
        shares = versus.remaining(VALLEY, {"n": 50000, "f": 150000, "p": "300000"})
        assert shares is not None
        whole, alone, added = versus.alone_and_added(VALLEY)
        self.assertEqual((sum(shares.values()), shares["n"]), (whole, added[0] + (50000 - added[0]) * (
            whole - sum(added)
        ) / (50000 - added[0] + alone[1] - added[1] + alone[2] - added[2])))
        for game, benefits, sentence in (
            (VALLEY, {"n": 1}, "give a benefit to each of these names, each once: n, f, p"),
            (ESTATE, {name: 1 for name in ESTATE.names}, "benefits are for costs"),
        ):
            with self.assertRaisesRegex(BadInput, sentence):
                versus.remaining(game, benefits)

    def test_estates_and_votes(self) -> None:
        self.assertEqual(words(versus.in_proportion(ESTATE) or {}), "100/3 200/3 100")
        self.assertEqual(words(versus.in_proportion(coop.voting(3, [2, 1, 1])) or {}), "1/2 1/4 1/4")
        self.assertIsNone(versus.in_proportion(coop.table([0, 0, 1], order="mask")))


@needs_program
class Judged(unittest.TestCase):
    def test_rows(self) -> None:
        rows = {row.rule: row for row in versus.rules(RUNWAY)}
        self.assertEqual(list(rows), [*versus.PROVED, *versus.FORMULAS])
        self.assertEqual(words(rows["Shapley shares"].shares or {}), "2/3 5/3 11/3")
        self.assertEqual([row.rule for row in rows.values() if not row.is_proved], list(versus.FORMULAS))
        self.assertEqual([row.rule for row in rows.values() if not row.is_in_core], [])
        blocked = coop.airport({"small": 1, "large": 9})
        same = {row.rule: row for row in versus.rules(blocked)}["equal shares"]
        self.assertEqual((same.leaving, same.by), (("small",), Fraction(7, 2)))
        with self.assertRaisesRegex(BadInput, "str isn't a game"):
            versus.rules("game")  # type: ignore[arg-type]

    def test_always_all_rows(self) -> None:
        """Each game has the same rows; a rule without a division says why, and isn't stable."""
        sum_of_costs = "alone they cost 5 in sum, and together 6, so somebody pays more than alone"
        sum_of_gains = "alone they are worth 5/2 in sum, and together 2, so somebody gets less than alone"
        nothing = "the numbers that it goes by add to 0, and there is something to share"
        many = "the game has more players than the command serves"
        rest = {versus.REMAINING: versus.WANTING[versus.REMAINING]}
        both = ("nucleolus", "nucleolus per head")
        cases: list[tuple[coop.Game, dict[str, str]]] = [
            (coop.cost_table({"a": 2, "b": 3, "a+b": 6}), {**dict.fromkeys(both, sum_of_costs), **rest}),
            (coop.table({"a": "1/2", "b": 2, "a+b": 2}), {**dict.fromkeys(both, sum_of_gains), **rest}),
            (coop.table({"a": 0, "b": 0, "a+b": 2}), {"in proportion": nothing}),
            (coop.airport([1] * 9), {"nucleolus per head": many}),
            (RUNWAY, {}),
        ]
        for game, reasons in cases:
            rows = versus.rules(game)
            self.assertEqual([row.rule for row in rows], [*versus.PROVED, *versus.FORMULAS])
            self.assertEqual({row.rule: row.reason for row in rows if row.reason}, reasons)
            lacking = {row.rule: (row.shares, row.is_in_core) for row in rows if row.shares is None}
            self.assertEqual(lacking, dict.fromkeys(reasons, (None, False)))

    def test_published(self) -> None:
        """Both nucleoli and the Shapley shares of Lund and of the Tennessee Valley, and who would leave."""
        for name, leaving in (("lund", ("H", "K", "L")), ("tva", None)):
            rows = {row.rule: row for row in versus.rules(solved.example(f"{name}-nucleolus").game)}
            for rule, part in (("nucleolus", "nucleolus"), ("Shapley shares", "shapley")):
                example = solved.example(f"{name}-{part}")
                expected = list(map(Fraction, example.expected["shares"]))
                self.assertEqual(list((rows[rule].shares or {}).values()), expected)
            self.assertEqual((rows["nucleolus"].leaving, rows[versus.REMAINING].leaving), (None, leaving))

    @needs_node
    def test_told(self) -> None:
        game = coop.airport({"small": 1, "large": 9})
        rows = versus.rules(game)
        text = told(game, rows, Style(2))
        self.assertIn("small          0.50                0.50            0.50           0.90\n", text)
        self.assertIn("By equal shares: small alone could save 3.50, and no group more.\n", text)
        self.assertIn("It didn’t work out: in proportion;", " ".join(text.split()))
        lines = csv(game, rows, EXACT).splitlines()
        self.assertEqual(lines[:2] + lines[-1:], [
            "rule,player,share,leaving,by,reason", "nucleolus,small,1/2,,,", "equal shares,large,9/2,small,7/2,"
        ])

    @needs_node
    def test_told_without_a_division(self) -> None:
        game = coop.cost_table({"a": 2, "b": 3, "a+b": 6})
        rows = versus.rules(game)
        why = "alone they cost 5 in sum, and together 6, so somebody pays more than alone"
        text = told(game, rows, EXACT)
        self.assertIn(f"By nucleolus there is no division: {why}.", " ".join(text.split()))
        self.assertNotIn("nucleolus", text.split("\n\n")[0])
        self.assertIn(f'\nnucleolus per head,b,,,,"{why}"', csv(game, rows, EXACT))


if __name__ == "__main__":
    unittest.main()
