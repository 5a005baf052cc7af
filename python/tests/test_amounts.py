"""Numbers: what is taken, what is refused, and how they are shown."""
import unittest
from decimal import Decimal
from fractions import Fraction
from numbers import Real
from typing import Any, Callable

import coop
from coop import BadInput
from coop.amounts import Amount, factor_for, fraction_of, written
from coop.styles import Style, column, decimal, rounded


@Real.register
class Span:
    """A span of time as NumPy has it: a number by its class, and none by its value."""

    def __float__(self) -> float:
        raise TypeError("a span of time is no number")


class bool_:
    """A truth value of NumPy, which is 1 where an index is asked for."""

    def __index__(self) -> int:
        return 1


class Row(dict[Any, Any]):
    """A row of a data frame: numbers by labels, with a name."""

    def __init__(self, name: str, numbers: dict[Any, Any]):
        super().__init__(numbers)
        self.name = name


class Amounts(unittest.TestCase):
    def test_what_is_taken(self) -> None:
        cases: list[tuple[Amount, str]] = [
            (3, "3"),
            ("12.50", "25/2"),
            (" 25/2 ", "25/2"),
            ("1e-05", "1/100000"),  # as R and Python write small and great numbers
            ("1e+05", "100000"),
            ("-2.76198e-05", "-276198/10000000000"),
            ("-0.1", "-1/10"),
            (Decimal("0.1"), "1/10"),
        ]
        for value, text in [*cases, (Fraction(6, 4), "3/2")]:
            self.assertEqual(fraction_of(value), Fraction(text), value)

    def test_a_float_needs_a_number_of_digits(self) -> None:
        with self.assertRaisesRegex(BadInput, "0.1 is a float"):
            fraction_of(0.1)
        self.assertEqual(fraction_of(0.1, 1), Fraction(1, 10))
        self.assertEqual(fraction_of(0.2875775201, 9), Fraction(287577520, 10**9))

    def test_what_is_no_number(self) -> None:
        others = True, None, Decimal("NaN"), Decimal("sNaN"), float("inf"), float("nan"), 2j, [1], Span(), bool_()
        for value in ("", "1,200.50", "e3", "1e", "1e999", "1e2/3", "1/0", "ten", "1.", ".5", "NaN", *others):
            with self.assertRaises(BadInput, msg=value):
                fraction_of(value, 3)  # type: ignore[arg-type]

    def test_the_factor(self) -> None:
        self.assertEqual(factor_for([Fraction(1, 65536)]), 1)
        self.assertEqual(factor_for([Fraction(1, 65537), Fraction(1, 2)]), 131074)
        self.assertEqual(factor_for([Fraction(1, 2)], 4), 1)
        self.assertEqual(factor_for([Fraction(1, 2)], 5), 100000)
        for values in (
            [Fraction(2**40)],
            [Fraction(2**39, 3), Fraction(1, 2)],
            [Fraction(1, 2**41), Fraction(1)],
        ):
            with self.assertRaises(BadInput, msg=values):
                factor_for(values)
        cases = [
            ([Fraction("0.2875775201"), Fraction(300)], "at most 9 "),
            ([Fraction(1, 10**13), Fraction(1)], "at most 12 "),
            ([Fraction(2**40 - 1), Fraction(1, 3)], "at most 0 "),
            ([Fraction(2**40), Fraction(1, 3)], "the greatest number is too large"),
            ([Fraction(2**40)], "is 2\\^40 or more$"),
        ]
        for values, sentence in cases:
            with self.assertRaisesRegex(BadInput, sentence):
                factor_for(values)
        self.assertEqual(factor_for([Fraction(300), Fraction(287577520, 10**9)], 9), 10**9)
        self.assertRaises(BadInput, factor_for, [Fraction(300), Fraction(2875775201, 10**10)], 10)

    def test_a_number_too_great_has_its_place(self) -> None:
        """The row and the column of a data frame, a name, or the place in a list; and the number, as it counts."""
        great = 2**40
        lane = Row("lane-010", {"Arc": 3, "Blu": 2, "Arc+Blu": great})
        cases: list[tuple[Callable[[], Any], str]] = [
            (lambda: coop.cost_table(lane), "^lane-010, Arc\\+Blu: 1099511627776 is 2\\^40 or more$"),
            (lambda: coop.cost_table({("a",): 3, ("b",): 2, ("a", "b"): great}), "^a\\+b: 1099511627776 is"),
            (lambda: coop.table([1, great, 3], order="mask"), "^number 2: 1099511627776 is"),
            (lambda: coop.airport({"small": 1, "large": great}), "^large: 1099511627776 is"),
            (lambda: coop.bankruptcy(5, {"Ann": great, "Bob": 1}), "^Ann: 1099511627776 is"),
            (lambda: coop.bankruptcy(great, {"Ann": great - 1, "Bob": 1}), "^1099511627776 is"),
            (lambda: coop.airport({"a": "1/7", "b": great // 2, "c": "1/3"}), "^b: 549755813888, times the common "
             "denominator 21, is 2\\^40 or more: round to fewer digits, at most 0 "),
            (lambda: coop.table({"a": 0.5, "b": 1, "a+b": 1e9 + 0.125}, digits=9), "^a\\+b: 8000000001/8, times"),
            (lambda: coop.assignment([[1, great]]), "^1099511627776 is"),
        ]
        for make, sentence in cases:
            with self.assertRaisesRegex(BadInput, sentence):
                make()

    def test_a_division_is_rounded(self) -> None:
        """So that it adds up: by names as they are given, or as a list; also one of floats."""
        thirds: dict[str, Amount] = {"a": Fraction(100, 3), "b": Fraction(100, 3), "c": Fraction(100, 3)}
        found = coop.rounded(thirds, 2)
        self.assertEqual((list(found), sum(found.values())), (["a", "b", "c"], 100))
        self.assertEqual(list(found.values()), [Fraction("33.34"), Fraction("33.33"), Fraction("33.33")])
        self.assertEqual(coop.rounded([600 * 0.1 / 0.7, 600 * 0.6 / 0.7], 1), [Fraction("85.7"), Fraction("514.3")])
        self.assertEqual(coop.rounded(Row("lane", {1: 0.5, 2: 0.5}), 0), {"1": 1, "2": 0})
        for shares, places, sentence in (
            ([1, 2], -1, "isn't a number of digits"),
            ({"a": "x"}, 2, "a: 'x' isn't a number"),
            ({1: 2, "1": 3}, 2, "the name '1' is given twice"),
            ("12", 2, "is a text"),
        ):
            with self.assertRaisesRegex(BadInput, sentence):
                coop.rounded(shares, places)  # type: ignore[call-overload]

    def test_a_decimal_of_a_float(self) -> None:
        with self.assertRaisesRegex(BadInput, "all the digits of the float 0.1: make it of a text, Decimal\\('0.1'\\)"):
            fraction_of(Decimal(0.1))
        self.assertEqual(fraction_of(Decimal(0.1), 3), Fraction(1, 10))
        self.assertEqual(fraction_of(Decimal(0.5)), Fraction(1, 2))
        self.assertEqual(fraction_of(Decimal("0.2875775201")), Fraction("0.2875775201"))

    def test_as_written(self) -> None:
        self.assertEqual([written(Fraction(text)) for text in ("4/2", "1/2", "-3/2")], [2, "1/2", "-3/2"])


class Shown(unittest.TestCase):
    def test_styles(self) -> None:
        value = Fraction(1760050, 7)
        self.assertEqual(Style()(value), "1760050/7")
        self.assertEqual(Style(2, "EUR")(value), "251,435.71 EUR")
        self.assertEqual(Style(0)(-value), "-251,436")
        self.assertEqual([Style(1)(Fraction(text)) for text in ("1/20", "-1/20", "1/25")], ["0.1", "-0.1", "0.0"])

    def test_decimals(self) -> None:
        self.assertEqual(decimal(123456789, 2), "1,234,567.89")
        self.assertEqual(decimal(-5, 3), "-0.005")
        self.assertEqual(decimal(123456789, 2, ""), "1234567.89")

    def test_rounded_shares_add_up(self) -> None:
        thirds = [Fraction(1, 3)] * 3
        self.assertEqual(rounded(thirds, 2), [34, 33, 33])
        self.assertEqual(column(thirds, Style(2, "EUR")), ["0.34 EUR", "0.33 EUR", "0.33 EUR", "1.00 EUR"])
        self.assertEqual(column(thirds, Style()), ["1/3", "1/3", "1/3", "1"])


if __name__ == "__main__":
    unittest.main()
