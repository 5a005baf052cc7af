"""Numbers as a document takes them: exact, and of a size that fits.

A float is refused unless a number of digits is named, since 0.1 as a float isn't a tenth.
"""
from __future__ import annotations

import re
from contextlib import suppress
from decimal import Decimal
from fractions import Fraction
from math import isfinite, lcm
from numbers import Real
from operator import index
from typing import Any, Iterable, Optional, Sequence, Union

from .classes import LIMITS
from .errors import BadInput
from .names import alike, is_sum_word, plain as plain_name

Amount = Union[int, str, Fraction, Decimal, float]
"""What may be given for a number: "12", "12.50", "1e-05" and "25/2" are texts of numbers."""

MOST_SCALE: int = LIMITS["denominator"]
LIMIT: int = 2 ** LIMITS["bits"]
MOST_DIGITS, MOST_BITS = 40, 4096
KEPT = 12  # digits by which a number isn't 0; less is noise of floats
NUMBER = re.compile(r"-?([0-9]{1,40}(\.[0-9]{1,40})?([eE][-+]?[0-9]{1,2})?|[0-9]{1,40}/0*[1-9][0-9]{0,39})")


class TooGreat(BadInput):
    """A number is too great for a document; `value` is the greatest one."""

    def __init__(self, sentence: str, value: Fraction):
        super().__init__(sentence)
        self.value = value


def fraction_of(value: Amount, digits: Optional[int] = None) -> Fraction:
    """The exact value. With a number of digits it is rounded to so many decimals, and floats are taken too."""
    value, digits = plain(value), digits if digits is None else digits_of(digits)
    if isinstance(value, float) and digits is None and isfinite(value):
        raise BadInput(f"{float(value)!r} is a float: give a number of digits to round to, or a text, {str(value)!r}")
    if isinstance(value, str) and not NUMBER.fullmatch(value.strip()):
        raise BadInput(f"{value[:40]!r} isn't a number: write 12, 12.50, 1e-05 or 25/2")
    try:
        exact = Fraction(value.strip() if isinstance(value, str) else value)  # none of NaN, nor of what has no end
    except (ValueError, OverflowError):
        raise BadInput(f"{value} isn't a number") from None
    if max(exact.numerator.bit_length(), exact.denominator.bit_length()) > MOST_BITS:
        raise BadInput(f"a number has more than {MOST_BITS} bits")
    if isinstance(value, Decimal) and digits is None and has_digits_of_a_float(value, exact):
        told = f"Decimal({str(value)[:24]}..) has all the digits of the float {float(value)!r}"
        raise BadInput(f"{told}: make it of a text, Decimal({str(float(value))!r}), or give a number of digits")
    return exact if digits is None or exact.denominator == 1 else Fraction(round(exact * 10**digits), 10**digits)


def plain(value: Amount) -> Amount:
    """The number, of a class that is known here. Those of NumPy are integers by their `__index__`."""
    if type(value) is int or isinstance(value, (str, float, Fraction)):
        return value
    if isinstance(value, Decimal):
        exponent = value.as_tuple().exponent
        if isinstance(exponent, int) and not -MOST_BITS < exponent < MOST_BITS:
            raise BadInput(f"a number has the exponent {exponent}")
        return value
    whole = whole_of(value)
    if whole is not None:
        return whole
    if isinstance(value, Real) and not is_truth(value):  # a float of fewer bits
        with suppress(TypeError):  # NumPy's spans of time are integers by their class, and have no value
            return float(value)
    way = "; of pairs make a mapping, as dict(pairs) does" if isinstance(value, tuple) else ""
    raise BadInput(f"{str(value)[:40]!r} isn't a number{way}")


def whole_of(value: Any) -> Optional[int]:
    """The integer that a value is, of Python or of NumPy. True and False are none."""
    with suppress(TypeError):
        return None if is_truth(value) else index(value)
    return None


def digits_of(digits: Any) -> int:
    """A number of digits, which may be an integer of NumPy."""
    whole = whole_of(digits)
    if whole is None or not 0 <= whole <= MOST_DIGITS:
        raise BadInput(f"{digits!r} isn't a number of digits from 0 to {MOST_DIGITS}")
    return whole


def is_truth(value: Any) -> bool:
    """Whether it is True or False, of Python or of NumPy."""
    return isinstance(value, bool) or type(value).__name__ in ("bool", "bool_")


def has_digits_of_a_float(value: Decimal, exact: Fraction) -> bool:
    """Whether a Decimal was made of a float, as Decimal(0.1), and is too fine for any document."""
    return abs(exact.numerator) >= LIMIT and exact.denominator > 1 and Decimal(float(value)) == value


def fractions_of(values: Iterable[Amount], digits: Optional[int] = None) -> list[Fraction]:
    """The exact values of a list. A text is none, though it has letters one after the other, and so are bytes."""
    if isinstance(values, (str, bytes, bytearray, memoryview)):
        raise BadInput(f"{values[:40]!r} is a text, not a list of numbers")
    require_order(values)
    require_one_dimension(values)
    try:
        items = list(values)
    except TypeError:
        raise BadInput(f"{str(values)[:40]!r} isn't a list of numbers") from None
    try:
        found = [fraction_of(value, digits) for value in items]
        require_kept(found, digits, (fraction_of(value, KEPT) for value in items))
        return found
    except BadInput:
        if len(items) == 1:
            raise
    return amounts_of(values, [(f"number {k + 1}", item) for k, item in enumerate(items)], digits)


def amounts_of(values: Any, items: Sequence[tuple[Any, Any]], digits: Optional[int] = None) -> list[Fraction]:
    """The exact values of labelled numbers. What is none is told with its label, and with the name of its Series, which
    is that of a row or a column of a data frame."""
    found = []
    for label, value in items:
        try:
            found.append(fraction_of(value, digits))
        except BadInput as fault:
            place = place_in(values, label)
            raise BadInput(f"{place}: {fault}" if place else str(fault)) from None
    require_kept(found, digits, (fraction_of(value, KEPT) for _, value in items))
    return found


def place_in(values: Any, label: Any) -> str:
    """A label behind the name of its Series, which is that of a row or a column of a data frame."""
    return ", ".join(str(word) for word in (getattr(values, "name", None), label) if word not in (None, ""))


def place_of(values: Any, sought: Fraction, digits: Optional[int]) -> str:
    """The label of a number among those that were given, or its place in their list; "" if it isn't there."""
    items = named_items(values)
    listed = items if items is not None else [(f"number {k + 1}", value) for k, value in enumerate(values)]
    for label, value in listed:
        if fraction_of(value, digits) == sought:
            return place_in(values, "+".join(map(str, label)) if isinstance(label, (tuple, frozenset)) else label)
    return ""


def require_kept(found: Iterable[Fraction], digits: Optional[int], closer: Iterable[Fraction]) -> None:
    """Refuses numbers that all become 0 by rounding, where closer ones aren't."""
    if digits is not None and not any(found) and any(closer):
        raise BadInput(f"each number becomes 0 when it is rounded to {digits} digits: give more digits, or zeros")


def label_of(label: Any) -> str:
    """The name that a label is: its text. One that is missing, as None or NaN, is no name, and nor is one of several
    parts, as a MultiIndex has them."""
    if isinstance(label, (tuple, frozenset)):
        text = ", ".join(map(str, label))
        raise BadInput(f"the label {str(label)[:80]} has several parts: make one text of it, such as {text!r}")
    if isinstance(label, bytes):
        raise BadInput(f"the label {str(label)[:80]} is bytes, and no text: decode it")
    if label is None or str(label) in ("nan", "NaT", "<NA>") and not isinstance(label, str):
        raise BadInput(f"a label is missing ({label}): each number needs a name")
    return str(label)


def named_items(values: Any) -> Optional[list[tuple[Any, Any]]]:
    """Returns the names and the values of a mapping, or of a Series by its labels; None if there are no names."""
    require_one_dimension(values)
    return list(values.items()) if hasattr(values, "keys") and hasattr(values, "items") else None


def named_amounts(
    values: Any, names: Optional[Sequence[str]] = None, digits: Optional[int] = None
) -> tuple[Optional[Sequence[str]], list[Fraction]]:
    """The names that a mapping or a Series has, or those beside a list, if there are any; and the exact values."""
    items = named_items(values)
    if items is None:
        return names, fractions_of(values, digits)
    if names is not None:
        labels = ", ".join(str(label) for label, _ in items[:3])
        way = "leave `names` out, or give the numbers as a list, in the order of the names"
        raise BadInput(f"the numbers have names already ({labels}, ..): {way}")
    own, found = [label_of(label) for label, _ in items], amounts_of(values, items, digits)
    require_no_sum(own, found, "give the numbers as a list, and `names`")
    return own, found


def require_no_sum(names: Sequence[str], amounts: Sequence[Union[int, Fraction]], way: str) -> None:
    """Refuses a row that is named as a sum, and has that of all others."""
    for name, amount in zip(names, amounts):
        if len(names) > 2 and is_sum_word(name) and 2 * amount == sum(amounts):
            raise BadInput(f"{name} has the sum of all others: leave that row out; if it is a player, {way}")


def require_once_each(names: Sequence[str]) -> None:
    """Refuses a name that stands twice, and names that differ by blanks or what isn't seen."""
    if len(set(names)) < len(names):
        raise BadInput(f"the name {next(name for name in names if names.count(name) > 1)!r} is given twice")
    for some in alike(names, plain_name):
        raise BadInput(f"{', '.join(map(ascii, some))} look the same: name each player once, or more clearly")


def require_order(values: Any) -> None:
    """Refuses a set, since nobody can say whose its items are, and equal ones are there once."""
    if isinstance(values, (set, frozenset)):
        raise BadInput("a set has no order: give a list")


def count_of(count: Any, what: str, whose: str = "") -> int:
    """A count of 1 or more, which may be an integer of NumPy."""
    whole = whole_of(count)
    if whole is None or whole < 1:
        raise BadInput(f"{whose}{count!r} isn't a number of {what}: give a whole number, 1 or more")
    return whole


def require_one_dimension(values: Any) -> None:
    """Refuses a data frame, or another array of two dimensions."""
    if getattr(values, "ndim", 1) > 1:
        told = f"a {type(values).__name__} of {' x '.join(map(str, values.shape))} isn't a list of numbers"
        raise BadInput(f"{told}: one row is one game")


def exact(text: str) -> Fraction:
    """The value of a fraction text of a document or a line, in a third of the time that `Fraction` takes."""
    whole, stroke, part = text.partition("/")
    return Fraction(int(whole), int(part)) if stroke else Fraction(int(whole))


def written(value: Fraction) -> Union[int, str]:
    """The number as a document of version 2 has it: an integer, or a fraction in lowest terms as a text."""
    return value.numerator if value.denominator == 1 else str(value)


def factor_for(values: list[Fraction], digits: Optional[int] = None) -> int:
    """By how much all numbers of a game are multiplied, so that a document takes them. That is 1 where their common
    denominator is one that a document may have; else that denominator, so that all become integers. Numbers rounded to
    more than four digits are multiplied by 10 to that power, whatever they are, so that games of one source agree."""
    common = lcm(*(value.denominator for value in values))
    power = 1 if digits is None else 10 ** digits_of(digits)
    common = power if power > MOST_SCALE else common
    if any(abs(value.numerator) * common >= LIMIT * value.denominator for value in values):
        greatest = max(values, key=abs)
        times = "" if common == 1 else f", times the common denominator {common},"
        told = f"{str(greatest)[:40]}{times} is 2^40 or more"
        raise TooGreat(told + ("" if common == 1 else f": {advice_on_digits(values)}"), greatest)
    return 1 if common <= MOST_SCALE else common


def advice_on_digits(values: Iterable[Fraction]) -> str:
    """To how many digits the numbers of a game may be rounded, so that they fit."""
    greatest = max(abs(value) for value in values)
    fitting = [digits for digits in range(13) if round(greatest * 10**digits) < LIMIT]
    if not fitting:
        return "the greatest number is too large"
    return f"round to fewer digits, at most {fitting[-1]} (digits={fitting[-1]}, or --digits {fitting[-1]})"
