"""Exact numbers out of the words in which the library tells them."""

from __future__ import annotations

import fractions
import re
import sys
from decimal import Decimal
from math import gcd
from typing import Any, Callable, List

WHOLE = 36**22
"""The denominator of every number in a database: 36 throws, and at most 22 rolls."""

if sys.version_info >= (3, 12):
    from fractions import Fraction as Fraction
else:
    _FIXED = re.compile(r".*?(?:\.([0-9]+))?([f%])", re.DOTALL | re.IGNORECASE)

    class Fraction(fractions.Fraction):
        """A fraction of Python that `format` takes, as it takes every fraction from Python 3.12
        on: with ``f`` and ``%`` rounded exactly, a half to the even digit, and with ``e`` and
        ``g`` as the float that is near to it. What is computed with it by an operator can be
        formatted too.
        """

        __slots__ = ()

        def __format__(self, spec: str) -> str:
            fixed = _FIXED.fullmatch(spec)
            if not fixed:
                if spec[-1:] in ("e", "E", "g", "G"):
                    return format(float(self), spec)
                return super().__format__(spec)
            digits = int(fixed[1] or 6) + 2 * (fixed[2] == "%")
            # all digits that are wanted and no more, so that what formats them has nothing to
            # round
            scaled = str(round(abs(self) * 10**digits))
            sign = int(self.numerator < 0)
            return format(Decimal((sign, tuple(map(int, scaled)), -digits)), spec)

    def _kept(operator: Callable[..., Any]) -> Callable[..., Any]:
        """An operator whose answer can be formatted, where it is a fraction."""

        def kept(*operands: Any) -> Any:
            told = operator(*operands)
            return tuple(map(_own, told)) if isinstance(told, tuple) else _own(told)

        return kept

    def _own(told: Any) -> Any:
        if type(told) is fractions.Fraction:
            return lowest_terms(told.numerator, told.denominator)
        return told

    for _name in ("add", "sub", "mul", "truediv", "mod", "divmod", "pow"):
        for _side in ("", "r"):
            _operator = f"__{_side}{_name}__"
            setattr(Fraction, _operator, _kept(getattr(fractions.Fraction, _operator)))

    def _raised(exponent: Any, base: Any) -> Any:
        # as a plain fraction, since a plain base would ask this one again
        return base ** fractions.Fraction(exponent)

    setattr(Fraction, "__rpow__", _kept(_raised))
    for _operator in ("__neg__", "__pos__", "__abs__", "__round__"):
        setattr(Fraction, _operator, _kept(getattr(fractions.Fraction, _operator)))


def over_whole(numerator: int, whole: int = WHOLE) -> fractions.Fraction:
    """A numerator over 36^22, or over another whole."""
    common = gcd(numerator, whole)
    return lowest_terms(numerator // common, whole // common)


def lowest_terms(numerator: int, denominator: int) -> fractions.Fraction:
    """The fraction of two numbers without a common divisor, the second one over 0. `Fraction`
    itself would look for a common divisor, which costs as much as all else that a query does.
    """
    fraction = object.__new__(Fraction)
    try:
        fraction._numerator = numerator  # type: ignore[attr-defined]
        fraction._denominator = denominator  # type: ignore[attr-defined]
    except AttributeError:
        return Fraction(numerator, denominator)
    return fraction


def wide_number(first: int, middle: int, last: int) -> int:
    """The number of three words."""
    return (first << 128) + (middle << 64) + last if first else (middle << 64) + last


def wide_numbers(table: memoryview, place: int = 0) -> List[int]:
    """The number of three words at a place of each row of a table of words."""
    flat = table.cast("B").cast("Q")
    row = len(flat) // len(table)
    return [
        (first << 128) + (middle << 64) + last if first else (middle << 64) + last
        for first, middle, last in zip(*(flat[place + word :: row].tolist() for word in range(3)))
    ]
