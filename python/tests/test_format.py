"""How the numbers of the package are written, on each Python alike, and that what is computed with
them stays so.
"""

import decimal
import fractions
import pickle
import random
import unittest
from copy import copy, deepcopy
from fractions import Fraction
from operator import add, mod, mul, sub, truediv
from typing import Any, Callable, List

from bearoff import WHOLE
from bearoff.exact import lowest_terms, over_whole

from .given import database, positions


def made(numerator: int, denominator: int) -> Fraction:
    """A fraction as the package makes it."""
    plain = Fraction(numerator, denominator)
    return lowest_terms(plain.numerator, plain.denominator)


# a fraction, how it is to be written, and the text
WRITTEN = (
    *(
        (5, 4, ".3f", "1.250"),
        (5, 4, ".1f", "1.2"),
        (15, 4, ".1f", "3.8"),
        (1, 2, ".0f", "0"),
        (3, 2, ".0f", "2"),
    ),
    *((-1, 8, ".2f", "-0.12"), (-3, 8, ".2f", "-0.38"), (2, 3, ".0f", "1"), (0, 1, ".2f", "0.00")),
    (1, 3, "f", "0.333333"),
    *(
        (-1, 1000, ".2f", "-0.00"),
        (1, 3, ".1%", "33.3%"),
        (1, 3, "%", "33.333333%"),
        (1, 8, ".0%", "12%"),
    ),
    *(
        (245, 24, "10.3f", "    10.208"),
        (245, 24, "<10.3f", "10.208    "),
        (245, 24, "^10.2f", "  10.21   "),
    ),
    *(
        (245, 24, "*>9.2f", "****10.21"),
        (245, 24, "08.3f", "0010.208"),
        (245, 24, "+.1f", "+10.2"),
    ),
    *((245, 24, " .1f", " 10.2"), (123456789, 4, ",.2f", "30,864,197.25"), (5, 4, ".3F", "1.250")),
    *((999, 1000, ".2f", "1.00"), (199, 2, ".0f", "100"), (5, 4, "", "5/4"), (5, 4, "g", "1.25")),
    *((5, 4, "e", "1.250000e+00"), (5, 4, ".2E", "1.25E+00"), (1, 3, ".3g", "0.333")),
    (1, 3, ".30f", "0." + "3" * 30),
    (1, WHOLE, ".40f", "0.0000000000000000000000000000000000577225"),
)


class Written(unittest.TestCase):
    def test_rows(self) -> None:
        for numerator, denominator, spec, text in WRITTEN:
            with self.subTest(number=f"{numerator}/{denominator}", spec=spec):
                self.assertEqual(format(made(numerator, denominator), spec), text)

    def test_any_number_of_digits(self) -> None:
        chance = random.Random(7)
        with decimal.localcontext() as context:
            context.prec = 400
            for _ in range(2000):
                denominator = chance.choice([2**20, 6**5, 36**4, WHOLE, 6 * WHOLE, 1000])
                number = made(chance.randrange(-(30 * denominator), 30 * denominator), denominator)
                digits = chance.randrange(45)
                near = decimal.Decimal(number.numerator) / decimal.Decimal(number.denominator)
                told = near.quantize(decimal.Decimal(1).scaleb(-digits), decimal.ROUND_HALF_EVEN)
                self.assertEqual(decimal.Decimal(format(number, f".{digits}f")), told)
                self.assertEqual(len(format(number, f".{digits}f").partition(".")[2]), digits)

    def test_what_is_no_format(self) -> None:
        for spec in ("d", "x", ".f", "..2f", "s", "3.2", "q"):
            with self.assertRaises((TypeError, ValueError)):
                format(made(5, 4), spec)

    def test_every_number_of_the_package(self) -> None:
        here, six = database(8), "0,0,0,0,0,1"
        self.assertEqual(
            f"{here.mean(six):.3f} {here.epc(six):.3f} {here.wastage(six):.3f}",
            "1.250 10.208 4.208",
        )
        self.assertEqual((float(here.epc(six)), float(here.wastage(six))), (245 / 24, 101 / 24))
        self.assertEqual(f"{here.within('5,0,0,0,0,0', 2):.1%}", "30.6%")
        self.assertEqual(f"{here.distribution('5,0,0,0,0,0')[3]:.4f}", "0.6944")
        self.assertEqual(f"{here.loss('0,0,0,2,0,0', '21', '0,1,1,0,0,0'):.2f}", "0.11")
        choices = here.moves("0,0,0,2,0,0", "21")
        self.assertEqual([f"{choice.loss:.2f}" for choice in choices], ["0.00", "0.11"])
        self.assertEqual(f"{here.epc(six)}", str(here.epc(six)))
        self.assertEqual(f"{here.epc(six):.30f}", "10.208" + "3" * 27)
        self.assertEqual(f"{over_whole(0):.1f}", "0.0")


class Computed(unittest.TestCase):
    def test_operators(self) -> None:
        """What is computed is what fractions of Python give, and can be written too."""
        one, other = made(5, 4), made(-2, 3)
        plain, second = Fraction(5, 4), Fraction(-2, 3)
        for operator in (add, sub, mul, truediv, mod):
            for left, right, wanted in (
                (one, other, operator(plain, second)),
                (one, second, operator(plain, second)),
                (plain, other, operator(plain, second)),
                (one, 7, operator(plain, 7)),
                (7, one, operator(7, plain)),
            ):
                told = operator(left, right)
                self.assertEqual((told, repr(told)), (wanted, repr(wanted)))
                self.assertEqual(hash(told), hash(wanted))
                again = made(told.numerator, told.denominator)
                self.assertEqual(format(told, ".1f"), format(again, ".1f"))
            with_float = operator(one, 0.5)
            self.assertEqual((type(with_float), with_float), (float, operator(plain, 0.5)))
        unary: List[Callable[[Any], Any]] = [lambda it: -it, lambda it: +it, abs]
        unary += [lambda it: it**3, lambda it: round(it, 1)]
        for call in unary:
            for number, same in ((one, plain), (other, second)):
                told = call(number)
                self.assertEqual((told, repr(told)), (call(same), repr(call(same))))
                self.assertRegex(f"{told:.3f}", r"^-?[0-9]+\.[0-9]{3}$")
        numbers = (round(one), int(one), float(one), one // 1, one == plain)
        self.assertEqual(numbers, (1, 1, 1.25, 1, True))
        shares = database(44).distribution("1,2,3,0,2,1")
        self.assertEqual(
            f"{sum(shares):.2f} {sum(shares[:3]):.2f} {max(shares):.2f}".split()[0], "1.00"
        )
        pips = f"{database(44).mean('1,2,3,0,2,1') * 49 / 6:.6f}"
        self.assertEqual(pips, f"{database(44).epc('1,2,3,0,2,1'):.6f}")

    def test_copies(self) -> None:
        for number in (made(5, 4), *(database(44).mean(at) for at in positions(8))):
            for other in (copy(number), deepcopy(number), pickle.loads(pickle.dumps(number))):
                self.assertEqual(
                    (other, repr(other), f"{other:.3f}"), (number, repr(number), f"{number:.3f}")
                )
            self.assertIsInstance(number, fractions.Fraction)
            self.assertEqual(repr(number), repr(Fraction(number.numerator, number.denominator)))


if __name__ == "__main__":
    unittest.main()
