"""Whole tables as arrays of numpy, without a copy. Where numpy is missing these tests are left
out."""

import contextlib
import importlib
import math
import unittest
from fractions import Fraction
from typing import Any, Tuple

from bearoff import WHOLE, BadArgument, BearoffError

from .given import database, numbers, positions

try:
    numpy: Any = importlib.import_module("numpy")
except ImportError:
    numpy = None


@unittest.skipIf(numpy is None, "numpy is missing")
class Arrays(unittest.TestCase):
    def test_arrays_without_a_copy(self) -> None:
        here = database(44)
        for table, kind in (
            (here.positions(), "uint8"),
            (here.means(), "float64"),
            (here.distributions(), "float64"),
            (here.means(words=True), "uint64"),
            (here.epcs(words=True), "uint64"),
            (here.distributions(words=True), "uint64"),
        ):
            array, flat = numpy.asarray(table), numpy.frombuffer(table, kind)
            told = (array.shape, str(array.dtype), array.flags.writeable)
            self.assertEqual(told, (table.shape, kind, True))
            self.assertTrue(numpy.shares_memory(array, table) and numpy.shares_memory(flat, table))
            self.assertTrue((flat.reshape(table.shape) == array).all())

    def test_numbers(self) -> None:
        here, found = database(44), positions(44)
        rows = numpy.asarray(here.positions()).tolist()
        self.assertEqual(rows, [list(position) for position in found])
        exact = [here.mean(position) for position in found]
        means = numpy.asarray(here.means(words=True))
        self.assertEqual(numbers(here.means(words=True)), [mean * WHOLE for mean in exact])
        self.assertLess((abs(means @ here.weights - [float(mean) for mean in exact])).max(), 1e-14)
        sums = (numpy.asarray(here.distributions(words=True)) @ here.weights).sum(axis=1)
        self.assertLess(abs(sums - 1).max(), 1e-14)
        thousandths = [here.epc(position).thousandths for position in found]
        self.assertEqual(numpy.asarray(here.epcs(words=True))[:, 6].tolist(), thousandths)

    def test_a_row_is_a_position(self) -> None:
        here = database(44)
        for row in (
            numpy.asarray(here.positions())[9],
            numpy.array([1, 2, 0, 0, 1, 0]),
            numpy.zeros(6, "int8"),
            numpy.zeros(6),
            numpy.array([1, 2, 0, 0, 1, 0], "float32"),
        ):
            self.assertEqual(here.mean(row), here.mean(tuple(map(int, row))))
        for row in (numpy.full(6, 0.5), numpy.zeros(5, int), numpy.zeros((6, 1), int)):
            self.assertRaises(ValueError, here.mean, row)
        table = numpy.asarray(here.positions())
        wanted = list(range(len(here)))
        for kind in ("float64", "float32"):
            self.assertEqual(here.ranks(table.astype(kind)).tolist(), wanted)
        for wrong in (0.5, math.nan, math.inf, -math.inf):
            floats = table[:5].astype("float64")
            floats[3, 2] = wrong
            with self.assertRaisesRegex(BadArgument, f"{wrong} is not whole, in row 3"):
                here.ranks(floats)
        self.assertEqual(here.position(numpy.int64(9)), tuple(numpy.asarray(here.positions())[9]))

    def test_what_has_no_rank(self) -> None:
        """A row is refused with the numbers that it has, as one position is."""
        here = database(44)
        kinds = ("int8", "int16", "int64", "uint8", "uint64", "float16", "float64", "longdouble")
        for number in (16, 99, -1, -5, 999, 1000, 5000, 2**62, -(2**62), 10**300):
            for kind in kinds:
                table = numpy.asarray(here.positions())[:5].astype(kind)
                with numpy.errstate(all="ignore"), contextlib.suppress(OverflowError):
                    table[3, 2] = number
                if table[3, 2] != number:
                    continue
                with self.assertRaises(BearoffError) as one:
                    here.mean([*map(int, table[3])])
                with self.assertRaises(BearoffError) as many:
                    here.ranks(table)
                self.assertIs(type(many.exception), type(one.exception), (number, kind))
                shown = str(number) if abs(number) < 10**20 else f"{number}"[:8]
                self.assertRegex(str(many.exception), f"[ ,(]{shown}.* in row 3$", kind)

    def test_what_is_no_number(self) -> None:
        here = database(44)
        table = numpy.asarray(here.positions())[:5]
        self.assertEqual(here.ranks(numpy.ma.array(table)).tolist(), [*range(5)])
        for kind in ("uint8", "float64", object):
            masked = numpy.ma.array(table.astype(kind))
            masked[3, 2] = numpy.ma.masked
            for wrong in (masked, [*masked], masked.tolist()):
                with self.assertRaises(BadArgument, msg=kind):
                    here.ranks(wrong)
            self.assertRaises(BadArgument, here.mean, masked[3])
        flags = table.astype(bool)
        view = memoryview(flags.tobytes()).cast("?", flags.shape)
        for wrong in (flags, view, table.astype(complex), table.astype(str), table.astype("S")):
            self.assertRaises(BadArgument, here.ranks, wrong)


@unittest.skipIf(numpy is None, "numpy is missing")
class Numbers(unittest.TestCase):
    """Effective pip counts and wastages in numpy, where they are what fractions are."""

    def test_each_operator(self) -> None:
        here = database(44)
        operators = (
            "add subtract multiply divide floor_divide remainder power less less_equal".split()
        )
        operators += "greater greater_equal equal not_equal maximum minimum".split()
        numbers = [numpy.float64(10.5), numpy.float32(0.5), numpy.int64(3), numpy.uint8(2)]
        numbers += [numpy.array([1.0, 99.0]), numpy.array([1, 2]), 57, 0.5]
        for pips in (here.epc("0,0,0,4,4,1"), here.wastage("0,0,0,4,4,1")):
            exact = Fraction(pips)
            for name in operators:
                compute = getattr(numpy, name)
                for other in numbers:
                    for one, two in (
                        ((pips, other), (exact, other)),
                        ((other, pips), (other, exact)),
                    ):
                        made, wanted = compute(*one), compute(*two)
                        self.assertEqual(numpy.shape(made), numpy.shape(other), (name, other))
                        self.assertTrue(numpy.array_equal(made, wanted), (name, other))

    def test_as_one_number(self) -> None:
        here = database(8)
        epc = here.epc("0,0,0,0,0,1")
        exact = Fraction(epc)
        self.assertEqual(numpy.mean([epc, 57]), (exact + 57) / 2)
        self.assertEqual(numpy.float64(10.5) - epc, 10.5 - exact)
        self.assertEqual(numpy.array([1.0, 2.0]).shape, (numpy.array([1.0, 2.0]) * epc).shape)
        several = [here.epc(at) for at in positions(8)]
        array = numpy.array(several)
        self.assertEqual((array.shape, array.dtype), ((64,), object))
        self.assertEqual(array.sum(), sum(several))
        self.assertEqual(numpy.max(several), max(several))
        floats = numpy.array(several, float)
        self.assertEqual(floats.tolist(), here.epcs().tolist())
        self.assertEqual(numpy.argsort(several).tolist(), numpy.argsort(floats).tolist())
        self.assertEqual(numpy.float64(epc), float(epc))


if __name__ == "__main__":
    unittest.main()
