"""Many positions at once: ranks of arrays and of sequences, wastages and chances as tables, and the
table of all positions as CSV, JSON and SQLite, row by row beside the calls. What needs
numpy is left out where that is missing.
"""

import csv
import importlib
import itertools
import json
import math
import random
import sqlite3
import sys
import tempfile
import unittest
from array import array
from contextlib import closing
from fractions import Fraction
from functools import partial
from pathlib import Path
from typing import Any, Callable, List, Tuple
from unittest import mock

from bearoff import WHOLE, BadArgument, Database, Position, Refused, export
from bearoff.ranking import Ranks
from bearoff.tables import COLUMNS

from .given import ROLLS, STEP, Compared, database, numbers, pips, positions, text

try:
    numpy: Any = importlib.import_module("numpy")
except ImportError:
    numpy = None

KINDS = ("uint8", "int8", "uint16", "int16", "uint32", "int32", "uint64", "int64")
# how many rows an array may have: none, one, and what is about a block of rows
SIZES = (0, 1, 2, 7, 8191, 8192, 8193, 16384, 20000)


class RanksOfRows(Compared):
    def refused_rows(self, rows: Any, status: int, line: str, bound: int = 8) -> None:
        with self.assertRaises(Refused) as refused:
            database(bound).ranks(rows)
        self.assertEqual((refused.exception.status, str(refused.exception)), (status, line))

    def bad(self, rows: Any, line: str = "") -> None:
        with self.assertRaises(BadArgument) as refused:
            database(8).ranks(rows)
        self.assertIn(line, str(refused.exception))

    def test_every_position(self) -> None:
        """The rank of each is the one that `rank` tells, and what has none is refused as `rank`
        refuses it.
        """
        here = database(58)
        all_of_them, inside = positions(90), positions(58)
        self.assertEqual(len(all_of_them), 54264)
        ranks = here.ranks(inside)
        self.assertEqual((ranks.format, ranks.shape, len(inside)), ("H", (46062,), 46062))
        self.same(ranks.tolist(), [here.rank(counts) for counts in inside])
        for counts in all_of_them:
            if pips(counts) > 58:
                line = f"more pips than the bound: {text(counts)} in row 1"
                self.refused_rows([inside[0], counts], 4, line, 58)

    def test_each_way_to_give_positions(self) -> None:
        here, rows = database(8), positions(8)
        wanted = list(range(64))
        kinds: Tuple[Callable[..., Any], ...] = (list, text, bytes, lambda row: Position(*row))
        ways: List[Any] = [[kind(row) for row in rows] for kind in kinds]
        for way in (*ways, rows, tuple(rows), here, list(here), here.positions()):
            self.assertEqual(here.ranks(way).tolist(), wanted)
        self.assertEqual(here.ranks(iter(rows)).tolist(), wanted)  # type: ignore[arg-type]
        for size in SIZES:
            some = [rows[at % 64] for at in range(size)]
            self.same(here.ranks(some).tolist(), [at % 64 for at in range(size)])

    def test_refused(self) -> None:
        six, none = (0, 0, 0, 0, 0, 1), (0,) * 6
        for many, place in (
            ([six, none, (0, 0, 0, 0, 0, 16)], 2),
            ([six, (1, 15, 0, 0, 0, 0)], 1),
            ([(999,) * 6], 0),
        ):
            line = f"more than 15 checkers: {text(many[place])} in row {place}"
            self.refused_rows(many, 3, line)
        line = "more pips than the bound: 1,0,0,2,0,0 in row 0"
        self.refused_rows([(1, 0, 0, 2, 0, 0), "9,0,0,0,0,0"], 4, line)
        for wrong in ((1,) * 5, None, "x", (0, 0, 0, 0, 0, -1), (0.5,) * 6, 7):
            self.bad([six, wrong], "in row 1")
        for rows in (
            None,
            5,
            1.5,
            "0,0,0,0,0,1",
            b"\0" * 6,
            bytearray(6),
            object,
            memoryview(bytes(6)),
            {1: 2},
            six,
        ):
            self.bad(rows)

    def test_a_table_of_its_own(self) -> None:
        """What is changed in a table that was given away changes no rank, and copies may be
        closed.
        """
        here = Database.build(8)
        table: Any = here.positions()
        table[0, 0] = 7
        ranks: Any = here.ranks([(0,) * 6])
        ranks[0] = 9
        self.assertEqual(here.ranks([(0,) * 6]).tolist(), [0])

    @unittest.skipIf(numpy is None, "numpy is missing")
    def test_arrays(self) -> None:
        chance = random.Random(1)
        for bound in (8, 44, 58):
            here, rows = database(bound), positions(bound)
            for kind in KINDS:
                for size in SIZES if kind in ("uint8", "int64") else (9, 8193):
                    wanted = [chance.randrange(len(rows)) for _ in range(size)]
                    table = numpy.array([rows[rank] for rank in wanted], kind).reshape(-1, 6)
                    ranks = here.ranks(table)
                    self.assertEqual((ranks.format, ranks.shape), ("H", (size,)))
                    self.same(ranks.tolist(), wanted)
            inside = numpy.array(positions(bound))
            self.same(
                here.ranks(inside).tolist(), [here.rank(counts) for counts in inside.tolist()]
            )
            wide = numpy.zeros((100, 12), "int32")
            wide[:, ::2] = numpy.asarray(rows[:100] if bound > 8 else rows[:50] * 2)
            for way in (wide[:, ::2], numpy.asfortranarray(wide[:, ::2]), wide[::-1, ::2][::-1]):
                self.same(
                    here.ranks(way).tolist(), [here.rank(row) for row in wide[:, ::2].tolist()]
                )
        here, ones = database(8), numpy.eye(6, dtype=int)[:, ::-1]
        ranks_of_ones = [here.rank(row) for row in ones.tolist()]
        self.assertEqual(here.ranks(ones.astype("object")).tolist(), ranks_of_ones)

    @unittest.skipIf(numpy is None, "numpy is missing")
    def test_arrays_that_are_refused(self) -> None:
        """The first row that has no rank is named, in whatever block it stands, with all that a
        count can be.
        """
        for kind in KINDS:
            most = numpy.iinfo(kind).max
            for size, place in ((1, 0), (8192, 8191), (8193, 8192), (20000, 12345)):
                table = numpy.zeros((size, 6), kind)
                table[place, 2] = 16
                table[size - 1, 3] = most
                first = table[place].tolist()
                shown = text([min(count, 999) for count in first])
                line = f"more than 15 checkers: {shown} in row {place}"
                if max(first) > 999:
                    self.bad(table, f"in row {place}")
                else:
                    self.refused_rows(table, 3, line)
            for count in {16, 17, 32, 48, 64, 100, 127, most}:
                for point in range(6):
                    table = numpy.zeros((3, 6), kind)
                    table[1, point] = count
                    with self.assertRaises((Refused, BadArgument)) as refused:
                        database(58).ranks(table)
                    self.assertIn("in row 1", str(refused.exception))
            many = [
                (15, 1, 0, 0, 0, 0),
                (0, 0, 1, 15, 0, 0),
                (8, 0, 0, 0, 0, 8),
                (0, 0, 15, 15, 0, 0),
            ]
            for counts in (*many, (15,) * 6):
                line = f"more than 15 checkers: {text(counts)} in row 0"
                self.refused_rows(numpy.array([counts], kind), 3, line, 58)
            line = "more pips than the bound: 0,0,0,0,9,6 in row 0"
            self.refused_rows(numpy.array([(0, 0, 0, 0, 9, 6)], kind), 4, line, 58)
        for kind in ("int8", "int16", "int32", "int64"):
            for point, count in itertools.product(range(6), (-1, -16, -128)):
                table = numpy.zeros((2, 6), kind)
                table[1, point] = count
                self.bad(table, "in row 1")
        wrong = [
            numpy.zeros((2, 5)),
            numpy.zeros((2, 5), int),
            numpy.zeros((2, 7), int),
            numpy.zeros(6, int),
        ]
        wrong += [
            numpy.zeros((2, 6, 1), int),
            numpy.zeros((2, 6), complex),
            numpy.array([["0"] * 6]),
        ]
        for table in [*wrong, numpy.zeros((), int), numpy.zeros((2, 6), "datetime64[s]")]:
            self.bad(table, "not an array of six whole numbers in each row")

    @unittest.skipIf(numpy is None, "numpy is missing")
    def test_tables_by_rank(self) -> None:
        here = database(44)
        rows = [random.Random(3).choice(positions(44)) for _ in range(500)]
        ranks = numpy.asarray(here.ranks(numpy.array(rows)))
        self.same(numpy.asarray(here.positions())[ranks].tolist(), [list(row) for row in rows])
        means = numpy.asarray(here.means())[ranks]
        self.same(means.tolist(), [float(here.mean(row)) for row in rows])
        wastages = numpy.asarray(here.wastages())[ranks]
        self.same(wastages.tolist(), [float(here.wastage(row)) for row in rows])
        cdf = numpy.asarray(here.cdf(7))[ranks]
        self.same(cdf.tolist(), [float(here.within(row, 7)) for row in rows])

    def test_without_numpy(self) -> None:
        """Rows are looked up one by one where numpy isn't loaded, with the same answers and
        refusals.
        """
        with mock.patch.dict(sys.modules):
            sys.modules.pop("numpy", None)
            here = Database.build(8)
            self.assertEqual(here.ranks(here.positions()).tolist(), list(range(64)))
            wide = (
                memoryview(array("q", [0, 0, 0, 0, 0, 1, 1, 0, 0, 0, 0, 0]))
                .cast("B")
                .cast("q", (2, 6))
            )
            self.assertEqual(here.ranks(wide).tolist(), [here.rank("0,0,0,0,0,1"), 1])
            with self.assertRaises(Refused) as refused:
                here.ranks(memoryview(bytes([0] * 6 + [1, 15, 0, 0, 0, 0])).cast("B", (2, 6)))
            line = "more than 15 checkers: 1,15,0,0,0,0 in row 1"
            self.assertEqual(str(refused.exception), line)
            for shape in ((2, 3, 2), (2, 5), (6,)):
                wrong = memoryview(bytes(math.prod(shape))).cast("B", shape)
                self.assertRaises(BadArgument, here.ranks, wrong)
            self.assertRaises(BadArgument, here.ranks, memoryview(bytes(12)).cast("?", (2, 6)))
        self.assertIsInstance(Ranks(here.positions()), Ranks)


class Floats(Compared):
    def test_wastages(self) -> None:
        here = database(58)
        told: Any = here.wastages()
        self.assertEqual((min(told), told[0]), (0, 0))
        six = here.wastage("0,0,0,0,0,1")
        self.assertEqual((six, six.thousandths), (Fraction(101, 24), 4208))

    def test_withins(self) -> None:
        for bound in (8, 44):
            here, rows = database(bound), positions(bound)
            chance = random.Random(5)
            some = [0, 1, 2, len(rows) - 1, *(chance.randrange(len(rows)) for _ in range(300))]
            for rolls in range(23, -1, -min(STEP, 5)):
                told = numbers(here.cdf(rolls, words=True))
                for rank in some:
                    wanted = sum(here.distribution(rows[rank])[: rolls + 1])
                    both = Fraction(told[rank], WHOLE), here.within(rows[rank], rolls)
                    self.assertEqual(both, (wanted, wanted))
        self.assertEqual(database(8).within("5,0,0,0,0,0", 2), Fraction(11, 36))
        chances = [database(8).within("5,0,0,0,0,0", rolls) for rolls in (0, 1, 3, 22)]
        self.assertEqual(chances, [0, 0, 1, 1])
        self.assertEqual(database(8).within((0,) * 6, 0), 1)

    def test_a_table_belongs_to_the_caller(self) -> None:
        for here in (database(8), database(59)):
            calls: List[Callable[[], memoryview]] = [here.positions, here.means, here.epcs]
            calls += [partial(here.means, words=True), here.wastages, here.distributions]
            for call in calls:
                table: Any = call()
                before = bytes(table)
                table[(1,) * table.ndim] = 7
                self.assertEqual(bytes(call()), before)


class Singles(Compared):
    def test_standing(self) -> None:
        for counts in positions(90):
            wanted = (pips(counts), sum(counts), 15 - sum(counts))
            self.assertEqual(Database.position_info(counts), wanted)
        info = database(8).position_info("0,0,0,0,9,6")
        self.assertEqual((info.pips, info.checkers, info.off), (81, 15, 0))

    def test_play_to(self) -> None:
        """Each position that a roll can lead to is led to by legal moves, and the recorded play is
        the first one.
        """
        here = database(44)
        for position in random.Random(6).sample(positions(44)[1:], 60):
            for roll in ROLLS:
                for choice in here.moves(position, roll):
                    play = here.play_to(position, roll[::-1], choice.to)
                    self.assertEqual(play.to, choice.to)
                    counts = list(position)
                    for source, target in play.moves:
                        counts[source - 1] -= 1
                        if target:
                            counts[target - 1] += 1
                    self.assertEqual(tuple(counts), play.to)
                recorded = here.play(position, roll)
                self.assertEqual(here.play_to(position, roll, recorded.to), recorded)
        self.assertEqual(here.play_to("0,0,0,2,0,0", "12", "0,1,1,0,0,0").text, "4/2 4/3")
        four = here.play_to("0,0,0,0,0,15", "66", "0,0,0,0,0,11")
        self.assertEqual(four.text, "6/off 6/off 6/off 6/off")

    def test_texts(self) -> None:
        """Blanks may stand around and between counts and dice."""
        here, wanted = database(8), Position(1, 0, 0, 0, 0, 1)
        for blank in ("", " ", "  ", "\t", "\u00a0", "\r\n"):
            for spelt in (f"{blank}1,0,0,0,0,1{blank}", f"{blank},{blank}".join("100001")):
                self.assertEqual(Position.parse(spelt), wanted)
                self.assertEqual(here.mean(spelt), here.mean(wanted))
                self.assertIn(spelt, here)
            for roll in ("21", "12", "66"):
                spelt = blank.join(["", *roll, ""])
                dice = (int(roll[0]), int(roll[1]))
                self.assertEqual(here.play(wanted, spelt), here.play(wanted, dice))
                self.assertEqual(here.moves(wanted, spelt), here.moves(wanted, dice))
        self.assertEqual(Position.parse("12,0,100,999,7,0"), (12, 0, 100, 999, 7, 0))

    def test_indexes(self) -> None:
        for bound in (8, 44):
            here, rows = database(bound), positions(bound)
            self.same([here[rank] for rank in range(len(rows))], rows)
            self.same([here[rank - len(rows)] for rank in range(len(rows))], rows)
            parts = [slice(None), slice(3, 9), slice(-5, None), slice(None, None, -7), slice(9, 3)]
            for part in (*parts, slice(0, 10**9)):
                self.same(here[part], rows[part])
            self.same(list(reversed(here)), rows[::-1])
            self.assertIs(type(here[0]), Position)
        self.assertEqual(database(8)[True], rows[1])


class Tables(unittest.TestCase):
    def setUp(self) -> None:
        place = tempfile.TemporaryDirectory()
        self.addCleanup(place.cleanup)
        self.folder = Path(place.name)

    def compare(self, here: Database, rows: List[Any]) -> None:
        self.assertEqual(len(rows), len(here))
        for rank, (row, position) in enumerate(zip(rows, here)):
            mean = here.mean(position)
            self.assertEqual([int(number) for number in row[:7]], [rank, *position])
            self.assertEqual(
                [int(number) for number in row[7:9]], [position.pips, position.checkers]
            )
            wanted = [float(mean), float(here.epc(position)), float(here.wastage(position))]
            self.assertEqual([float(number) for number in row[9:12]], wanted)
            self.assertEqual(Fraction(row[12]), mean)

    def test_each_kind(self) -> None:
        for here in (database(8), Database.build(60)):
            every = 1 if len(here) < 100 else 500
            for ending in ("csv", "json", "sqlite", "sqlite3", "CSV"):
                file = self.folder / f"table.{ending}"
                export(here, str(file) if ending == "csv" else file)
                if ending.lower() == "csv":
                    heads, *rows = csv.reader(file.read_text("ascii").split("\n")[:-1])
                    self.assertEqual(heads, [*COLUMNS])
                elif ending == "json":
                    told = json.loads(file.read_text("ascii"))
                    self.assertEqual([*told[0]], [*COLUMNS])
                    rows = [[*row.values()] for row in told]
                else:
                    with closing(sqlite3.connect(file)) as table:
                        rows = table.execute("SELECT * FROM positions ORDER BY rank").fetchall()
                        heads = [row[1] for row in table.execute("PRAGMA table_info(positions)")]
                    self.assertEqual(heads, [*COLUMNS])
                if every == 1:
                    self.compare(here, rows)
                self.assertEqual((len(rows), int(rows[-1][0])), (len(here), len(here) - 1))
        self.assertEqual(len([*self.folder.iterdir()]), 5)

    def test_a_file_that_can_not_be_written(self) -> None:
        for wrong in ("table", "table.txt", "table.csv.gz", "table.db", "", None, 3, b"table.csv"):
            with self.assertRaises(BadArgument):
                export(database(8), wrong)  # type: ignore[arg-type]
        self.assertEqual([*self.folder.iterdir()], [])


if __name__ == "__main__":
    unittest.main()
