"""A board file under the same calls as a database: each table has the single answers, and damaged
bytes are refused.
"""

import pickle
import random
import tempfile
import unittest
from fractions import Fraction
from pathlib import Path
from typing import Any, List, Tuple

import bearoff
from bearoff import WHOLE, Damaged, Database

from .given import ROOT, STEP, Compared, database, numbers, pips, positions

LONG_WHOLE = 36**33
SIX = (0, 0, 0, 0, 0, 1)
ALL_ON_SIX = (0, 0, 0, 0, 0, 15)


class Replies(Compared):
    def test_lines_that_are_refused(self) -> None:
        lines = ("", "mean", "mean 0,0,0,0,0,1 ", "mean \u0661", "play 0,0,0,0,0,1 17", "nothing")
        for line in lines:
            self.assertEqual(database(90).answer(line), database(58).answer(line), line)
        self.assertTrue(database(59).answer("rank 0,0,0,0,0,10").startswith("error"))

    def test_graded_matches(self) -> None:
        """To 58 pips they are those over the database of 58 pips."""
        match = ROOT / "python/tests/matches/short.mat"
        here, there = bearoff.grade(match, database(90)), bearoff.grade(match, database(58))
        self.assertEqual((here.bound, there.bound), (90, 58))
        inside = [play for play in here.plays if pips(play.position) <= 58]
        self.assertEqual(inside, list(there.plays))
        self.assertEqual([player.over_bound for player in here.players], [0, 0])
        beyond = sum(player.over_bound for player in there.players)
        self.assertEqual(len(here.plays), len(there.plays) + beyond)


class Tables(Compared):
    """The tables of databases have the rows of a board's."""

    BOUNDS = (8, 58, 90)

    def test_shapes(self) -> None:
        for bound, count, shares in zip(self.BOUNDS, (64, 46062, 54264), (23, 23, 34)):
            here = database(bound)
            for table, format, shape in (
                (here.positions(), "B", (count, 6)),
                (here.means(words=True), "Q", (count, 3)),
                (here.epcs(words=True), "Q", (count, 7)),
                (here.wastages(words=True), "Q", (count, 7)),
                (here.distributions(words=True), "Q", (count, 34, 3)),
                (here.cdf(3, words=True), "Q", (count, 3)),
                (here.means(), "d", (count,)),
                (here.epcs(), "d", (count,)),
                (here.wastages(), "d", (count,)),
                (here.distributions(), "d", (count, shares)),
                (here.cdf(3), "d", (count,)),
            ):
                self.assertEqual((table.format, table.shape), (format, shape))
                self.assertTrue(table.c_contiguous)

    def test_every_rank(self) -> None:
        here, found = database(90), positions(90)
        self.assertEqual((len(here), len(found)), (54264, 54264))
        self.assertEqual(bytes(here.positions()), b"".join(map(bytes, found)))
        self.same(here, found)
        self.same((here.rank(counts) for counts in found), range(len(found)))
        self.assertEqual(here.ranks(found).tolist(), [*range(len(found))])
        self.assertEqual((here[-1], here[0], here[54263]), (ALL_ON_SIX, (0,) * 6, ALL_ON_SIX))
        self.assertEqual(here[54261:], found[54261:])

    def fractions(self, table: memoryview) -> List[Tuple[Fraction, int]]:
        """The rows of `epcs` and of `wastages`, or one of so many, which are in lowest terms."""
        numerators, denominators = (numbers(table, 7, place)[::STEP] for place in (0, 3))
        told = [*map(Fraction, numerators, denominators)]
        self.same((number.denominator for number in told), denominators)
        return [*zip(told, table.cast("B").cast("Q")[6::7].tolist()[::STEP])]

    def test_every_mean(self) -> None:
        for bound in self.BOUNDS:
            here, found = database(bound), positions(bound)[::STEP]
            means = [here.mean(counts) for counts in found]
            told = numbers(here.means(words=True))[::STEP]
            self.same(means, [Fraction(number, here.denominator) for number in told])
            self.same(here.means().tolist()[::STEP], map(float, means))
            epcs = self.fractions(here.epcs(words=True))
            self.same((epc for epc, _ in epcs), [mean * 49 / 6 for mean in means])
            self.same((told for _, told in epcs), [(2000 * epc + 1) // 2 for epc, _ in epcs])
            self.same(here.epcs().tolist()[::STEP], [float(epc) for epc, _ in epcs])
            wastages = self.fractions(here.wastages(words=True))
            less = [
                (epc - pips(at), told - 1000 * pips(at)) for (epc, told), at in zip(epcs, found)
            ]
            self.same(wastages, less)
            floats = here.wastages().tolist()[::STEP]
            self.same(floats, [float(wastage) for wastage, _ in less])

    def test_every_share(self) -> None:
        for bound in self.BOUNDS:
            here, found = database(bound), positions(bound)
            floats: Any = here.distributions().tolist()
            flat, count = numbers(here.distributions(words=True)), len(floats[0])
            whole = here.denominator
            each = [flat[at : at + 34] for at in range(0, len(flat), 34 * STEP)]
            for row, told in zip(each, floats[::STEP]):
                self.same(told, (share / whole for share in row[:count]))
            self.same((sum(row[:count]) for row in each), [whole] * len(each))
            means = (sum(rolls * share for rolls, share in enumerate(row)) for row in each)
            self.same(means, numbers(here.means(words=True))[::STEP])
            for rolls in (0, 1, 5, 7, 12, 21, 22, 32, 33, 10**30)[:: min(STEP, 3)]:
                cdf = [sum(row[: rolls + 1]) for row in each]
                self.same(numbers(here.cdf(rolls, words=True))[::STEP], cdf)
                within = here.cdf(rolls).tolist()[::STEP]
                self.same(within, [number / whole for number in cdf])
            chance = random.Random(33)
            for place in [0, len(each) - 1, *(chance.randrange(len(each)) for _ in range(500))]:
                position = found[STEP * place]
                shares = here.distribution(position)
                self.assertEqual([share * whole for share in shares], each[place][:count])
                self.assertEqual((len(shares), sum(shares)), (count, 1))
                epc = here.epc(position)
                self.assertEqual(epc, here.mean(position) * 49 / 6)
                self.assertEqual(here.wastage(position), epc - pips(position))


class Kinds(Compared):
    def test_by_the_bound(self) -> None:
        for bound, version, whole in ((58, 2, WHOLE), (59, 3, LONG_WHOLE)):
            here, count = Database.build(bound), len(positions(bound))
            told = (here.version, here.denominator, here.bound, len(here))
            self.assertEqual(told, (version, whole, bound, count))
            self.assertEqual(here.distribution(SIX)[1], Fraction(3, 4))
            shown = f"{bound} pips, {count} positions, version {version}"
            self.assertEqual(repr(here), f"<bearoff.Database: {shown}>")
        here = database(90)
        self.assertEqual((here.version, here.denominator, here.bound), (3, LONG_WHOLE, 90))
        self.assertEqual(database(44).denominator, WHOLE)

    def test_by_the_header(self) -> None:
        files = ((bytes(database(59)), 3), (bytes(database(8)), 1), (database(8).upgrade(), 2))
        for content, version in files:
            whole = LONG_WHOLE if version == 3 else WHOLE
            with tempfile.TemporaryDirectory() as folder:
                file = Path(folder, "a file")
                file.write_bytes(content)
                ways: List[Any] = [content, bytearray(content), memoryview(content)]
                ways += [file, str(file)]
                for way in ways:
                    with Database.open(way) as here:
                        self.assertEqual((here.version, here.denominator), (version, whole))
                        self.assertEqual(here.mean(SIX), Fraction(5, 4))
                        self.assertEqual(bytes(here), content)
                again = pickle.loads(pickle.dumps(Database.open(file)))
                self.assertEqual((again.version, again.denominator), (version, whole))

    def test_copies(self) -> None:
        here = Database(bytes(database(59)))
        again, copied = pickle.loads(pickle.dumps(here)), here.__copy__()
        here.close()
        for other in (again, copied):
            self.assertEqual((other.bound, other.mean(SIX)), (59, Fraction(5, 4)))

    def test_what_a_board_is_no_file_of(self) -> None:
        """The first fault of damaged bytes is named, of either kind, and a version that is neither
        is refused as ever.
        """
        content, small = bytes(database(59)), bytes(database(8))

        def changed(of: bytes, place: int, *new: int) -> bytes:
            return of[:place] + bytes(new) + of[place + len(new) :]

        for given, status, line in (
            (content[:31], 16, "header too-short"),
            (changed(content, 0, 0), 17, "header bad-magic"),
            (changed(content, 8, 0, 4), 18, "header bad-version"),
            (changed(content, 8, 0, 0), 18, "header bad-version"),
            (changed(content, 8, 3, 0), 18, "header bad-version"),
            (changed(small, 8, 0, 4), 18, "header bad-version"),
            (changed(content, 10, 0, 91), 19, "header bad-bound"),
            (changed(content, 8, 0, 2), 19, "header bad-bound"),
            (changed(content, 12, 0, 0, 0, 5), 20, "header bad-count"),
            (changed(content, 17, 1), 21, "header bad-record-bytes"),
            (changed(content, 31, 1), 22, "header bad-reserved"),
            (content[:-1], 23, "header bad-length"),
            (content + b"\0", 23, "header bad-length"),
            (changed(small, 8, 0, 3), 21, "header bad-record-bytes"),
        ):
            for opened in (Database, Database.open):
                with self.assertRaises(Damaged) as damaged:
                    opened(given)
                told = (damaged.exception.status, damaged.exception.line)
                self.assertEqual(told, (status, line))

    def test_a_damaged_byte(self) -> None:
        content = bytes(database(59))
        chance = random.Random(3)
        some = (chance.randrange(32, len(content)) for _ in range(20))
        for place in [32, len(content) - 1, *some]:
            changed = bytearray(content)
            changed[place] ^= 1 << chance.randrange(8)
            with self.assertRaises(Damaged) as damaged:
                Database(changed)
            self.assertIn(damaged.exception.status, range(24, 28), place)

    def test_a_board_is_not_upgraded(self) -> None:
        self.assertEqual(self.refused(18, database(59).upgrade), "the version is not 1 or 2")


if __name__ == "__main__":
    unittest.main()
