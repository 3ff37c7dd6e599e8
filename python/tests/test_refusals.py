"""What is refused, and by which error: hostile arguments of each kind, damaged bytes, closed
databases."""

import ctypes
import mmap
import pickle
import unittest
from fractions import Fraction
from functools import lru_cache
from typing import Any, Callable, Dict, List, Tuple, Type

from bearoff import (
    BadArgument,
    BearoffError,
    Changed,
    Damaged,
    Database,
    NoLibrary,
    OutOfRange,
    Position,
    Refused,
    _library,
    grade,
    notation,
)
from bearoff._opened import build
from bearoff.matches import read_match

from .given import FOLDER, ROOT, Compared, database

Calls = Tuple[Callable[..., Any], ...]

SIX = (0, 0, 0, 0, 0, 1)
HUGE = 10**5000


class Angry:
    """It has an order and a length, and nothing else that can be asked."""

    def __len__(self) -> int:
        return 6

    def __getitem__(self, place: int) -> int:
        if place >= 6:
            raise IndexError
        return 0

    def __repr__(self) -> str:
        raise RuntimeError("not to be shown")


class Endless:
    """It says that it has six items, and has ever more."""

    def __len__(self) -> int:
        return 6

    def __getitem__(self, place: int) -> int:
        return 0


class Long(list):  # type: ignore[type-arg]
    """A list that has fewer items than it says."""

    def __len__(self) -> int:
        return 6


NO_POSITIONS: Tuple[Any, ...] = (
    *((), (1, 2, 3), (0,) * 5, (0,) * 7, [0] * 1000, range(5), [[0] * 6]),
    *((0, 0, 0, 0, 0, -1), [-1] * 6, (0, 0, 0, 0, 0, HUGE), (0, 0, 0, 0, 0, 1000), [HUGE] * 6),
    Position(0, 0, 0, 0, 0, -1),
    *(
        (0.5,) * 6,
        (0, 0, 0, 0, 0, 1.25),
        (0, 0, 0, 0, 0, float("nan")),
        (0, 0, 0, 0, 0, float("inf")),
        [None] * 6,
        ("0",) * 6,
        (0, 0, 0, 0, 0, "1"),
        (Fraction(1),) * 6,
        (1j,) * 6,
    ),
    *(None, 0, 1, 6, 1.5, True, HUGE, object(), type, len, print, Ellipsis, float("nan")),
    *({0, 1, 2, 3, 4, 5}, frozenset(range(6)), dict.fromkeys(range(6), 0)),
    *(iter(SIX), (c for c in SIX)),
    *("", " ", "0", "0,0,0,0,0", "0,0,0,0,0,0,0", "0 0 0 0,0 1", "0,0,0,0,0,1 0"),
    *("0,0,0,0,0,1\v", "0,0,0,0,0,1\u2003"),
    *(f"0,0,0,0,0,{it}" for it in ("-1", "+1", "01", "1000", "1.0", "", "\u0661", "1\0")),
    *(",0,0,0,0,0", "0;0;0;0;0,1", "000001", "\ud800", "a" * 10**6, "mean 0,0,0,0,0,1"),
    *(b"", b"0,0,0,0,0,1", bytearray(5), memoryview(bytes(48)), Long([1, 2]), Endless()),
)

NO_ROLLS: Tuple[Any, ...] = (
    *((), (1,), (1, 2, 3), [1, 2, 3, 4], None, 2.1, {1, 2}, {1: 2, 2: 1}, iter((2, 1))),
    *(0, 1, 9, 100, 211, -21, HUGE, True, 21.0),
    *((1.5, 2), ("2", "1"), (None, None), ((2, 1),), object(), b"", Long([1, 2])),
    *("", "2", "211", "2--1", "2-", "-21", "+21", "2.1", "2/1", "\u0662\u0661", "21 1", "b1"),
)

BAD_ROLLS: Tuple[Any, ...] = (
    *(
        (0, 1),
        (1, 7),
        (-1, 2),
        (257, 258),
        (1, HUGE),
        [255, 255],
        (65537, 1),
        (2**64 + 1, 2),
        (False, 1),
    ),
    *("01", "17", "70", "99", " 2 7 ", "2-7", 17, 70, 99),
)

NO_RANKS: Tuple[Any, ...] = (
    -1,
    -HUGE,
    1.0,
    None,
    "1",
    b"1",
    (1,),
    [1],
    object(),
    float("inf"),
    Fraction(1),
    1j,
)

# the statuses by the words of tests/refusals.txt
NAMES = {
    1: "not-open",
    2: "bad-roll",
    3: "too-many",
    4: "over-bound",
    5: "finished",
    6: "not-legal",
    10: "no-rank",
}


@lru_cache(maxsize=None)
def board(bound: int) -> bytes:
    """A board file of any bound: `Database.build` makes those alone that no database has."""
    status, content = build(_library.library(), bound, 3)
    if status:
        raise AssertionError(status)
    return content.tobytes()


def name_of(call: Callable[..., Any], *words: Any) -> str:
    """What a call tells, by such a word."""
    try:
        call(*words)
    except BadArgument:
        return "bad-line"
    except Refused as refused:
        return NAMES[refused.status]
    return "none"


def calls_of(here: Database) -> Dict[str, Calls]:
    """What the words of a row are asked by, as texts and as lists."""

    def number(given: Any) -> int:
        return int(given if isinstance(given, str) else given[0])

    return {
        "mean": (
            *(here.mean, here.epc, here.wastage, here.distribution, here.variance, here.rank),
            lambda counts: here.within(counts, 3),
        ),
        "play": (here.play, here.moves),
        "loss": (here.loss,),
        "play-to": (here.play_to,),
        "position": (
            lambda rank: here.position(number(rank)),
            lambda rank: here[number(rank)],
        ),
        "build": (lambda bound: Database.build(number(bound)),),
    }


class Refusals(Compared):
    def bad(self, call: Callable[..., Any], *words: Any) -> None:
        with self.assertRaises(BadArgument) as refused:
            call(*words)
        self.assertLess(len(str(refused.exception)), 300)

    def test_what_is_no_position(self) -> None:
        here = database(8)
        for wrong in NO_POSITIONS:
            for call in (
                here.mean,
                here.epc,
                here.wastage,
                here.distribution,
                here.rank,
                here.position_info,
            ):
                self.bad(call, wrong)
            self.assertIs(wrong in here, False)
            self.bad(here.play, wrong, (2, 1))
            self.bad(here.moves, wrong, (2, 1))
            self.bad(here.within, wrong, 1)
            for with_target in (here.loss, here.play_to):
                self.bad(with_target, wrong, (2, 1), SIX)
                self.bad(with_target, SIX, (2, 1), wrong)
        for wrong in (
            text for text in NO_POSITIONS if isinstance(text, (str, bytes, type(None), int))
        ):
            self.bad(Position.parse, wrong)

    def test_what_is_no_roll(self) -> None:
        here = database(8)
        for wrong in NO_ROLLS:
            self.bad(here.play, SIX, wrong)
            self.bad(here.moves, SIX, wrong)
            self.bad(here.loss, SIX, wrong, SIX)
            self.bad(here.play_to, SIX, wrong, SIX)
        for wrong in BAD_ROLLS:
            self.refused(2, here.play, SIX, wrong)
            self.refused(2, here.moves, SIX, wrong)
            self.refused(2, here.loss, SIX, wrong, SIX)
            self.refused(2, here.play_to, SIX, wrong, SIX)

    def test_what_is_no_rank(self) -> None:
        for wrong in NO_RANKS:
            self.bad(database(8).position, wrong)
        for beyond in (64, 65, 255, 256, 65535, 65536, 65536 + 5, 2**32, 2**64, HUGE):
            self.refused(10, database(8).position, beyond)
        self.assertIn("46062", self.refused(10, database(58).position, 46062))
        self.assertEqual(database(8).position(True), (1, 0, 0, 0, 0, 0))

    def test_what_is_no_number_of_rolls(self) -> None:
        here = database(8)
        for wrong in NO_RANKS:
            self.bad(here.within, SIX, wrong)
            self.bad(here.cdf, wrong)
        for many in (22, 23, 255, 256, 2**64, HUGE):
            self.assertEqual(here.within(SIX, many), 1)
            self.assertEqual(set(here.cdf(many)), {1.0})
        self.refused(3, here.within, "16,0,0,0,0,0", 1)

    def test_an_index_that_is_none(self) -> None:
        here = database(8)
        for beyond in (64, 65, 65536, HUGE, -65, -66, -HUGE):
            with self.assertRaises(IndexError) as missing:
                here[beyond]
            self.assertIsInstance(missing.exception, OutOfRange)
            self.assertEqual(self.refused(10, here.__getitem__, beyond), str(missing.exception))
        for wrong in (1.0, None, "1", b"1", (1,), [1], object(), float("inf"), Fraction(1), 1j):
            self.bad(here.__getitem__, wrong)

    def test_what_is_no_bound(self) -> None:
        for wrong in (*NO_RANKS, "44", (44,)):
            self.bad(Database.build, wrong)
        for beyond in (91, 255, 256, 256 + 8, 256 + 59, 2**64, HUGE):
            self.assertIn(", and no bound is over 90", self.refused(4, Database.build, beyond))
        self.assertEqual(len(Database.build(0)), 1)

    def test_what_is_no_line(self) -> None:
        for wrong in (None, 1, b"mean 0,0,0,0,0,1", ["mean"], SIX):
            self.bad(database(8).answer, wrong)

    def test_what_is_no_file(self) -> None:
        for wrong in (None, 0, 3, 1.5, SIX, object(), [1, 2], "a\0b"):
            self.bad(Database.open, wrong)
        for wrong in (None, 5, "eight", SIX, [1]):
            self.bad(Database, wrong)
        self.assertRaises(FileNotFoundError, Database.open, FOLDER / "nothing")
        self.assertRaises(FileNotFoundError, Database.open, "")
        self.assertRaises(IsADirectoryError, Database.open, FOLDER)
        with self.assertRaises(Damaged) as damaged:
            Database.open("/dev/zero")
        self.assertEqual(damaged.exception.line, "header bad-magic")

    def test_a_view_that_was_released(self) -> None:
        """Memory that can't be read any more is no argument, wherever some is taken."""
        here = database(8)

        def released(content: bytes) -> memoryview:
            view = memoryview(content)
            view.release()
            return view

        file, six = released(bytes(here)), released(bytes(SIX))
        closed = mmap.mmap(-1, 64)
        closed.close()
        unknown = (ctypes.c_longdouble * 6)()
        for call in (Database, Database.open):
            self.bad(call, file)
            self.bad(call, closed)
        for wrong in (six, memoryview(unknown)):
            for ask in (here.mean, here.epc, here.wastage, here.distribution, here.rank):
                self.bad(ask, wrong)
            self.bad(here.within, wrong, 1)
            self.bad(here.position_info, wrong)
            self.bad(here.ranks, wrong)
            self.bad(here.ranks, [SIX, wrong])
            self.assertNotIn(wrong, here)
            for with_roll in (here.play, here.moves):
                self.bad(with_roll, wrong, (2, 1))
                self.bad(with_roll, SIX, wrong)
            for with_target in (here.loss, here.play_to):
                self.bad(with_target, wrong, (2, 1), SIX)
                self.bad(with_target, SIX, wrong, SIX)
                self.bad(with_target, SIX, (2, 1), wrong)
        for number in (file, memoryview(b"1")):
            self.bad(here.position, number)
            self.bad(here.within, SIX, number)
            self.bad(here.cdf, number)
            self.bad(here.__getitem__, number)
            self.bad(here.answer, number)
            self.bad(Database.build, number)
        for text_of in (read_match, notation.read, notation.from_xgid, notation.from_gnubg):
            self.bad(text_of, file)
        for match in (file, None, 0, "a\0b"):
            self.bad(grade, match, here)

    def each_kind(self, ask: Callable[[Database], None]) -> None:
        """Asks a database and a board of 8 pips."""
        for content in (bytes(database(8)), board(8)):
            with Database(content) as here, self.subTest(whole=here.denominator):
                ask(here)

    def test_positions_that_have_no_answer(self) -> None:
        self.each_kind(self.ask_what_has_no_answer)

    def ask_what_has_no_answer(self, here: Database) -> None:
        for call in (here.mean, here.epc, here.wastage, here.distribution, here.rank):
            told = self.refused(3, call, (1, 15, 0, 0, 0, 0))
            self.assertEqual(told, "more than 15 checkers: 1,15,0,0,0,0")
            ways: Tuple[Any, ...] = (
                (255,) * 6,
                (256,) * 6,
                [999] * 6,
                "16,0,0,0,0,0",
                "0,0,0,0,0,999",
            )
            for many in (*ways, Position(0, 0, 0, 0, 0, 16)):
                self.refused(3, call, many)
            told = self.refused(4, call, "0,0,1,0,0,1")
            self.assertEqual(told, "more pips than the bound: 0,0,1,0,0,1")
            self.refused(4, call, (0, 0, 0, 0, 0, 15))
            call((True, 0, 0, 0, 0, False))
            call(b"\1\0\0\0\0\0")
        with_roll: Calls = (here.play, here.moves)
        for call in with_roll:
            told = self.refused(5, call, (0,) * 6, (2, 1))
            self.assertEqual(told, "no checker is left: 0,0,0,0,0,0 with (2, 1)")
            self.refused(3, call, (256,) * 6, (2, 1))
        told = self.refused(6, here.loss, SIX, (2, 1), "1,0,0,0,0,0")
        line = "the roll doesn't lead there: 0,0,0,0,0,1 with (2, 1) to 1,0,0,0,0,0"
        self.assertEqual(told, line)
        told = self.refused(6, here.play_to, SIX, "21", "1,0,0,0,0,0")
        self.assertEqual(told, "the roll doesn't lead there: 0,0,0,0,0,1 with '21' to 1,0,0,0,0,0")
        for with_target in (here.loss, here.play_to):
            self.refused(3, with_target, SIX, (2, 1), (16, 0, 0, 0, 0, 0))
        self.refused(3, here.position_info, (255,) * 6)
        for outside in ((1, 15, 0, 0, 0, 0), "0,0,1,0,0,1", (255,) * 6):
            self.assertNotIn(outside, here)
        self.assertEqual(here.mean(Angry()), 0)

    def test_a_message_of_what_can_not_be_shown(self) -> None:
        class Silent:
            def __repr__(self) -> str:
                raise RuntimeError("not to be shown")

        self.bad(database(8).mean, Silent())
        self.bad(database(8).mean, [Silent()] * 6)
        self.refused(2, database(8).play, SIX, (HUGE, HUGE))

    def test_damaged_bytes(self) -> None:
        content = (FOLDER / "eight").read_bytes()
        changed = bytearray(content)
        changed[32 + 426 + 15] ^= 1
        for given, status, line in (
            (content[:31], 16, "header too-short"),
            (b"", 16, "header too-short"),
            (b"header", 16, "header too-short"),
            (content[:-1], 23, "header bad-length"),
            (content + bytes(2**24), 23, "header bad-length"),
            (changed, 26, "mean rank 1"),
            (memoryview(changed), 26, "mean rank 1"),
        ):
            for opened in (Database, Database.open):
                with self.assertRaises(Damaged) as damaged:
                    opened(given)
                self.assertEqual(
                    (damaged.exception.status, damaged.exception.line), (status, line)
                )
                self.assertIsInstance(damaged.exception, BearoffError)

    def test_the_order_of_refusals(self) -> None:
        """A call that could be refused for several reasons tells the first of them, of a database
        and of a board, whether its words are texts or lists.
        """
        count = 0
        for content in (bytes(database(8)), board(8)):
            states = {name: Database(content) for name in ("open", "closed", "-")}
            states["closed"].close()
            for line in (ROOT / "tests/refusals.txt").read_text("ascii").splitlines():
                # nobody lends a room here
                if line.startswith("#") or line.endswith(" buffer-too-small"):
                    continue
                call, state, at, roll, to, told, *_ = line.split()
                here = states[state]
                texts: List[Any] = [word for word in (at, roll, to) if word != "-"]
                lists: List[Any] = [[*map(int, word.split(","))] for word in texts]
                lists[1:2] = [[*map(int, roll)]] if roll != "-" else []
                for ask in calls_of(here).get(call, ()):
                    for words in (texts, lists):
                        with self.subTest(row=line, words=words, whole=states["open"].denominator):
                            self.assertEqual(name_of(ask, *words), told)
                        count += 1
                if call == "mean" and told not in ("none", "bad-line"):
                    with self.subTest(row=line):
                        self.assertEqual(name_of(here.ranks, [at]), told)
        self.assertGreater(count, 500)

    def test_wrong_types_come_first(self) -> None:
        """What isn't of a call's types at all is told before the database is looked at."""
        here = Database(bytes(database(8)))
        here.close()
        calls: Tuple[Tuple[Callable[..., Any], Tuple[Any, ...]], ...] = (
            (here.position, (-1,)),
            (here.__getitem__, ("1",)),
            (here.__getitem__, (slice("a", None),)),
            (here.__getitem__, (slice(None, None, 0),)),
            (here.within, (SIX, -1)),
            (here.cdf, (None,)),
            (here.ranks, ("0,0,0,0,0,1",)),
            (here.ranks, (5,)),
            (here.answer, (b"mean",)),
        )
        for call, words in calls:
            self.bad(call, *words)

    def test_a_closed_database(self) -> None:
        self.each_kind(self.ask_what_is_closed)

    def ask_what_is_closed(self, here: Database) -> None:
        self.assertFalse(here.closed)
        self.assertIs(here.__enter__(), here)
        here.close()
        here.close()
        self.assertTrue(here.closed)
        for call in (
            here.mean,
            here.epc,
            here.wastage,
            here.distribution,
            here.rank,
            here.__contains__,
        ):
            self.refused(1, call, SIX)
        for wrong in ("abc", None, HUGE):
            self.refused(1, here.__contains__, wrong)
        self.refused(1, here.within, SIX, 1)
        self.refused(1, here.ranks, [SIX])
        for place in (0, -1, 99, slice(2)):
            self.refused(1, here.__getitem__, place)
        self.assertEqual(
            (here.position_info(SIX).pips, here.play_to(SIX, "65", (0,) * 6).text), (6, "6/off")
        )
        with_roll: Calls = (here.play, here.moves)
        for call in with_roll:
            self.refused(1, call, SIX, (2, 1))
        tables: Calls = (here.positions, here.means, here.epcs, here.wastages, here.distributions)
        asks: Calls = (*tables, lambda: here.cdf(3), here.upgrade, here.__enter__)
        for ask in asks:
            self.refused(1, ask)
        any_of_it: Calls = (len, iter, bytes, list, pickle.dumps)
        for every in any_of_it:
            self.refused(1, every, here)
        self.refused(1, here.position, 0)
        self.refused(1, here.loss, SIX, (2, 1), SIX)
        self.refused(1, here.answer, "rank 0,0,0,0,0,1")
        self.refused(1, lambda: here.version)
        self.refused(1, lambda: here.bound)
        self.refused(1, lambda: here.denominator)
        self.refused(1, lambda: here.weights)
        self.assertEqual(repr(here), "<bearoff.Database: closed>")
        self.assertTrue(here)

    def test_errors_are_of_one_family_and_can_be_pickled(self) -> None:
        kinds: Tuple[Type[BearoffError], ...] = (
            BadArgument,
            Refused,
            OutOfRange,
            Damaged,
            Changed,
            NoLibrary,
        )
        for kind in kinds:
            self.assertTrue(issubclass(kind, BearoffError) and issubclass(kind, ValueError))
        errors: Tuple[BearoffError, ...] = (
            Refused(3, "16,0,0,0,0,0"),
            Damaged(26, "mean rank 1"),
            BadArgument("x"),
        )
        errors += (Changed("y"), NoLibrary("z"), OutOfRange(10, "64"))
        for error in errors:
            again = pickle.loads(pickle.dumps(error))
            self.assertEqual(
                (type(again), str(again), vars(again)), (type(error), str(error), vars(error))
            )


if __name__ == "__main__":
    unittest.main()
