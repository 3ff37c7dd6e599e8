"""What is taken as a position, a roll and a play, in each call; effective pip counts and wastages as
the numbers that they are; and the chance that one side is off first, beside a game that is played
out move by move with the recorded plays."""

import copy
import importlib
import json
import math
import operator
import pickle
import statistics
import tempfile
import unittest
from decimal import Decimal
from fractions import Fraction
from functools import lru_cache
from numbers import Rational
from pathlib import Path
from typing import Any, Callable, Iterator, Tuple
from urllib.parse import unquote

import bearoff
from bearoff import BadArgument, Damaged, Database, Position, Race, Refused, notation
from bearoff.exact import lowest_terms

from .given import ROLLS, ROOT, database, positions

SIX = Position(0, 0, 0, 0, 0, 1)
XGID = "XGID=-ABC--D------------a-b--c-:0:0:1:21:0:0:0:0:10"
MINE, THEIRS = Position(1, 2, 3, 0, 0, 4), Position(3, 0, 0, 2, 0, 1)
TEXTS: Tuple[Any, ...] = (
    "1,2,3,0,0,4",
    "1 2 3 0 0 4",
    "1;2;3;0;0;4",
    "1/2/3/0/0/4",
    "1-2-3-0-0-4",
    "[1, 2, 3, 0, 0, 4]",
    (1.0, 2.0, 3.0, 0.0, 0.0, 4.0),
    [1, 2.0, 3, 0, 0, 4],
    Race(MINE),
    Race(MINE, THEIRS, (2, 1), "top"),
    notation.to_xgid(Race(MINE, THEIRS)),
    notation.to_gnubg(Race(MINE, THEIRS)),
)


class Taken(unittest.TestCase):
    def test_positions(self) -> None:
        here = database(44)
        for text in TEXTS:
            self.assertEqual(here.mean(text), here.mean(MINE), text)
            self.assertEqual(here.epc(text), here.epc(MINE), text)
            self.assertEqual(here.wastage(text), here.wastage(MINE), text)
            self.assertEqual(here.distribution(text), here.distribution(MINE), text)
            self.assertEqual(here.within(text, 5), here.within(MINE, 5), text)
            self.assertEqual(here.position_info(text), here.position_info(MINE), text)
            self.assertEqual(here.rank(text), here.rank(MINE), text)
            self.assertEqual(here.ranks([text]).tolist(), [here.rank(MINE)], text)
            self.assertIn(text, here)
            self.assertEqual(here.play(text, 21), here.play(MINE, (2, 1)), text)
            self.assertEqual(here.moves(text, "2-1"), here.moves(MINE, (2, 1)), text)
            best = here.play(MINE, (2, 1)).to
            self.assertEqual(here.loss(text, "2,1", best), 0, text)

    def test_what_is_no_position_is_told(self) -> None:
        wrongs: Tuple[Tuple[Any, str], ...] = (
            ((0, 0, 0, 0, 0, 1.5), "1.5 is not whole"),
            ("XGID=-ABC--D------------a-b--c-:0:0:1:21", "has 10 fields"),
            ("race.db", "neither an XGID"),
            ("1,2,3", "a position is six counts, and these are 3"),
        )
        for wrong, why in wrongs:
            with self.assertRaisesRegex(BadArgument, why) as refused:
                database(8).mean(wrong)
            self.assertNotIn("\n", str(refused.exception))
        with self.assertRaisesRegex(BadArgument, "opened by Database.open"):
            Database("race.db")  # type: ignore[arg-type]
        with tempfile.TemporaryDirectory() as folder:
            wrong_file = Path(folder, "no.database")
            wrong_file.write_bytes(b"no database at all, but long enough")
            with self.assertRaises(Damaged) as damaged:
                Database.open(wrong_file)
        told = f"{wrong_file}: not a valid database: header bad-magic (it doesn't start"
        self.assertTrue(str(damaged.exception).startswith(told), damaged.exception)
        again = pickle.loads(pickle.dumps(damaged.exception))
        self.assertEqual((str(again), again.path), (str(damaged.exception), str(wrong_file)))

    def test_rolls(self) -> None:
        here = database(8)
        for high, low in ROLLS:
            want = here.play("1,0,1,1,0,0", (high, low))
            spellings: Tuple[Any, ...] = (
                *(10 * high + low, 10 * low + high, f"{high}-{low}", f"{low},{high}"),
                *(f"{low}{high}", f" {high} - {low} ", [float(high), low]),
            )
            for roll in spellings:
                self.assertEqual(here.play("1,0,1,1,0,0", roll), want, roll)

    def test_plays(self) -> None:
        """Each play of each roll by its text and as itself leads where it leads."""
        here = database(8)
        for position in positions(8)[1:]:
            for roll in ROLLS:
                for choice in here.moves(position, roll):
                    play = here.play_to(position, roll, choice.to)
                    spellings: Tuple[Any, ...] = (choice, choice.to, play, play.text)
                    for told in (*spellings, play.text.upper()):
                        if told:
                            self.assertEqual(here.loss(position, roll, told), choice.loss)
                            self.assertEqual(here.play_to(position, roll, told), play)

    def test_the_plays_of_every_language(self) -> None:
        here, rows = database(44), (ROOT / "tests/plays.txt").read_text("ascii").splitlines()
        for row in rows:
            if row.startswith("#"):
                continue
            at, roll, wanted, *coded = row.split(" ", 3)
            asked = unquote(*coded or [""])
            try:
                told = str(here.play_to(at, roll, asked).to)
            except BadArgument as refused:
                self.assertNotIsInstance(refused, Refused)
                told = "bad-play"
            self.assertEqual(told, wanted, row)
        self.assertGreater(len(rows), 30)

    def test_what_is_no_play(self) -> None:
        here = database(8)
        for wrong, why in (
            ("4/2", "there is no checker on point 4"),
            ("6/5(2)", "there is no checker on point 6"),
            ("8/6", "no checker of a bearoff stands on point 8"),
            ("bar/22", "no checker of a bearoff stands on point 25"),
            ("2/4", "no checker moves so: 2/4"),
            ("3/2*", "no checker is hit in a bearoff: '3/2\\*'"),
        ):
            for call in (here.loss, here.play_to):
                with self.assertRaisesRegex(BadArgument, why):
                    call("0,0,1,0,0,0", 21, wrong)
        with self.assertRaises(Refused):
            here.loss("0,0,1,0,0,0", 21, "3/2")

    def test_what_comes_with_the_package(self) -> None:
        for name in ("notation", "gnubg", "export", "Race"):
            self.assertIn(name, dir(bearoff))
        self.assertEqual(notation.read(XGID).dice, (2, 1))
        self.assertIs(notation.Race, Race)
        self.assertEqual(pickle.loads(pickle.dumps(Race(MINE))), Race(MINE))


def told(compute: Callable[[], Any]) -> Any:
    """What comes out: its value and its type, or that of the error."""
    try:
        made = compute()
    except Exception as error:
        return type(error)
    return (made, [*map(type, made)] if isinstance(made, tuple) else type(made))


OPERATORS: Tuple[Callable[[Any, Any], Any], ...] = (
    *(operator.add, operator.sub, operator.mul, operator.truediv, operator.floordiv),
    *(operator.mod, divmod, pow, operator.lt, operator.le, operator.gt, operator.ge),
    *(operator.eq, operator.ne, math.isclose, round, math.copysign, format),
)
OTHERS: Tuple[Any, ...] = (
    *(0, 1, 2, -3, True, 0.5, 10.208, -0.0, 1j),
    *(Fraction(1, 3), Fraction(245, 24), Decimal("0.5"), "1", ".3f", "10.2f", ".1%", "g", ""),
    *(None, (1, 2), (Fraction(245, 24), 10208), [1.5]),
)
OF_ONE: Tuple[Callable[[Any], Any], ...] = (
    *(float, int, bool, abs, round, hash, str, complex, operator.neg, operator.pos, Fraction),
    *(math.floor, math.ceil, math.trunc, math.sqrt, math.isfinite, Decimal, format),
    *(lambda it: it.numerator, lambda it: it.denominator, lambda it: it.as_integer_ratio()),
    *(lambda it: it.real, lambda it: it.imag, lambda it: it.conjugate(), math.fabs, math.exp),
    *(lambda it: it.limit_denominator(10), lambda it: "%.3f" % it, lambda it: "%d|%s" % (it, it)),
    *(lambda it: Decimal(it.numerator) / it.denominator, json.dumps, len, lambda it: it[0]),
    *(lambda it: math.fsum([it, 1]), lambda it: math.prod([it, 2]), lambda it: sum([it, 0.5])),
    *(
        lambda it: {it: 1}[Fraction(it)],
        lambda it: it in {Fraction(245, 24)},
        lambda it: -(it**3),
    ),
    *(lambda it: 2**it, lambda it: 4.0**it, lambda it: it**0.5, lambda it: it**-2),
    *(lambda it: isinstance(it, Rational), lambda it: isinstance(it, tuple)),
    *(lambda it: f"{it - 1:.3f} {it:8.2f} {divmod(it, 2)[1]:.2f}",),
)
# .. of several, of which the first stands for each kind of number
OF_MANY: Tuple[Callable[[Any], Any], ...] = (
    *(sum, sorted, statistics.fmean, statistics.median, math.fsum),
    *(lambda all: float(statistics.mean(all)), lambda all: float(statistics.pvariance(all))),
    *(lambda all: float(statistics.stdev([*all, 57])), lambda all: max([*all, 1])),
    *(lambda all: float(statistics.mean([*all, 57])), lambda all: statistics.mean([*all, 0.5])),
    *(lambda all: statistics.quantiles(all, n=4)[1] > 1, lambda all: statistics.mode(all) > 1),
    *(lambda all: float(statistics.mean([*all, Fraction(1, 7)])), math.prod),
    *(lambda all: float(statistics.harmonic_mean(all)),),
)


class Numbers(unittest.TestCase):
    """Effective pip counts and wastages do all that a fraction does, and answer what it answers."""

    AT = ("0,0,0,0,0,1", "0,0,0,4,4,1", "1,2,3,0,2,1", "0,0,0,0,0,0", "2,0,0,0,0,0")

    def every(self) -> Iterator[Tuple[Any, Fraction]]:
        for at in self.AT:
            for pips in (database(44).epc(at), database(44).wastage(at)):
                yield pips, lowest_terms(pips.numerator, pips.denominator)

    def test_each_operator(self) -> None:
        for pips, exact in self.every():
            for other in OTHERS:
                for compute in OPERATORS:
                    for turned in (False, True):

                        def made(one: Any) -> Any:
                            return compute(other, one) if turned else compute(one, other)

                        row = (compute, exact, other, turned)
                        self.assertEqual(told(lambda: made(pips)), told(lambda: made(exact)), row)

    def test_each_of_one(self) -> None:
        for pips, exact in self.every():
            for compute in OF_ONE:
                self.assertEqual(told(lambda: compute(pips)), told(lambda: compute(exact)), exact)
            for digits in range(-2, 6):
                self.assertEqual(round(pips, digits), round(exact, digits))
            # as the line of the program rounds it
            thousandths = math.floor(exact * 1000 + Fraction(1, 2))
            self.assertEqual(pips.thousandths, thousandths)
            self.assertRaises(TypeError, iter, pips)
            self.assertEqual({pips: 1}, {exact: 1})
            kind = type(pips).__name__
            self.assertEqual(repr(pips), f"{kind}({exact.numerator}, {exact.denominator})")
            for protocol in range(pickle.HIGHEST_PROTOCOL + 1):
                again = pickle.loads(pickle.dumps(pips, protocol))
                self.assertEqual((type(again), again), (type(pips), pips))
            for again in (copy.copy(pips), copy.deepcopy([pips])[0]):
                self.assertEqual((type(again), again), (type(pips), pips))

    def test_each_of_many(self) -> None:
        here = database(44)
        for of in (here.epc, here.wastage):
            several = [of(at) for at in self.AT]
            exact = [lowest_terms(pips.numerator, pips.denominator) for pips in several]
            for compute in OF_MANY:
                wanted = told(lambda: compute(exact))
                self.assertNotIsInstance(wanted, type)
                self.assertEqual(told(lambda: compute(several))[0], wanted[0], compute)

    def test_thousandths_are_those_of_the_library(self) -> None:
        for here in (database(58), Database.build(90)):
            some = range(0, len(here), 97)
            for of, all_of in ((here.epc, here.epcs), (here.wastage, here.wastages)):
                rows: Any = all_of(words=True).tolist()
                told_of = [of(here[at]).thousandths for at in some]
                self.assertEqual(told_of, [row[-1] for row in rows[::97]])

    def test_no_wastage_is_below_0(self) -> None:
        """It is 0 where no checker is left, and else at least that of one on the six point."""
        nothing, *wasted = Database.build(90).wastages().tolist()
        self.assertEqual((nothing, min(wasted)), (0, float(Fraction(101, 24))))

    def test_as_a_column(self) -> None:
        here, pandas = database(8), importlib.import_module("pandas")
        several = [here.epc(at) for at in here]
        column = pandas.Series(several)
        self.assertEqual(pandas.DataFrame(several).shape, (64, 1))
        self.assertEqual(column.astype(float).tolist(), here.epcs().tolist())
        self.assertEqual(column.sum(), sum(column))
        self.assertEqual(float(column.mean()), float(sum(column) / 64))
        self.assertEqual((column > 20).tolist(), [it > 20 for it in column])
        self.assertEqual((10.5 - column).tolist(), [10.5 - it for it in column])


class Winning(unittest.TestCase):
    def test_by_hand(self) -> None:
        """One checker on each side, of which each roll bears off the one on the ace point."""
        here = database(8)
        one, six = "1,0,0,0,0,0", "0,0,0,0,0,1"
        off = here.distribution(six)[1]
        self.assertEqual(here.wins(one, six), 1)
        self.assertEqual(here.wins(six, one), off)
        self.assertEqual(here.wins(one, six, "theirs"), 1 - off)
        self.assertEqual(here.wins(six, one, "theirs"), 0)
        self.assertEqual(here.wins("0,0,0,0,0,0", six), 1)
        self.assertEqual(here.wins(six, "0,0,0,0,0,0"), 0)
        self.assertEqual(here.wins(six, six), off + (1 - off) ** 2)

    def test_both_sides(self) -> None:
        here = database(44)
        want = here.wins(MINE, THEIRS)
        race = Race(MINE, THEIRS)
        every: Tuple[Any, ...] = (race, notation.to_xgid(race), notation.to_gnubg(race))
        for told in every:
            self.assertEqual(here.wins(told), want)
        self.assertEqual(here.wins(THEIRS, MINE, on_roll="theirs"), 1 - want)
        self.assertIsInstance(want, Fraction)
        alone: Tuple[Any, ...] = (MINE, "1,2,3,0,0,4", Race(MINE))
        for wrong in alone:
            with self.assertRaisesRegex(BadArgument, "the opponent's position is missing"):
                here.wins(wrong)
        with self.assertRaises(BadArgument):
            here.wins(MINE, THEIRS, "top")  # type: ignore[arg-type]


OFF = (0, 0, 0, 0, 0, 0)


class TwoSides(unittest.TestCase):
    def test_it_is_the_chance_of_a_game_that_is_played_out(self) -> None:
        here = database(8)
        wins = here.wins

        @lru_cache(maxsize=None)
        def played(mine: Position, theirs: Position) -> Fraction:
            """The chance of the player on roll, over all rolls and the recorded plays."""
            if not any(mine):
                return Fraction(1)
            if not any(theirs):
                return Fraction(0)
            chance = Fraction(0)
            for high, low in ROLLS:
                after = here.play(mine, (high, low)).to
                lost = Fraction(0) if not any(after) else played(theirs, after)
                chance += Fraction(1 if high == low else 2, 36) * (1 - lost)
            return chance

        found = positions(8)
        for mine in found:
            for theirs in found:
                wanted = played(here[here.rank(mine)], here[here.rank(theirs)])
                self.assertEqual(wins(mine, theirs), wanted, (mine, theirs))
                self.assertEqual(wins(theirs, mine, "theirs"), 1 - wanted, (mine, theirs))
        self.assertEqual((wins(OFF, "0,0,0,0,0,1"), wins("0,0,0,0,0,1", OFF)), (1, 0))
        self.assertEqual(
            wins("0,0,0,0,0,1", "0,0,0,0,0,1"), Fraction(3, 4) + Fraction(1, 4) * Fraction(1, 4)
        )

    def test_beside_plays_for_the_win(self) -> None:
        """How far it is from the chance of two players who play for the win, and what a play of
        loss 0 can cost, as the page says of more checkers.
        """
        here = database(44)

        @lru_cache(maxsize=None)
        def best(mine: Position, theirs: Position) -> Fraction:
            if not any(mine) or not any(theirs):
                return Fraction(bool(any(theirs) or not any(mine)))
            weights = ((Fraction(1 if one == two else 2, 36), (one, two)) for one, two in ROLLS)
            return sum(
                (
                    weight * max(after(choice.to, theirs) for choice in here.moves(mine, roll))
                    for weight, roll in weights
                ),
                Fraction(0),
            )

        def after(mine: Position, theirs: Position) -> Fraction:
            return Fraction(1) if not any(mine) else 1 - best(theirs, mine)

        few = [position for position in here if 0 < sum(position) <= 3]
        apart = [
            best(mine, theirs) - here.wins(mine, theirs)
            for mine in few[::3]
            for theirs in few[::2]
        ]
        self.assertTrue(0.05 < sum(it != 0 for it in apart) / len(apart) < 0.2)
        self.assertTrue(min(apart) < 0 < max(apart) < Fraction(2, 1000))
        # against three checkers only a double helps, and more doubles bear off what is left of
        # another play; this loses nothing in the mean
        mine, theirs = Position(1, 0, 3, 0, 0, 1), Position(1, 0, 2, 0, 0, 0)
        played = here.play(mine, 21).to
        chances = {choice.to: after(choice.to, theirs) for choice in here.moves(mine, 21)}
        self.assertEqual(here.loss(mine, 21, played), 0)
        self.assertAlmostEqual(float(max(chances.values()) - chances[played]), 0.049, 4)


if __name__ == "__main__":
    unittest.main()
