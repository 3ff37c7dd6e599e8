"""Each answer, and each row of the whole tables, against the program's own lines."""

import random
import unittest
from fractions import Fraction
from operator import mul
from typing import Any, Callable, Iterable, List, Sequence, Tuple
from unittest import mock

from bearoff import Database, Move, Position, Refused, _library

from .given import (
    FOLDER,
    ROLLS,
    ROOT,
    Compared,
    Counts,
    database,
    numbers,
    positions,
    replies,
    text,
)

Roll = Tuple[int, int]


def point(name: str) -> int:
    return 0 if name == "off" else int(name)


class Answers(Compared):
    def compare(self, bound: int, line: str, reply: str) -> None:
        """The reply to a line, and what the call of the same name tells."""
        here = database(bound)
        self.assertEqual(here.answer(line), reply, line)
        name, at, *asked = line.split()
        told = reply.split()[1:]
        if name == "mean":
            self.assertEqual(here.mean(at), Fraction(told[0]), line)
            thousandths = int(told[3].replace(".", ""))
            epc = here.epc(at)
            self.assertEqual((epc, epc.thousandths), (Fraction(told[2]), thousandths), line)
        elif name == "rank":
            self.assertEqual(here.rank(at), int(told[0]), line)
            self.assertEqual(here.position(int(told[0])), Position.parse(at), line)
        elif name == "dist":
            shares = [Fraction(0)] * (23 if bound <= 58 else 34)
            for part in told:
                count, share = part.split(":")
                shares[int(count)] = Fraction(share)
            self.assertEqual(list(here.distribution(at)), shares, line)
            mean = sum(map(mul, range(34), shares))
            variance = sum((rolls - mean) ** 2 * share for rolls, share in enumerate(shares))
            self.assertEqual(here.variance(at), variance, line)
            deviation = float(variance) ** 0.5
            self.assertAlmostEqual(here.standard_deviation(at), deviation, 14, line)
            for rolls in (0, 5, 6, 22, 32, 33, 34, 10**30):
                wanted = sum(shares[: rolls + 1], Fraction(0))
                self.assertEqual(here.within(at, rolls), wanted, line)
        elif name == "play":
            play = here.play(at, asked[0])
            moves = tuple(Move(*map(point, move.split("/"))) for move in told[:-2])
            self.assertEqual((play.moves, play.to), (moves, Position.parse(told[-1])), line)
        else:
            parts = [part.split(":") for part in told]
            choices = [(Position.parse(to), Fraction(loss)) for to, loss in parts]
            self.assertEqual(here.moves(at, asked[0]), choices, line)
            for to, loss in choices:
                self.assertEqual(here.loss(at, asked[0][::-1], to), loss, line)

    def test_stored_rows(self) -> None:
        stored = (ROOT / "tests/board_rows.txt").read_text("ascii").splitlines()
        self.assertGreater(len(stored), 70)
        for line, reply in zip(stored[::2], stored[1::2]):
            self.compare(90, line, reply)

    def compare_all(self, bound: int, asked: Iterable[Tuple[Counts, Sequence[Roll]]]) -> None:
        """Each answer about these positions and rolls is that of the program's line."""
        lines: List[str] = []
        for position, rolls in asked:
            at = text(position)
            lines += [f"mean {at}", f"dist {at}", f"rank {at}"]
            for high, low in rolls if any(position) else ():
                lines += [f"play {at} {high}{low}", f"moves {at} {low}{high}"]
        told = replies(bound, lines)
        self.assertEqual(len(told), len(lines))
        for line, reply in zip(lines, told):
            self.compare(bound, line, reply)

    def test_every_position_of_8_pips(self) -> None:
        self.compare_all(8, [(position, ROLLS) for position in positions(8)])

    def test_some_positions(self) -> None:
        for bound, most, count in ((44, 0, 1000), (58, 0, 1000), (90, 58, 300)):
            chance = random.Random(bound)
            found = positions(bound)[len(positions(most)) if most else 0 :]
            some = [found[-1], *(chance.choice(found) for _ in range(count))]
            self.compare_all(bound, [(position, [chance.choice(ROLLS)]) for position in some])

    def test_names_and_numbers(self) -> None:
        eight = Database.open((FOLDER / "eight").read_bytes())
        self.assertEqual((eight.version, eight.bound, len(eight)), (1, 8, 64))
        self.assertEqual(eight.mean((0, 0, 0, 0, 0, 1)), Fraction(5, 4))
        self.assertEqual(eight.mean([0] * 6), 0)
        self.assertEqual(eight.epc("0,0,0,0,0,1"), Fraction(245, 24))
        self.assertEqual(sum(eight.distribution((5, 0, 0, 0, 0, 0))), 1)
        self.assertEqual(eight.distribution((5, 0, 0, 0, 0, 0))[2], Fraction(11, 36))
        play = eight.play((0, 0, 0, 2, 0, 0), (2, 1))
        self.assertEqual(play, (((4, 2), (2, 1)), (1, 0, 0, 1, 0, 0)))
        self.assertEqual(eight.loss("0,0,0,2,0,0", [1, 2], "0,1,1,0,0,0"), Fraction(1, 9))
        self.assertEqual(Position.parse("0,0,0,2,0,1"), (0, 0, 0, 2, 0, 1))
        self.assertEqual(str(Position(0, 0, 0, 2, 0, 1)), "0,0,0,2,0,1")
        position = Position(1, 0, 0, 2, 0, 1)
        self.assertEqual((position.pips, position.checkers), (15, 4))

    def test_fractions_are_like_others(self) -> None:
        """They are in lowest terms, though no common divisor was looked for."""
        told = database(44).mean((1, 2, 3, 0, 2, 1))
        made = Fraction(told.numerator * 6, told.denominator * 6)
        self.assertIsInstance(told, Fraction)
        self.assertEqual(
            (told, hash(told), repr(told), float(told)),
            (made, hash(made), repr(made), float(made)),
        )
        self.assertEqual((told + 1, 2 * told, told < made + 1), (made + 1, 2 * made, True))
        for share in (
            told,
            *database(44).distribution("1,2,3,0,2,1"),
            database(44).epc("1,2,3,0,2,1"),
        ):
            lowest = Fraction(share.numerator, share.denominator)
            self.assertEqual(share.denominator, lowest.denominator)

    def test_lines(self) -> None:
        lines = ["rank 0,0,0,0,0,1", "loss 0,0,0,2,0,0 21 0,1,1,0,0,0", "mean 0,0,0,0,0,16"]
        lines += ["mean 0,0,1,0,0,1", "play 0,0,0,0,0,0 11", "loss 0,0,0,0,0,1 21 0,0,0,0,0,1"]
        lines += [
            "play 0,0,0,0,0,1 17",
            "mean",
            "dist 0,0,0",
            "nothing 1",
            " ",
            "mean 0,0,0,0,0,1 ",
        ]
        lines += [
            "mean 0,0,0,0,0,\N{DIGIT ONE}\N{COMBINING ENCLOSING KEYCAP}",
            "m" * 5000,
            "\0",
            "mean \u0661",
        ]
        for line, reply in zip(lines, replies(8, lines)):
            self.assertEqual(database(8).answer(line), reply, line)
        self.assertEqual(database(8).answer("mean 0,0,0,0,0,1"), "mean 5/4 epc 245/24 10.208")
        for line in (
            "",
            "mean 0,0,0,0,0,1\n",
            "mean 0,0,0,0,0,1\r",
            "mean 0,0,0,0,0,1\0",
            "\ud800",
            "mean ?",
        ):
            self.assertEqual(database(8).answer(line), "error bad-line", line)

    def test_rooms(self) -> None:
        """The longest list of results of 58 pips, and the longest reply: with the rooms that the
        header names, with one less, with exactly enough, and with one less than that."""
        here, at, line = database(58), (3, 3, 2, 2, 2, 3), "moves 2,2,2,3,3,3 11"
        calls: List[Tuple[str, int, Callable[[], Any]]] = [
            ("RESULTS", 108, lambda: here.moves(at, (1, 1))),
            ("REPLY", 5828, lambda: here.answer(line)),
        ]
        for name, enough, ask in calls:
            told = ask()
            self.assertEqual(len(told), enough)
            for room in (getattr(_library, name) - 1, enough):
                with mock.patch.object(_library, name, room):
                    self.assertEqual(ask(), told)
            with mock.patch.object(_library, name, enough - 1), self.assertRaises(
                Refused
            ) as refused:
                ask()
            self.assertEqual(refused.exception.status, 8)
        self.assertEqual([here.answer(line)], replies(58, [line]))
        self.assertEqual(len({choice.to for choice in here.moves(at, (1, 1))}), 108)

    def test_upgrades(self) -> None:
        old = database(8)
        content = old.upgrade()
        self.assertEqual(len(content), 7696)
        new = Database(content)
        self.assertEqual((old.version, new.version, new.bound), (1, 2, 8))
        for line in ("mean 0,0,0,0,0,1", "dist 5,0,0,0,0,0", "moves 0,0,0,2,0,0 21"):
            self.assertEqual(new.answer(line), old.answer(line))
        with self.assertRaises(Refused) as told:
            new.upgrade()
        self.assertEqual(told.exception.status, 9)

    def test_builds_what_the_program_builds(self) -> None:
        for bound, file in ((8, "eight"), (58, "large.db")):
            built = Database.build(bound)
            self.assertEqual(bytes(built), (FOLDER / file).read_bytes())
            self.assertEqual(built.bound, bound)


class WholeTables(Compared):
    def test_weights(self) -> None:
        """Floats by the weights are as near to the exact numbers as the page says, also where some
        words are nothing."""
        for bound in (58, 90):
            here = database(bound)
            whole = here.denominator
            for table in (here.means(words=True), here.distributions(words=True)):
                flat = table.cast("B").cast("Q").tolist()
                rows = [*zip(flat[::3], flat[1::3], flat[2::3])][::7]
                for row, exact in zip(rows, numbers(table)[::7]):
                    about = sum(map(mul, row, here.weights))
                    self.assertLessEqual(abs(about - exact / whole), 1e-15 * exact / whole)
            self.assertTrue(any(row[:2] == (0, 0) and row[2] for row in rows))


if __name__ == "__main__":
    unittest.main()
