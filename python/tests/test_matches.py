"""Matches as they are read and graded: a stored one in several spellings, what is refused of it,
and matches that GNU Backgammon plays against itself, whose boards are its own and whose losses are
those of the program.

BEAROFF_MATCHES names a folder that tests/callers/play_gnubg.py has filled; without it the test
lets GNU Backgammon play, and leaves these matches out where there is none.
"""

import base64
import json
import os
import pickle
import re
import subprocess
import sys
import tempfile
import time
import unittest
from fractions import Fraction
from functools import lru_cache
from pathlib import Path
from typing import Any, Callable, Dict, Iterator, List, Tuple
from urllib.parse import unquote

from bearoff import BadArgument, BadMatch, Database, Graded, Refused, grade, grading
from bearoff.matches import Match, MatchPlay, read_match

from .given import FILES, FOLDER, ROOT, database, replies, run_alone, run_command, text

STORED = ROOT / "python/tests/matches/short.mat"
SHORT = STORED.read_text("ascii")
SAVED = STORED.with_suffix(".sgf").read_text("ascii")
NAMES = ("long", "short", "three", "money", "cubeless")

# the bearoff plays of the stored match: the move, the player, the position, the roll and where it
# led to
WANTED = re.split(
    r"[|\n]",
    """\
15 1 2,3,3,3,3,1 51 1,3,3,3,2,1|16 1 1,3,3,3,2,1 63 1,3,2,3,2,0|17 1 1,3,2,3,2,0 41 0,3,2,2,2,0
18 0 0,2,1,1,5,3 63 0,2,0,1,5,2|18 1 0,3,2,2,2,0 63 0,3,1,2,1,0|19 0 0,2,0,1,5,2 51 1,1,0,1,4,2
19 1 0,3,1,2,1,0 32 0,2,0,2,1,0|20 0 1,1,0,1,4,2 42 1,0,0,0,4,2|20 1 0,2,0,2,1,0 22 0,0,0,1,1,0
21 0 1,0,0,0,4,2 32 1,0,0,0,3,2|21 1 0,0,0,1,1,0 21 0,1,0,1,0,0|22 0 1,0,0,0,3,2 53 1,0,1,0,2,1
22 1 0,1,0,1,0,0 32 1,0,0,0,0,0""",
)


@lru_cache(maxsize=None)
def played() -> Dict[str, Tuple[str, List[Dict[str, Any]], str]]:
    """The matches of GNU Backgammon with its own boards, or nothing where there is none."""
    with tempfile.TemporaryDirectory() as made:
        folder = os.environ.get("BEAROFF_MATCHES") or made
        if folder == made:
            script = str(ROOT / "tests/callers/play_gnubg.py")
            if subprocess.run([sys.executable, "-I", script, folder]).returncode == 3:
                return {}
        return {
            name: (
                Path(folder, f"{name}.mat").read_text("utf-8"),
                json.loads(Path(folder, f"{name}.json").read_text("utf-8")),
                Path(folder, f"{name}.sgf").read_text("utf-8"),
            )
            for name in NAMES
        }


def rows(graded: Graded) -> List[str]:
    return [
        f"{play.move} {play.player} {play.position} {play.dice[0]}{play.dice[1]} {play.to}"
        for play in graded.plays
    ]


def asked(graded: Graded) -> List[str]:
    """What the program is asked of each play."""
    return [
        f"loss {play.position} {play.dice[0]}{play.dice[1]} {play.to}" for play in graded.plays
    ]


def of_text(match: str, bound: int = 58) -> Graded:
    return grade(read_match(match), database(bound))


def changed(line: int, old: str, new: str) -> str:
    """The stored match with a change in one line, where `old` stands once."""
    lines = SHORT.split("\n")
    if lines[line - 1].count(old) != 1:
        raise AssertionError((lines[line - 1], old))
    lines[line - 1] = lines[line - 1].replace(old, new)
    return "\n".join(lines)


def rows_of_matches() -> Iterator[Tuple[str, str, str, str]]:
    """The rows of tests/matches.txt: of each the row, its text, its verdict and its words."""
    given = {"mat": SHORT, "sgf": SAVED, "head": SAVED.split("\n")[0], "text": ""}
    for row in (ROOT / "tests/matches.txt").read_text("ascii").splitlines():
        if row.startswith("#"):
            continue
        verdict, of, old, new, words = map(unquote, re.split(r" \| ?", row))
        name, _, number = of.partition(" ")
        lines, at = given[name].split("\n") if number else [given[name]], int(number or 1) - 1
        if old and lines[at].count(old) != 1:
            raise AssertionError(row)
        lines[at] = lines[at].replace(old, new) if old else lines[at] + new
        yield row, "\n".join(lines), verdict, words


def as_xg(match: str) -> str:
    """The same match as XG spells it: words for the bar and for off, moves that are alike once,
    moves of one checker joined, wider columns, and another head.
    """
    lines = [
        '; [Site "Somewhere"]',
        '; [Player 1 "A"]',
        '; [Variation "Backgammon"]',
        '; [CubeLimit "1024"]',
        "",
    ]
    for line in match.split("\n"):
        told = re.fullmatch(r"( *\d+\))(.{28})(.*)", line)
        if not told:
            lines.append(line.rstrip("\r"))
            continue
        halves = []
        for half in told[2], told[3]:
            dice, colon, moves = half.strip().partition(":")
            words: List[str] = []
            for move in moves.split():
                alike = words and words[-1].partition("(")[0] == spelt(move) and "*" not in move
                if alike:
                    times = int((re.search(r"\((\d)\)", words[-1]) or [0, 1])[1]) + 1
                    words[-1] = f"{spelt(move)}({times})"
                else:
                    words.append(spelt(move))
            halves.append(f"{dice}{colon} {' '.join(words)}".rstrip() if colon else dice)
        lines.append(f"{told[1]} {halves[0]:<38}{halves[1]}".rstrip())
    return "\ufeff" + "\r\n".join(lines).rstrip() + " and the match\r\n"


def spelt(move: str) -> str:
    return re.sub("/0$", "/off", re.sub("^25/", "bar/", move))


class Stored(unittest.TestCase):
    def test_what_it_has(self) -> None:
        match = read_match(SHORT)
        self.assertEqual(
            (match.length, match.names, match.games, len(match.plays)),
            (1, ("gnubg", "root"), 1, 43),
        )
        first = match.plays[0]
        self.assertEqual(
            (first.game, first.move, first.line, first.player, first.dice), (1, 1, 7, 1, (6, 4))
        )
        self.assertEqual((first.text, first.is_bearoff), ("24/18 18/14", False))
        self.assertEqual(
            [point for point in range(26) if first.before[point] != first.after[point]], [14, 24]
        )
        graded = grade(match, database(58))
        self.assertEqual(rows(graded), WANTED)
        self.assertEqual([graded.length, graded.games, graded.bound], [1, 1, 58])
        self.assertEqual([player.name for player in graded.players], ["gnubg", "root"])
        self.assertEqual([player.plays for player in graded.players], [5, 8])
        self.assertEqual([player.choices for player in graded.players], [5, 8])
        self.assertEqual([player.losing for player in graded.players], [1, 0])
        self.assertEqual([player.over_bound for player in graded.players], [1, 0])
        lost = [play for play in graded.plays if play.loss]
        self.assertEqual(
            [(play.move, play.text, play.best.text) for play in lost],
            [(19, "5/off 2/1", "5/off 5/4")],
        )

    def test_losses_are_those_of_the_program(self) -> None:
        for bound in (44, 58):
            graded = of_text(SHORT, bound)
            told = [Fraction(reply.split()[1]) for reply in replies(bound, asked(graded))]
            self.assertEqual([play.loss for play in graded.plays], told)
            self.assertEqual(
                [play.pips for play in graded.plays], [loss * 49 / 6 for loss in told]
            )
            for side, player in enumerate(graded.players):
                lost = sum(loss for play, loss in zip(graded.plays, told) if play.player == side)
                self.assertEqual((player.loss, player.pips), (lost, lost * Fraction(49, 6)))
                over = sum(row.split()[1] == str(side) for row in WANTED) - player.plays
                self.assertEqual(player.over_bound, over + (side == 0))

    def test_over_the_bound(self) -> None:
        """What is home and has more pips than the database is counted, and nothing else is left
        out.
        """
        for bound in (8, 44, 58):
            graded, turns = of_text(SHORT, bound), [
                play for play in read_match(SHORT).plays if play.is_bearoff
            ]
            for side in (0, 1):
                pips = [turn.position.pips for turn in turns if turn.player == side]
                self.assertEqual(
                    graded.players[side].over_bound, sum(count > bound for count in pips)
                )
                self.assertEqual(graded.players[side].plays, sum(count <= bound for count in pips))

    def test_other_spellings(self) -> None:
        wanted = of_text(SHORT)
        others = [
            as_xg(SHORT),
            SHORT.replace("\n", "\r\n"),
            SHORT.replace("/0", "/off"),
            SHORT.replace("/0", "/OFF"),
            SHORT.replace("3/0 3/0", "3/0(2)").replace("15/9 15/9", "15/9(2)"),
            SHORT.replace("24/18 18/14", "24/14").replace("4/2 2/0 2/0 2/0", "4/0 2/0(2)"),
            SHORT.replace("13/9 9/3", "13/9/3").replace("9/5 20/18", "20/18 9/5"),
            SHORT.replace("6/5 6/5", "6/5(2)").replace(": 24/21 13/11*", ": 13/11* 24/21"),
            SHORT.replace("11*", "11"),
            SHORT.replace("5/3 3/2", "3/2 5/3"),
            SHORT.rstrip("\n").rpartition("\n")[0],
        ]
        for other in others:
            graded = of_text(other)
            self.assertEqual(rows(graded), rows(wanted))
            self.assertEqual(
                [play.loss for play in graded.plays], [play.loss for play in wanted.plays]
            )
            self.assertEqual(graded.players, wanted.players)
        named = of_text(
            SHORT.replace("gnubg : 0", "A: 5  B : 0").replace(" root : 0", "J\u00fcrgen N. : 12")
        )
        self.assertEqual([player.name for player in named.players], ["A: 5  B", "J\u00fcrgen N."])

    def test_half_a_match(self) -> None:
        """What is left out is told, and which game has no end."""
        lines = SHORT.split("\n")
        half = "\n".join(lines[:24])
        two = (
            "\n".join([half, *lines[4:]])
            .replace("Game 1", "Game 2")
            .replace("Game 2", "Game 1", 1)
        )
        resigned = changed(28, "53: 5/0 6/3                 32: 2/0 4/1", "53: ")
        for match, counts, unfinished in (
            (SHORT, (13, 43, 29, 1, 0), ()),
            ("\n".join(lines[:28]), (13, 43, 29, 1, 0), (1,)),
            (half, (5, 35, 29, 1, 0), (1,)),
            (two, (18, 78, 58, 2, 0), (1,)),
            (resigned, (11, 42, 29, 1, 1), ()),
            (SAVED, (13, 43, 29, 1, 0), ()),
            (SAVED.replace("RE[B+1R]", ""), (13, 43, 29, 1, 0), (1,)),
        ):
            graded = of_text(match)
            over, outside = sum(it.over_bound for it in graded.players), graded.outside
            told = (len(graded.plays), graded.rolls, outside, over, graded.unplayed)
            self.assertEqual((told, graded.unfinished), (counts, unfinished))
            self.assertEqual(json.loads(graded.to_json())["unfinished_games"], [*unfinished])
            line = (
                "{} of {} rolls are graded. Left out: {} outside the bearoff, {} of more than 58"
            )
            self.assertIn(f"{line} pips, {{}} without a play.\n".format(*counts), graded.table())
            line = "Unfinished in this file, and graded up to there: game 1.\n"
            self.assertEqual(line in graded.table(), bool(unfinished))

    def test_what_is_saved(self) -> None:
        """The same match as GNU Backgammon saves it."""
        told, other = read_match(SHORT), read_match(SAVED)
        self.assertEqual(other[:3], told[:3])
        for one, two in zip(told.plays, other.plays):
            self.assertEqual(two, one._replace(line=two.line, text=two.text))
        self.assertEqual(of_text(SAVED).players, of_text(SHORT).players)
        lines = SAVED.split("\n")
        for play in other.plays:
            self.assertIn("WB"[play.player] + "[{}{}".format(*play.dice), lines[play.line - 1])
        twice = SAVED.rstrip() + SAVED.rstrip().replace("PW[gnubg]", "PW[gnu\\bg]")
        self.assertEqual((read_match(twice).games, len(read_match(twice).plays)), (2, 86))
        self.assertEqual(
            read_match("\ufeff\n " + SAVED).plays,
            tuple(play._replace(line=play.line + 1) for play in other.plays),
        )
        unplayed = SAVED.rstrip().rstrip(")") + ";PL[W]DI[54])\n"
        self.assertEqual(read_match(unplayed), other)

    def test_two_checkers_that_hit(self) -> None:
        begun = "\n".join(SHORT.split("\n")[:6])
        for hits in ("6/2* 6/2", "6/2*(2)", "6/2 6/2"):
            match = read_match(
                f"{begun}\n  1) 21: 24/23 13/11             44: {hits} 8/4(2)\n  2) 11:"
            )
            self.assertEqual((match.plays[1].after[2], match.plays[2].before[23:]), (2, (0, 1, 1)))

    def test_a_roll_without_a_play(self) -> None:
        """Where a player resigns behind a bearoff roll nothing was played; elsewhere that is
        refused.
        """
        resigned = changed(28, "53: 5/0 6/3                 32: 2/0 4/1", "53: ")
        self.assertEqual(rows(of_text(resigned)), rows(of_text(SHORT))[:-2])
        again = (
            resigned
            + "\n\n Game 2\n gnubg : 0                      root : 0\n  1) 21: 13/11 24/23\n"
        )
        self.assertEqual(rows(of_text(again)), rows(of_text(SHORT))[:-2])
        with self.assertRaises(BadMatch) as refused:
            of_text(changed(28, "5/0 6/3", "       "))
        self.assertEqual((refused.exception.reason, refused.exception.line), ("illegal", 28))

    def test_which_plays_are_of_the_bearoff(self) -> None:
        """A player is home and past the other one, who may stand anywhere before."""

        def board(**places: int) -> Tuple[int, ...]:
            return tuple(places.get(f"p{point}", 0) for point in range(26))

        for mine, other, is_bearoff in (
            (board(p6=2), board(p18=2), True),
            (board(p6=2), board(p19=1), False),
            (board(p6=2), board(p20=1), False),
            (board(p5=2), board(p19=1), True),
            (board(p5=2), board(p20=1), False),
            (board(p1=2), board(p24=1), False),
            (board(p1=2), board(p23=1), True),
            (board(p1=2), board(p25=1), False),
            (board(p1=2, p7=1), board(p1=1), False),
            (board(p1=2, p25=1), board(p1=1), False),
            (board(p1=2, p24=1), board(p1=1), False),
            (board(), board(p1=1), False),
            (board(p6=15), board(), True),
        ):
            play = MatchPlay(1, 1, 1, 0, (2, 1), "", mine, mine, other)
            self.assertEqual(play.is_bearoff, is_bearoff, (mine, other))


# the longest texts, of which each part costs memory, where there are some hundred megabytes of it
WITH_LITTLE_MEMORY = r"""
import resource
from bearoff.matches import BadMatch, read_match
resource.setrlimit(resource.RLIMIT_AS, (400 << 20,) * 2)
for part, rest in (("PW[", "\\" * 4_990_000), ("C", "[a]" * 3_330_000), ("C[", "\\]" * 3_330_000),
                   ("MI[length:5]PW[a]PB[b]", ";W[11];B[11]" * 832_000)):
    try:
        read_match("(;GM[6]" + part + rest + "])")
    except BadMatch as refused:
        print(refused.reason)
"""


class Refusals(unittest.TestCase):
    def refused(self, match: str, reason: str, line: int, what: str) -> None:
        with self.subTest(what=what, line=line), self.assertRaises(BadMatch) as refused:
            of_text(match)
        error = refused.exception
        self.assertEqual((error.reason, error.line), (reason, line), str(error))
        self.assertTrue(str(error).startswith(f"line {line}: ") and what in str(error), str(error))
        self.assertIsInstance(error, BadArgument)
        again = pickle.loads(pickle.dumps(error))
        self.assertEqual((str(again), vars(again)), (str(error), vars(error)))

    def test_rows(self) -> None:
        for row, match, verdict, words in rows_of_matches():
            if not verdict.startswith("read"):
                reason, line = verdict.split()
                self.refused(match, reason, int(line), words)
                continue
            told = read_match(match)
            plays = f"read {len(told.plays)} {sum(play.is_bearoff for play in told.plays)}"
            names = f"{told.length} {told.games} {' '.join(told.names)}"
            self.assertEqual((plays, names), (verdict, words), row)

    def test_no_play_of_the_roll(self) -> None:
        for line, old, new, what in (
            (25, "5/0 2/1", "5/0", "no play of 51 leads from 0,2,0,1,5,2 to 0,2,0,1,4,2"),
            (28, "2/0 4/1", "4/2", "no play of 32 leads from 0,1,0,1,0,0 to 0,2,0,0,0,0"),
            (28, "5/0 6/3", "Cannot Move", "no play of 53 leads from 1,0,0,0,3,2 to 1,0,0,0,3,2"),
        ):
            self.refused(changed(line, old, new), "illegal", line, what)

    def test_how_long_a_match_may_be(self) -> None:
        head = " 1 point match\n\n Game 1\n"
        named, most = f"{head} A : 0    B : 0\n", "a line has at most 1000 characters"
        long = SHORT.replace("gnubg : 0", "A" * 1000 + " : 0")
        for match, line, what in (
            (f"{head} A{' : 1  B' * 20000} x\n", 4, most),
            (f"{named}  1) {'x ' * 100000}\n", 5, most),
            (f"{named}  1) {'Doubles => ' * 10000}\n", 5, most),
            ("x" * 10**7, 1, most),
            ("x" * (10**7 + 1), 1, "a match has at most 10000000 characters"),
            (" " * (10**7 + 1), 1, "a match has at most 10000000 characters"),
            (long, 6, most),
            (
                SAVED.replace("PW[gnubg]", f"PW[{'A' * 1001}]"),
                1,
                "a name or a rule has at most 1000 characters",
            ),
            (" 5 point match\n" + "\n" * 500_000, 500_001, "at most 500000 lines"),
            (f"({';' * 500_001})", 1, "at most 500000 nodes"),
            (f"(;C{'[a]' * 500_001})", 1, "at most 500000 nodes"),
            (SAVED.replace("PW[", f"RU[{chr(58) * 1001}]PW["), 1, "a name or a rule has at most"),
            (
                named + "".join(f"{move:3}) 11: 11:\n" for move in range(1, 100_002)),
                100_005,
                "at most 200000 rolls",
            ),
        ):
            self.refused(match, "malformed", line, what)
        for match in (
            SHORT.replace("\n", f"\n; {'x' * 10**5}\n", 1),
            SAVED.replace("DT[", f"C[{'x' * 10**6}]DT["),
            SAVED.replace("DT[", f"C[{chr(92)}]{'x' * 10**6}]DT["),
            SAVED.replace("PW[gnubg]", f"PW[{'A' * 1000}]"),
            # behind two backslashes a bracket ends what stands there, and behind three it doesn't
            SAVED.replace("PW[", f"C[{chr(92) * 2}]PW["),
            SAVED.replace("PW[", f"C[{chr(92) * 3}]MI[]PW["),
        ):
            self.assertEqual(len(read_match(match).plays), 43)
        told = run_alone(WITH_LITTLE_MEMORY)
        self.assertEqual(told.stdout.split(), ["malformed"] * 4, told.stdout)
        with tempfile.TemporaryDirectory() as folder:
            file = Path(folder, "long.mat")
            file.write_bytes(b"\xc3\xa9" * (5 * 10**6) + b" ")
            for path in (str(file), "/dev/zero"):
                with self.assertRaises(BadMatch) as refused:
                    grade(path, database(8))
                self.assertEqual(
                    str(refused.exception),
                    "line 1: the file of a match has at most 10000000 bytes",
                )

    def test_it_takes_as_long_as_the_text_is(self) -> None:
        """Ten times the text takes ten times as long, not a hundred times, whatever it says."""

        def games(size: int) -> str:
            head, body = SHORT.split(" Game 1\n")
            parts = [f" Game {game}\n{body}\n" for game in range(1, size // len(body) + 2)]
            return head + "".join(parts)

        def lines(word: str) -> Callable[[int], str]:
            line = word * (900 // len(word))
            return lambda size: f"{SHORT.rstrip()}\n" + f"; {line}\n" * (size // 900)

        named = SHORT.split("\n")[:6]
        asked: Dict[str, Callable[[int], str]] = {
            "games": games,
            "saved": lambda size: SAVED * (size // len(SAVED) + 1),
            "names": lambda size: "\n".join([*named[:5], " A" + " : 1  B" * (size // 7) + " x"]),
            "words": lambda size: "\n".join([*named, "  1) " + "x " * (size // 2)]),
            "doubles": lambda size: "\n".join([*named, "  1) " + "Doubles => " * (size // 11)]),
            "comments": lines('[Variation "'),
            "values": lambda size: SAVED.rstrip()[:-1] + "C" + "[x]\n" * (size // 4) + ")",
            "brackets": lambda size: SAVED.rstrip()[:-1] + "C[" + "\\]" * (size // 2),
            "capitals": lambda size: SAVED.rstrip()[:-1] + "A" * size,
        }
        for name, make in asked.items():
            took = []
            for size in (10**5, 10**6):
                match, start = make(size), time.process_time()
                try:
                    read_match(match)
                except BadMatch:
                    pass
                took.append(time.process_time() - start)
            with self.subTest(text=name):
                self.assertLess(took[1], 30 * max(took[0], 0.02), took)

    def test_any_text(self) -> None:
        """Whatever stands in a line, the match is read or refused by that line or a later one."""
        lines = SHORT.split("\n")
        for number, line in enumerate(lines, 1):
            for place in range(number % 5, len(line), 5):
                for letter in "x0 \u00e9":
                    other = lines[:]
                    other[number - 1] = line[:place] + letter + line[place + 1 :]
                    try:
                        read_match("\n".join(other))
                    except BadMatch as error:
                        self.assertGreaterEqual(error.line, number)


def sides_of(position: str) -> Tuple[List[int], List[int]]:
    """The player on roll and the other one, by a Position ID."""
    bits = int.from_bytes(base64.b64decode(f"{position}=="), "little")
    counts = [len(ones) for ones in f"{bits:080b}"[::-1].split("0")]
    return counts[25:50], counts[:25]


@unittest.skipUnless(played(), "GNU Backgammon is not installed, so no match of it is graded")
class Played(unittest.TestCase):
    def test_the_boards_are_its_own(self) -> None:
        for name, (match, turns, _) in played().items():
            told = read_match(match)
            self.assertEqual(len(told.plays), len(turns))
            for play, turn in zip(told.plays, turns):
                with self.subTest(match=name, line=play.line):
                    mine, other = sides_of(turn["board"])
                    self.assertEqual(
                        ("XO"[play.player], list(play.dice)), (turn["player"], turn["dice"])
                    )
                    sides = list(play.before[1:]), list(play.other[1:])
                    self.assertEqual((play.game, *sides), (turn["game"], mine, other))

    def test_losses_are_those_of_the_program(self) -> None:
        count = lost = 0
        for name, (match, _, _) in played().items():
            for bound in (44, 58):
                graded = of_text(match, bound)
                told = [Fraction(reply.split()[1]) for reply in replies(bound, asked(graded))]
                self.assertEqual([play.loss for play in graded.plays], told, name)
                best = [
                    f"play {play.position} {play.dice[0]}{play.dice[1]}" for play in graded.plays
                ]
                written = [f"play {play.best.text} to {play.best.to}" for play in graded.plays]
                self.assertEqual(written, replies(bound, best), name)
                for side in (0, 1):
                    mine = [loss for play, loss in zip(graded.plays, told) if play.player == side]
                    player = graded.players[side]
                    self.assertEqual(
                        (player.plays, player.losing), (len(mine), sum(loss > 0 for loss in mine))
                    )
                    self.assertEqual(player.loss, sum(mine))
                count, lost = count + len(told), lost + sum(loss > 0 for loss in told)
        self.assertGreater(count, 100)
        self.assertGreater(lost, 3)

    def test_what_is_saved_is_what_is_exported(self) -> None:
        self.assertIn("RU[NoCube:Crawford]", played()["cubeless"][2])
        for name, (match, _, saved) in played().items():
            told, other = read_match(match), read_match(saved)
            self.assertEqual((other[:3], len(other.plays)), (told[:3], len(told.plays)), name)
            for one, two in zip(told.plays, other.plays):
                self.assertEqual(two, one._replace(line=two.line, text=two.text), (name, one.line))
            self.assertEqual(of_text(saved).players, of_text(match).players)

    def test_every_bearoff_is_graded(self) -> None:
        """The boards of GNU Backgammon say which plays are of the bearoff."""
        for name, (match, turns, _) in played().items():
            graded, plays, wanted = of_text(match), read_match(match).plays, []
            for number, turn in enumerate(turns):
                mine, other = sides_of(turn["board"])
                last = number + 1 == len(turns) or turns[number + 1]["game"] != turn["game"]
                high = max(point for point in range(25) if mine[point])
                # the points of the other player from this one's side; the bar is behind them
                is_past = (
                    all(23 - point > high for point in range(24) if other[point]) and not other[24]
                )
                pips = sum((point + 1) * count for point, count in enumerate(mine))
                if high < 6 and is_past and pips <= 58 and not (last and not plays[number].text):
                    wanted.append(text(mine[:6]))
            self.assertEqual([str(play.position) for play in graded.plays], wanted, name)


class Command(unittest.TestCase):
    def test_a_table(self) -> None:
        run = run_command("grade", str(STORED), "--database", str(FOLDER / FILES[58]))
        graded = of_text(SHORT)
        self.assertEqual((run.returncode, run.stdout, run.stderr), (0, graded.table(), ""))
        lines = run.stdout.split("\n")
        self.assertEqual(lines[0].split()[:5], ["game", "move", "player", "position", "roll"])
        self.assertEqual(
            lines[6].split(),
            "1 19 gnubg 0,2,0,1,5,2 51 5/off 2/1 0.0249 0.203 5/off 5/4".split(),
        )
        row = "1 19 root 0,3,1,2,1,0 32 3/off 2/off 0.0000 0.000"
        self.assertEqual(lines[7].split(), row.split())
        self.assertEqual(lines[-6].split(), "gnubg 5 5 1 0.0249 0.203 1".split())
        self.assertEqual(lines[-5].split(), "root 8 8 0 0.0000 0.000 0".split())
        self.assertEqual(lines[-2], grading.NOTE)
        self.assertIn("not in equity", grading.NOTE)
        whole = run_command("grade", str(STORED))
        self.assertEqual((whole.returncode, whole.stderr), (0, ""))
        with Database.build(90) as board:
            self.assertEqual(whole.stdout, grade(STORED, board).table())
        self.assertEqual(len({len(line) for line in lines[:14] if line.endswith("0.000")}), 1)

    def test_the_lines_of_the_page(self) -> None:
        page = (ROOT / "docs/embedding.md").read_text("utf-8")
        [block] = re.findall(r"```text\n(game  move .*?)```", page, re.DOTALL)
        told = of_text(SHORT).table().split("\n")
        lines = block.rstrip("\n").split("\n")
        self.assertEqual(len(lines), 9)
        places = [told.index(line) for line in lines if line]
        self.assertEqual(places, sorted(places))

    def test_names_that_a_terminal_would_obey(self) -> None:
        """What a file has reaches the terminal as letters alone, by a table and by a refusal."""
        hostile = "g\x1b[2J\x07\x7f\x9b31m\u202e\u2066\u200bu"
        match = SHORT.replace("gnubg", hostile)
        saved = SAVED.replace("PW[gnubg]", f"PW[{hostile}\n\t]")
        short = SHORT.replace("gnubg", "A" * 300)
        shown = "g?[2J???31m???u"
        for other, name in ((match, shown), (saved, f"{shown}  "), (short, "A" * 100 + "...")):
            graded = of_text(other)
            table = graded.table()
            self.assertTrue(all(line.isprintable() for line in table.split("\n")), table)
            wanted = of_text(SHORT).table()
            self.assertEqual(
                re.sub(" +", " ", table.replace(name, "gnubg")), re.sub(" +", " ", wanted)
            )
            [one, _] = json.loads(graded.to_json())["players"]
            self.assertEqual(one["name"], graded.players[0].name)
        self.assertIn(hostile, of_text(match).players[0].name)
        with tempfile.TemporaryDirectory() as folder:
            for number, text in enumerate((match, saved, match.replace("5/0 2/1", "5/0"))):
                file = Path(folder, f"{number}\x1b[31m\u202e.mat")
                file.write_text(text, "utf-8")
                run = run_command("grade", str(file), "--database", str(FOLDER / FILES[58]))
                said = run.stdout + run.stderr
                self.assertTrue(all(line.isprintable() for line in said.split("\n")), said)
                self.assertEqual(run.returncode, 0 if number < 2 else 3)
                run = run_command("grade", f"{file}.none\x1b")
                self.assertTrue(run.stderr.rstrip("\n").isprintable(), run.stderr)
                run = run_command("grade", str(STORED), "--database", str(file))
                self.assertTrue(run.stderr.rstrip("\n").isprintable(), run.stderr)

    def test_json(self) -> None:
        run = run_command("grade", "--json", str(STORED), "--database", str(FOLDER / FILES[58]))
        graded, told = of_text(SHORT), json.loads(run.stdout)
        self.assertEqual((run.returncode, run.stderr), (0, ""))
        self.assertEqual(
            [told["match_length"], told["games"], told["bound"], told["note"]],
            [1, 1, 58, grading.NOTE],
        )
        self.assertEqual(len(told["plays"]), len(graded.plays))
        for row, play in zip(told["plays"], graded.plays):
            names = ("game", "move", "line", "player", "choices")
            wanted: Dict[str, Any] = {name: getattr(play, name) for name in names}
            wanted |= {"position": [*play.position], "roll": [*play.dice], "to": [*play.to]}
            wanted |= {"play": play.text, "best": play.best.text, "best_to": [*play.best.to]}
            self.assertEqual({**row, **wanted}, row)
            self.compare_losses(row, play.loss)
        for row, player in zip(told["players"], graded.players):
            wanted = {name: getattr(player, name) for name in ("name", "plays", "losing")}
            wanted |= {"with_a_choice": player.choices, "over_the_bound": player.over_bound}
            self.assertEqual({**row, **wanted}, row)
            self.compare_losses(row, player.loss)

    def compare_losses(self, row: Dict[str, Any], loss: Fraction) -> None:
        self.assertEqual(row["rolls_lost"], f"{loss.numerator}/{loss.denominator}")
        self.assertEqual(row["rolls_lost_float"], float(loss))
        self.assertEqual(row["pips_lost_float"], float(loss * 49 / 6))

    def test_what_goes_wrong(self) -> None:
        race, large = str(FOLDER / FILES[44]), str(FOLDER / FILES[58])
        with tempfile.TemporaryDirectory() as folder:
            bad, empty = Path(folder, "bad.mat"), Path(folder, "empty.db")
            bad.write_text(changed(25, "5/0 2/1", "5/0"), "ascii")
            empty.write_bytes(b"")
            what = "line 25: no play of 51 leads from 0,2,0,1,5,2 to 0,2,0,1,4,2: 5/0"
            for words, status, line in (
                ((str(bad), large), 3, f"bearoff: {bad}: {what}"),
                (
                    (str(STORED), str(empty)),
                    3,
                    f"bearoff: {empty}: not a valid database: header too-",
                ),
                (
                    (str(STORED), f"{folder}/none"),
                    1,
                    "bearoff: [Errno 2] No such file or directory",
                ),
                ((f"{folder}/none", race), 1, "bearoff: [Errno 2] No such file or directory"),
                ((folder, race), 1, "bearoff: [Errno 21] Is a directory"),
            ):
                run = run_command("grade", words[0], "--database", words[1])
                self.assertEqual((run.returncode, run.stdout), (status, ""), run.stderr)
                self.assertTrue(run.stderr.startswith(line), run.stderr)
                self.assertNotIn("Traceback", run.stderr)
            for asked in ((), ("grade",), ("grade", str(STORED), race)):
                self.assertEqual(run_command(*asked).returncode, 2)
            run = run_command("grade", str(STORED), BEAROFF_LIBRARY=str(empty))
            self.assertEqual((run.returncode, run.stdout), (1, ""))
            self.assertIn("is no library", run.stderr)
        with open("/dev/full", "w") as full:
            run = run_command("grade", str(STORED), stdout=full)
        wanted = (1, "bearoff: [Errno 28] No space left on device\n")
        self.assertEqual((run.returncode, run.stderr), wanted)

    def test_names_that_are_of_another_code(self) -> None:
        with tempfile.TemporaryDirectory() as folder:
            for code in ("utf-8", "latin-1"):
                file = Path(folder, code)
                file.write_text(SHORT.replace("gnubg", "J\u00fcrg "), code)
                self.assertEqual(grade(file, database(8)).players[0].name, "J\u00fcrg")
                self.assertEqual(
                    grade(str(file), database(8)),
                    grade(read_match(file.read_text(code)), database(8)),
                )
        self.assertRaises(FileNotFoundError, grade, "nothing.mat", database(8))

    def test_a_closed_database(self) -> None:
        here = Database.open(FOLDER / FILES[8])
        here.close()
        with self.assertRaises(Refused) as refused:
            grade(STORED, here)
        self.assertEqual(refused.exception.status, 1)
        self.assertIsInstance(read_match(SHORT), Match)


if __name__ == "__main__":
    unittest.main()
