"""Positions as players have them: what is read, what is refused, and what GNU Backgammon says of
the same texts.

BEAROFF_GNUBG names a file that tests/callers/ask_gnubg.py has written; without it the test asks
GNU Backgammon itself, and leaves the comparison out where there is none.
"""

import doctest
import json
import os
import pickle
import random
import re
import subprocess
import sys
import tempfile
import unittest
from functools import lru_cache
from pathlib import Path
from typing import Any, Dict, List, Optional, Tuple
from urllib.parse import unquote

from bearoff import BadArgument, BearoffError, Database, NotARace, Position, Refused, notation
from bearoff.notation import REASONS, OnRoll, Race, from_gnubg, from_xgid, read, to_gnubg, to_xgid

ROOT = Path(__file__).parents[2]
TEXTS = json.loads((ROOT / "tests/callers/notation_texts.json").read_text("utf-8"))
SIX = Position(0, 0, 0, 0, 0, 1)
NONE = Position(0, 0, 0, 0, 0, 0)

Said = Dict[str, Any]


@lru_cache(maxsize=None)
def gnubg() -> Dict[str, List[Said]]:
    """What GNU Backgammon says, or nothing where there is none."""
    named = os.environ.get("BEAROFF_GNUBG")
    with tempfile.TemporaryDirectory() as folder:
        file = named or os.path.join(folder, "said")
        if not named:
            run = subprocess.run(
                [sys.executable, "-I", str(ROOT / "tests/callers/ask_gnubg.py"), file]
            )
            if run.returncode == 3:
                return {}
        told: Dict[str, List[Said]] = json.loads(Path(file).read_text("ascii"))
    return told


def race_of(
    mine: List[int],
    theirs: Optional[List[int]],
    dice: Optional[List[int]],
    on_roll: Optional[OnRoll],
) -> Race:
    other = None if theirs is None else Position._make(theirs)
    return Race(Position._make(mine), other, None if dice is None else (dice[0], dice[1]), on_roll)


def home(counts: Position) -> List[int]:
    return [*counts, *[0] * 19]


def said_of(race: Race) -> Tuple[List[int], List[int], List[int]]:
    """What GNU Backgammon would say of a race: both sides, and the dice."""
    return home(race.mine), home(race.theirs or NONE), sorted(race.dice or (0, 0))


def saying(said: Said) -> Tuple[List[int], List[int], List[int]]:
    return said["mine"], said["theirs"], sorted(said["dice"])


class Texts(unittest.TestCase):
    def test_read(self) -> None:
        self.assertGreater(len(TEXTS["read"]), 40)
        for text, *told in TEXTS["read"]:
            with self.subTest(text=text):
                race = race_of(*told)
                self.assertEqual(read(text), race)
                self.assertEqual([type(race.mine), type(read(text).mine)], [Position, Position])
                if text.count(":") > 3:
                    self.assertEqual(from_xgid(text), race)
                elif race.theirs:
                    self.assertEqual(from_gnubg(text), race)

    def test_refused(self) -> None:
        self.assertGreater(len(TEXTS["refused"]), 60)
        self.assertEqual({reason for _, reason, _ in TEXTS["refused"]}, set(REASONS))
        for text, reason, line in TEXTS["refused"]:
            with self.subTest(text=text), self.assertRaises(NotARace) as refused:
                read(text)
            error = refused.exception
            self.assertEqual((error.reason, str(error), error.line), (reason, line, line))
            self.assertEqual(pickle.loads(pickle.dumps(error)).args, error.args)
            self.assertIsInstance(error, BadArgument)

    def test_the_texts_of_every_language(self) -> None:
        rows = (ROOT / "tests/texts.txt").read_text("ascii").splitlines()
        for row in rows:
            if row.startswith("#"):
                continue
            _, verdict, *coded = row.split(" ", 2)
            asked = unquote(*coded or [""])
            try:
                Database.position_info(asked)
                told = str(read(asked).mine)
            except (NotARace, Refused) as refused:
                is_many = isinstance(refused, Refused) or refused.reason == "too-many"
                told = "too-many" if is_many else "bad-text"
            self.assertEqual(told, verdict, asked)
        self.assertGreater(len(rows), 40)

    def test_one_notation(self) -> None:
        """The reader of one notation doesn't take the other one."""
        for text in ("xwQAgHY8AAAAAA", "xwQAgHY8AAAAAA:cAkFAAAAAAAE", "1,2,3,0,0,4", ""):
            with self.assertRaises(NotARace):
                from_xgid(text)
        for text in ("XGID=-ABC--D------------a-b--c-:0:0:1:21:0:0:0:0:10", "1,2,3,0,0,4", ""):
            with self.assertRaises(NotARace):
                from_gnubg(text)

    def test_no_texts(self) -> None:
        for thing in (None, 1, b"1,2,3,0,0,4", [1, 2, 3, 0, 0, 4], SIX, object()):
            for call in (read, from_xgid, from_gnubg):
                with self.assertRaises(BearoffError) as refused:
                    call(thing)  # type: ignore[arg-type]
                self.assertEqual(getattr(refused.exception, "reason", None), "malformed")

    def test_any_text(self) -> None:
        """Whatever the text is, it is read or refused."""
        chance = random.Random(2)
        letters = "XGID=:-ABOPabop0123456789+/, \n[]()\u00e9\U0001f3b2\ud800\0"
        for _ in range(3000):
            text = "".join(chance.choices(letters, k=chance.randrange(60)))
            for call in (read, from_xgid, from_gnubg):
                try:
                    call(text)
                except NotARace as refused:
                    self.assertTrue(str(refused).isprintable())
        many, space = 10**6, " " * 10**6
        repeated = [part * many for part in (":", "1,", "A", "9")]
        for long in (*repeated, f"{space}x{space}y", f"1{space}x"):
            with self.assertRaises(NotARace) as error:
                read(long)
            self.assertLess(len(str(error.exception)), 300)

    def test_how_long_a_text_may_be(self) -> None:
        """Nothing is done with a text that is longer, however long it is."""
        counts, xgid = "0,0,0,0,0,1", "XGID=-ABC--D------------a-b--c-:0:0:1:21:0:0:0:0:10"
        for text in (counts, xgid, "xwQAgHY8AAAAAA:cAkFAAAAAAAE"):
            self.assertEqual(read(text.ljust(1000)), read(text))
            for long in (text.ljust(1001), text.rjust(10**7), text * 10**6):
                for call in (read, from_xgid, from_gnubg, Position.parse):
                    with self.assertRaises(BadArgument) as refused:
                        call(long)
                    self.assertLess(len(str(refused.exception)), 300)
                with self.assertRaises(NotARace) as error:
                    read(long)
                what = "a text of more than 1000 characters is no position"
                self.assertTrue(str(error.exception).startswith(what), str(error.exception))
                self.assertEqual(error.exception.reason, "malformed")
        self.assertEqual(Position.parse(counts.ljust(1000)), SIX)

    def test_without_library(self) -> None:
        """A race is written, and none is read."""
        race = "Race((1, 2, 3, 0, 0, 4), '3,0,0,2,0,1', (2, 1), 'top')"
        script = f"from bearoff.notation import *; xgid = to_xgid({race}); print(xgid); read(xgid)"
        run = subprocess.run(
            [sys.executable, "-c", script],
            cwd=ROOT / "python",
            env={**os.environ, "BEAROFF_LIBRARY": "/nowhere"},
            stdout=subprocess.PIPE,
            stderr=subprocess.PIPE,
            encoding="ascii",
        )
        self.assertEqual(run.stdout, "XGID=-C--B-A------------d--cba-:0:0:-1:21:0:0:0:0:10\n")
        self.assertIn("NoLibrary: /nowhere is no library", run.stderr)


class Examples(unittest.TestCase):
    def test_page(self) -> None:
        """The example of docs/embedding.md, and that of the module, print what stands there."""
        page = (ROOT / "docs/embedding.md").read_text("utf-8")
        for text in (*re.findall(r"(?ms)^```pycon\n(.*?)^```$", page), notation.__doc__ or ""):
            test = doctest.DocTestParser().get_doctest(text, {}, "example", None, None)
            self.assertGreater(len(test.examples), 1)
            self.assertEqual(doctest.DocTestRunner().run(test).failed, 0)


class Written(unittest.TestCase):
    def test_ten_thousand(self) -> None:
        """What is written is read as the same, from each notation, whoever is on roll."""
        chance = random.Random(3)

        def side() -> Position:
            counts = [0] * 6
            for _ in range(chance.randrange(16)):
                counts[chance.randrange(6)] += 1
            return Position._make(counts)

        for _ in range(10000):
            low, high = sorted((chance.randrange(1, 7), chance.randrange(1, 7)))
            dice = chance.choice([None, (high, low)])
            on_roll: OnRoll = "bottom" if chance.randrange(2) else "top"
            race = Race(side(), side(), dice, on_roll)
            xgid, ids = to_xgid(race), to_gnubg(race)
            self.assertEqual([read(xgid), read(ids)], [race] * 2)
            self.assertEqual(to_xgid(race._replace(dice=(low, high) if dice else None)), xgid)
            self.assertEqual(read(ids[:14]), Race(race.mine, race.theirs))
            self.assertEqual(read(str(race.mine)), Race(race.mine))

    def test_told_in_part(self) -> None:
        """Who is on roll stands at the bottom where that isn't told."""
        race = Race(SIX, NONE, (1, 2))
        self.assertEqual(to_xgid(race), "XGID=------A-------------------:0:0:1:21:0:0:0:0:10")
        self.assertEqual(from_gnubg(to_gnubg(race)), Race(SIX, NONE, (2, 1), "bottom"))
        self.assertEqual(to_gnubg(Race(SIX, NONE)), "AAAAQAAAAAAAAA")

    def test_refused(self) -> None:
        many = Position(15, 0, 0, 0, 0, 1)
        rows: List[Tuple[Any, str]] = [
            (Race(SIX), "other-side"),
            (Race(many, SIX), "too-many"),
            (Race(SIX, many), "too-many"),
            (Race(SIX, SIX, (0, 0)), "malformed"),
            (Race(SIX, SIX, (7, 1)), "malformed"),
            (Race(SIX, SIX, (1, 2, 3)), "malformed"),  # type: ignore[arg-type]
            (Race(SIX, SIX, None, "left"), "malformed"),  # type: ignore[arg-type]
            (Race((0, 0, 0, 1), SIX), ""),  # type: ignore[arg-type]
            (Race(SIX, "none"), "malformed"),  # type: ignore[arg-type]
        ]
        for call in (to_xgid, to_gnubg):
            for race, reason in rows:
                with self.subTest(race=race), self.assertRaises(BadArgument) as refused:
                    call(race)
                self.assertEqual(getattr(refused.exception, "reason", ""), reason)


@unittest.skipUnless(gnubg(), "GNU Backgammon is not installed, so nothing is compared with it")
class AgainstGnubg(unittest.TestCase):
    def test_races(self) -> None:
        """A thousand random pairs, each with both on roll, with and without dice, written and
        read."""
        races = gnubg()["races"]
        self.assertEqual(len(races), 4000)
        kinds = [(race["bottom"], race["dice"] != [0, 0]) for race in races]
        for kind in ((True, True), (True, False), (False, True), (False, False)):
            self.assertEqual(kinds.count(kind), 1000)
        for said in races:
            dice = said["dice"] if said["dice"] != [0, 0] else None
            race = race_of(
                said["mine"], said["theirs"], dice, "bottom" if said["bottom"] else "top"
            )
            ids = f"{said['position']}:{said['match']}"
            # what GNU Backgammon says that it was told is what it was told
            self.assertEqual(
                [saying(said["says"]), saying(said["xgid_says"])], [said_of(race)] * 2
            )
            self.assertEqual(said["says"]["turn"], int(said["bottom"]))
            self.assertEqual([from_gnubg(ids), from_xgid(said["xgid"])], [race] * 2)
            self.assertEqual(from_gnubg(said["position"]), Race(race.mine, race.theirs))
            self.assertEqual([to_gnubg(race), to_xgid(race)], [ids, said["xgid"]])
            self.assertEqual(to_gnubg(Race(race.mine, race.theirs)), said["position"])

    def test_forms(self) -> None:
        for said in gnubg()["forms"]:
            with self.subTest(text=said["text"]):
                race = read(said["text"])
                self.assertEqual(saying(said["says"]), said_of(race))
                self.assertEqual(race.on_roll, on_roll_of(said) or race.on_roll)

    def test_changed(self) -> None:
        """One character is changed, and not the game: the text is refused, or read as GNU
        Backgammon reads it."""
        answered = 0
        for said in gnubg()["changed"]:
            try:
                race = read(said["text"])
            except NotARace:
                continue
            answered += 1
            with self.subTest(text=said["text"]):
                self.assertEqual(saying(said["says"]), said_of(race))
                self.assertEqual(race.on_roll, on_roll_of(said) or race.on_roll)
        self.assertGreater(answered, 300)
        self.assertGreater(len(gnubg()["changed"]) - answered, 2000)


def on_roll_of(said: Said) -> Optional[str]:
    """Who is on roll by GNU Backgammon, which puts that player at the bottom where it reads an
    XGID, and tells who has to answer where something is offered.
    """
    if said["text"].count(":") > 2 or ":" not in said["text"] or said["says"]["offered"]:
        return None
    return "bottom" if said["says"]["turn"] else "top"


if __name__ == "__main__":
    unittest.main()
