"""One-sided bearoff files of GNU Backgammon: how far those that are written here and its own are
from the exact numbers, and what that program itself reads out of one that is written here. What
needs the program is left out where there is none.
"""

import random
import re
import shutil
import subprocess
import tempfile
import unittest
from functools import lru_cache
from pathlib import Path
from typing import List

from bearoff import BadArgument, Database, Race, gnubg, notation

from .given import STEP, database

OWN = Path("/usr/share/gnubg/gnubg_os0.bd")
PLACES = "/usr/games:/usr/local/bin:/usr/bin"
DUMPED, ASKED = 200, 100

# what GNU Backgammon runs: it prints the chance that the player on roll wins each race
ASK = """
import gnubg
for line in ("set player 0 human", "set player 1 human", "set automatic game off", "new session"):
    gnubg.command(line)
for kind in ("chequerplay", "cubedecision"):
    gnubg.command("set evaluation " + kind + " evaluation plies 0")
for xgid in {races!r}:
    gnubg.command("set xgid " + xgid)
    print("CHANCE", gnubg.evaluate()[0])
"""


@lru_cache(maxsize=None)
def board() -> Database:
    return Database.build(90)


@lru_cache(maxsize=None)
def content() -> bytes:
    return gnubg.to_file(board())


class Files(unittest.TestCase):
    def test_the_mean_is_kept(self) -> None:
        """The best that 16 bits can say of a mean is within half of 1/65535."""
        found = gnubg.compare(content(), board())
        self.assertEqual(found.positions, 54264)
        self.assertLess(found.greatest, 0.000008)
        self.assertLess(found.average, found.greatest)
        # a share is off by its rounding, and by what one more step takes
        self.assertLess(found.share, 2.5 / 65535)
        self.assertEqual(gnubg.compare(content(), database(44)).positions, 26314)

    def test_its_own_file(self) -> None:
        if not OWN.exists():
            self.skipTest("there is no GNU Backgammon here")
        found = gnubg.compare(OWN.read_bytes(), board())
        self.assertAlmostEqual(float(found.greatest), 0.00019688, 8)

    def test_shares_that_add_up(self) -> None:
        read = gnubg._Reader(content())
        for position in [*board()][::STEP]:
            shares = read.shares(gnubg._place(position))
            self.assertEqual((len(shares), sum(shares)), (32, 65535), position)
            self.assertEqual(shares[0] > 0, position.checkers == 0, position)
        places = {gnubg._place(position) for position in board()}
        self.assertEqual(places, {*range(54264)})

    def test_what_is_no_such_file(self) -> None:
        for wrong in (
            b"",
            b"gnubg",
            content()[:-1],
            content()[:39],
            content()[:5000],
            bytes(10**6),
        ):
            with self.assertRaises(BadArgument):
                gnubg.compare(wrong, board())
        with self.assertRaisesRegex(BadArgument, "a board file of 90 pips is needed"):
            gnubg.to_file(database(58))


class Program(unittest.TestCase):
    def setUp(self) -> None:
        place = tempfile.TemporaryDirectory()
        self.addCleanup(place.cleanup)
        self.folder = Path(place.name)
        (self.folder / "gnubg_os0.bd").write_bytes(content())

    def need(self, name: str) -> str:
        found = shutil.which(name, path=PLACES)
        if not found or not OWN.exists():
            self.skipTest("there is no GNU Backgammon here")
        return found

    def run_it(self, *words: str) -> str:
        told = subprocess.run(
            words,
            cwd=self.folder,
            env={"HOME": str(self.folder), "LC_ALL": "C"},
            stdin=subprocess.DEVNULL,
            stdout=subprocess.PIPE,
            stderr=subprocess.STDOUT,
            encoding="utf-8",
            errors="replace",
        )
        self.assertEqual(told.returncode, 0, told.stdout)
        return told.stdout

    def test_its_dump(self) -> None:
        dump, read = self.need("bearoffdump"), gnubg._Reader(content())
        chance = random.Random(7)
        for position in chance.sample([*board()], DUMPED):
            place = gnubg._place(position)
            told = self.run_it(dump, "-n", str(place), "gnubg_os0.bd")
            self.assertRegex(told, r"up to 15 chequers on 6 points \(54264 positions\)")
            rows = re.findall(r"^ +(\d+)\t *([0-9.]+)\t *([0-9.]+)", told, re.MULTILINE)
            shares = [0.0] * 32
            for rolls, _, share in rows:
                shares[int(rolls)] = float(share)
            for ours, theirs in zip(read.shares(place), shares):
                self.assertLess(abs(100 * ours / 65535 - theirs), 0.0011, position)
            [mean] = re.findall(r"^Mean\t *[0-9.]+\t *([0-9.]+)", told, re.MULTILINE)
            self.assertLess(abs(float(mean) - board().mean(position)), 0.00051, position)

    def test_its_evaluation(self) -> None:
        """GNU Backgammon evaluates races by the file as the exact chance has it."""
        program, chance = self.need("gnubg"), random.Random(11)
        data = self.folder / "data"
        data.mkdir()
        for there in OWN.parent.iterdir():
            (data / there.name).symlink_to(there)
        (data / OWN.name).unlink()
        (data / OWN.name).write_bytes(content())
        # with 15 checkers on neither side, as it then looks for gammons, and with so many that it
        # doesn't ask its table of both sides
        some = [it for it in board() if 6 < it.checkers < 15]
        races = [Race(chance.choice(some), chance.choice(some)) for _ in range(ASKED)]
        script = self.folder / "ask.py"
        script.write_text(ASK.format(races=[notation.to_xgid(race) for race in races]), "ascii")
        told = self.run_it(program, "-t", "-q", "-r", "-P", str(data), "-p", str(script))
        chances: List[float] = [float(it) for it in re.findall(r"CHANCE ([0-9.e-]+)", told)]
        self.assertEqual(len(chances), ASKED, told[-2000:])
        for race, theirs in zip(races, chances):
            self.assertLess(abs(board().wins(race) - theirs), 0.00002, race)
