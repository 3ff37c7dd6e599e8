"""What the types of the package let through, and what they refuse: a line with `# type: ignore`
that isn't refused is an error. It needs mypy, and for arrays numpy; where one is missing its part
is left out.
"""

import importlib.util
import os
import subprocess
import tempfile
import unittest
from pathlib import Path

from .given import ROOT

MYPY = "/usr/bin/mypy"
PYTHON = "/usr/bin/python3"

ALLOWED = """
from fractions import Fraction
from typing import List, Tuple
import bearoff
from bearoff import Database, EffectivePips, Graded, Play, Position, PositionInfo, Wastage

def ask(here: Database, counts: List[int], dice: Tuple[int, int]) -> None:
    mean: Fraction = here.mean(counts)
    pips: EffectivePips = here.epc("0, 0, 0, 0, 0, 1")
    wastage: Wastage = here.wastage((0, 0, 0, 0, 0, 1))
    chance: Fraction = here.within(Position(0, 0, 0, 0, 0, 1), 3)
    play: Play = here.play_to(counts, "21", counts)
    stand: PositionInfo = Database.position_info(range(6))
    first: Position = here[0]
    some: List[Position] = here[1:3]
    table: memoryview = here.means()
    ranks: memoryview = here.ranks([counts, "0,0,0,0,0,1", first])
    again: memoryview = here.ranks(here.positions())
    loss: Fraction = here.loss(counts, dice, play.to)
    shown: str = f"{mean:.3f} {pips:.3f} {wastage:.1f} {float(pips)} {chance:.1%} {loss:.2f}"
    told: str = shown + play.text
    graded: Graded = bearoff.grade("match.mat", here)
    lost: Fraction = graded.players[0].pips
    print(stand.pips, some, table, ranks, again, told, lost, "abc" in here, None in here)
    here.mean(1.5)  # type: ignore[arg-type]
    here.mean([0.5] * 6)  # type: ignore[list-item]
    here.mean(["0"] * 6)  # type: ignore[list-item]
    here.mean({1, 2})  # type: ignore[arg-type]
    here.mean(None)  # type: ignore[arg-type]
    here.play(counts, 2.5)  # type: ignore[arg-type]
    here.play(counts)  # type: ignore[call-arg]
    here.within(counts, "3")  # type: ignore[arg-type]
    here.ranks(5)  # type: ignore[arg-type]
    here.means(True)  # type: ignore[misc]
    here["0"]  # type: ignore[call-overload]
    bearoff.grade(5, here)  # type: ignore[arg-type]
"""

WITH_NUMPY = """
from fractions import Fraction
import numpy
import numpy.typing
from bearoff import Database, Play

def ask(
    here: Database,
    rows: numpy.typing.NDArray[numpy.uint8],
    dice: numpy.typing.NDArray[numpy.int64],
) -> None:
    ranks = numpy.asarray(here.ranks(rows))
    mean: Fraction = here.mean(rows[0])
    play: Play = here.play(rows[0], dice)
    loss: Fraction = here.loss(rows[0], dice, rows[1])
    means = numpy.asarray(here.means())[ranks]
    print(means @ means, mean, play, loss, here.epc(numpy.zeros(6, int)))
    print(here[numpy.int64(3)], rows[0] in here)
    print(here.position(numpy.uint16(3)), here.within(rows[0], numpy.int32(3)))
"""


def has_numpy() -> bool:
    if not os.path.exists(PYTHON):
        return False
    return (
        subprocess.run([PYTHON, "-c", "import numpy"], stderr=subprocess.DEVNULL).returncode == 0
    )


@unittest.skipUnless(os.path.exists(MYPY), "mypy is missing")
class Types(unittest.TestCase):
    def accepted(self, lines: str) -> None:
        with tempfile.TemporaryDirectory() as folder:
            file = Path(folder, "user.py")
            file.write_text(lines)
            words = [
                MYPY,
                "--strict",
                f"--python-executable={PYTHON}",
                "--cache-dir=/dev/null",
                str(file),
            ]
            environment = {**os.environ, "MYPYPATH": str(ROOT / "python")}
            run = subprocess.run(words, env=environment, stdout=subprocess.PIPE, encoding="utf-8")
        self.assertEqual(
            (run.returncode, run.stdout), (0, "Success: no issues found in 1 source file\n")
        )

    def test_without_numpy(self) -> None:
        self.accepted(ALLOWED)

    @unittest.skipUnless(has_numpy(), "numpy is missing")
    def test_with_numpy(self) -> None:
        self.accepted(WITH_NUMPY)

    def test_the_package_has_its_types(self) -> None:
        self.assertIsNotNone(importlib.util.find_spec("bearoff"))
        self.assertTrue((ROOT / "python/bearoff/py.typed").exists())


if __name__ == "__main__":
    unittest.main()
