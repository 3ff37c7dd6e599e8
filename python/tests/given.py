"""What the tests are given: the program, the databases, and positions that are counted here and
not asked of the library.

BEAROFF_LIBRARY names the shared library, BEAROFF_PROGRAM the program, and BEAROFF_DATABASES a
folder with the databases `eight`, of 8 pips, `race.db`, of 44, and `large.db`, of 58.
"""

import itertools
import os
import subprocess
import sys
import tempfile
import unittest
from functools import lru_cache
from pathlib import Path
from typing import Any, Callable, Iterable, Iterator, List, Sequence, Tuple

from bearoff import Database, Refused

Counts = Tuple[int, ...]

PROGRAM = os.environ["BEAROFF_PROGRAM"]
FOLDER = Path(os.environ["BEAROFF_DATABASES"])
ROOT = Path(__file__).parents[2]
ROLLS = [(high, low) for high in range(1, 7) for low in range(1, high + 1)]
FILES = {8: "eight", 44: "race.db", 58: "large.db"}
# of a table of all positions each is compared, or one of so many
STEP = int(os.environ.get("BEAROFF_STEP", "1"))


class Compared(unittest.TestCase):
    def same(self, told: Iterable[Any], wanted: Iterable[Any]) -> None:
        """Compares many rows, and tells the first one that differs."""
        for place, (is_told, is_wanted) in enumerate(itertools.zip_longest(told, wanted)):
            if is_told != is_wanted:
                self.fail(f"row {place} is {is_told} and not {is_wanted}")

    def refused(self, status: int, call: Callable[..., Any], *words: Any) -> str:
        with self.assertRaises(Refused) as refused:
            call(*words)
        self.assertEqual(refused.exception.status, status, words)
        return str(refused.exception)


@lru_cache(maxsize=None)
def database(bound: int) -> Database:
    """The database of a file of the program, or what is built here of another bound: over 58 pips
    a board."""
    return Database.open(FOLDER / FILES[bound]) if bound in FILES else Database.build(bound)


@lru_cache(maxsize=None)
def positions(bound: int) -> List[Counts]:
    """All positions of at most so many pips, in the order of their ranks."""

    def lists(point: int, checkers: int, pips: int) -> Iterator[Counts]:
        if point > 6:
            yield ()
            return
        for count in range(min(checkers, pips // point) + 1):
            for rest in lists(point + 1, checkers - count, pips - point * count):
                yield (count, *rest)

    return sorted(lists(1, 15, bound), key=lambda counts: (pips(counts), counts))


def pips(counts: Sequence[int]) -> int:
    return sum(point * count for point, count in enumerate(counts, 1))


def text(position: Sequence[int]) -> str:
    return ",".join(map(str, position))


def numbers(table: memoryview, row: int = 3, place: int = 0) -> List[int]:
    """The numbers at a place of the rows of a table, which have so many words each."""
    flat = table.cast("B").cast("Q").tolist()
    words = zip(*(flat[place + word :: row] for word in range(3)))
    return [(first << 128) + (middle << 64) + last for first, middle, last in words]


def replies(bound: int, lines: Sequence[str]) -> List[str]:
    """What the program writes for lines over the database of a bound, or over the whole board that
    it builds."""
    with tempfile.TemporaryDirectory() as folder:
        words = [str(FOLDER / FILES[bound])] if bound in FILES else ["--board", f"{folder}/b"]
        if bound not in FILES:
            subprocess.run([PROGRAM, "build", *words], stdout=subprocess.DEVNULL, check=True)
            if Path(words[-1]).read_bytes() != bytes(database(bound)):
                raise AssertionError("the program builds other bytes")
        run = subprocess.run(
            [PROGRAM, "query", *words],
            input="".join(line + "\n" for line in lines),
            stdout=subprocess.PIPE,
            encoding="utf-8",
            check=True,
        )
    return run.stdout.splitlines()


def run_command(
    *words: str, stdout: Any = subprocess.PIPE, given: str = "", **environment: str
) -> "subprocess.CompletedProcess[str]":
    """Runs a command of the package."""
    return subprocess.run(
        [sys.executable, "-m", "bearoff", *words],
        cwd=ROOT / "python",
        env={**os.environ, **environment},
        input=given,
        stdout=stdout,
        stderr=subprocess.PIPE,
        encoding="utf-8",
    )


def run_alone(script: str, *words: str) -> "subprocess.CompletedProcess[str]":
    """Runs a script in an interpreter of its own, since what it tries may end it."""
    return subprocess.run(
        [sys.executable, "-c", script, *words],
        cwd=ROOT / "python",
        stdout=subprocess.PIPE,
        stderr=subprocess.STDOUT,
        encoding="utf-8",
    )
