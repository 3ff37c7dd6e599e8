"""A database as an object of Python: its length, copies and pickles, threads and their stacks, and
the version."""

import collections.abc
import copy
import multiprocessing
import os
import pickle
import random
import re
import subprocess
import tempfile
import threading
import unittest
from concurrent.futures import ProcessPoolExecutor
from fractions import Fraction
from pathlib import Path
from typing import Any, Callable, List

import bearoff
from bearoff import BearoffError, Changed, Damaged, Database, Position, Refused, _library

from .given import FOLDER, ROOT, database, positions, run_alone

SIX = (0, 0, 0, 0, 0, 1)
SMALL_STACK = 256 << 10

# each call that wants stack, in a thread of one megabyte; what it prints is right, and the stack
# of later threads is as it was
IN_SMALL_THREAD = """
import sys, threading
from bearoff import Database
told = []
def run():
    large, old = Database.open(sys.argv[1]), Database.open(sys.argv[2])
    built, new = Database.build(58), Database(old.upgrade())
    told.append((large.bound, len(large), built.bound, new.version))
threading.stack_size(1 << 20)
thread = threading.Thread(target=run)
thread.start()
thread.join()
print(told, threading.stack_size() == 1 << 20)
"""

# children that are forked while threads open a database, each of which opens one too; it prints
# how many did, and how many hung or had another stack for their threads
IN_CHILDREN = """
import collections, os, signal, sys, threading, time
from bearoff import Database
content, ended, told = open(sys.argv[1], "rb").read(), [], collections.Counter()
def run():
    while not ended:
        Database(content)
threads = [threading.Thread(target=run) for _ in range(2)]
for thread in threads:
    thread.start()
for number in range(int(sys.argv[2])):
    time.sleep(0.001)
    child = os.fork()
    if child == 0:
        signal.alarm(20)
        size = threading.stack_size()
        os._exit(0 if size == 0 and len(Database(content)) == 64 else 1)
    told[os.waitpid(child, 0)[1]] += 1
ended.append(True)
for thread in threads:
    thread.join()
print(dict(told))
"""


class Objects(unittest.TestCase):
    def test_a_collection_of_positions(self) -> None:
        here = database(8)
        self.assertIsInstance(here, collections.abc.Collection)
        self.assertEqual((len(here), len(database(44)), len(database(58))), (64, 26314, 46062))
        self.assertEqual(list(here), positions(8))
        self.assertTrue(all(type(position) is Position and position in here for position in here))
        self.assertEqual([here.position(rank) for rank in range(64)], list(here))
        self.assertEqual([here.rank(position) for position in here], list(range(64)))

    def test_how_it_is_shown(self) -> None:
        file = str(FOLDER / "race.db")
        self.assertEqual(
            repr(database(44)),
            f"<bearoff.Database: 44 pips, 26314 positions, version 1, {file!r}>",
        )
        shown = "<bearoff.Database: 8 pips, 64 positions, version 1>"
        self.assertEqual(repr(Database.build(8)), shown)

    def test_with_closes(self) -> None:
        with Database.open(FOLDER / "eight") as here:
            self.assertEqual(here.mean(SIX), Fraction(5, 4))
        self.assertTrue(here.closed)
        with self.assertRaises(KeyError), Database.open(FOLDER / "eight") as here:
            raise KeyError
        self.assertTrue(here.closed)

    def test_the_bytes_are_its_own(self) -> None:
        content = bytearray((FOLDER / "eight").read_bytes())
        for given in (content, memoryview(content)):
            here = Database.open(given)
            kept = bytes(content)
            content[:] = bytes(len(content))
            self.assertEqual(here.mean(SIX), Fraction(5, 4))
            self.assertEqual(bytes(here), kept)
            content[:] = kept

    def test_copies(self) -> None:
        first = Database.open(FOLDER / "eight")
        for other in (copy.copy(first), copy.deepcopy(first), copy.deepcopy([first])[0]):
            self.assertIsNot(other, first)
            self.assertEqual((repr(other), bytes(other)), (repr(first), bytes(first)))
            other.close()
            self.assertEqual(first.mean(SIX), Fraction(5, 4))
        other = copy.copy(first)
        first.close()
        self.assertEqual(other.mean(SIX), Fraction(5, 4))


class Pickles(unittest.TestCase):
    def test_by_bytes(self) -> None:
        made = Database.build(8)
        again = pickle.loads(pickle.dumps(made))
        self.assertEqual((bytes(again), again.mean(SIX)), (bytes(made), Fraction(5, 4)))
        content = bytes(made)
        changed = pickle.dumps(made).replace(content, content[:-1] + b"\1")
        self.assertRaises(Damaged, pickle.loads, changed)

    def test_by_path(self) -> None:
        pickled = pickle.dumps(database(58))
        self.assertLess(len(pickled), 1000)
        again = pickle.loads(pickled)
        self.assertEqual((repr(again), again.mean(SIX)), (repr(database(58)), Fraction(5, 4)))
        before = os.getcwd()
        with tempfile.TemporaryDirectory() as folder:
            file = Path(folder, "copy.db")
            file.write_bytes((FOLDER / "eight").read_bytes())
            os.chdir(folder)
            try:
                pickled = pickle.dumps(Database.open("copy.db"))
            finally:
                os.chdir(before)
            self.assertEqual(len(pickle.loads(pickled)), 64)
            file.write_bytes(bytes(Database.build(9)))
            with self.assertRaises(Changed) as changed:
                pickle.loads(pickled)
            self.assertIn(str(file), str(changed.exception))
            damaged = bytearray((FOLDER / "eight").read_bytes())
            damaged[-1] ^= 1
            file.write_bytes(damaged)
            self.assertRaises(Changed, pickle.loads, pickled)
            file.unlink()
            self.assertRaises(FileNotFoundError, pickle.loads, pickled)

    def test_in_other_processes(self) -> None:
        here = database(44)
        asked = positions(12)
        for way in ("fork", "spawn"):
            with ProcessPoolExecutor(1, multiprocessing.get_context(way)) as pool:
                self.assertEqual(
                    list(pool.map(here.mean, asked, chunksize=100)), list(map(here.mean, asked))
                )
                with self.assertRaises(Refused) as refused:
                    pool.submit(here.mean, "16,0,0,0,0,0").result()
            self.assertEqual(str(refused.exception), "more than 15 checkers: 16,0,0,0,0,0")


class Threads(unittest.TestCase):
    def in_threads(self, *runs: Callable[[], Any]) -> List[Any]:
        """What each gives, in a thread of its own with a small stack."""
        told: List[Any] = [None] * len(runs)

        def run(place: int) -> None:
            try:
                told[place] = runs[place]()
            except BaseException as error:
                told[place] = error

        before = threading.stack_size(SMALL_STACK)
        try:
            threads = [threading.Thread(target=run, args=(place,)) for place in range(len(runs))]
            for thread in threads:
                thread.start()
        finally:
            threading.stack_size(before)
        for thread in threads:
            thread.join()
        return told

    def test_opening_and_building_in_a_thread_of_one_megabyte(self) -> None:
        run = run_alone(IN_SMALL_THREAD, str(FOLDER / "large.db"), str(FOLDER / "race.db"))
        self.assertEqual((run.returncode, run.stdout), (0, "[(58, 46062, 58, 2)] True\n"))

    def test_a_stack_of_its_own(self) -> None:
        before = threading.stack_size()
        self.assertEqual(_library.on_stack(1 << 20, lambda: 7), 7)
        self.assertEqual(threading.stack_size(), before)
        with self.assertRaises(MemoryError):
            _library.on_stack(1 << 20, self.fail_for_memory)

    def test_a_fork_while_threads_open(self) -> None:
        """No lock of the package, and no stack of its own, is left behind in a child."""
        run = run_alone(IN_CHILDREN, str(FOLDER / "eight"), "100")
        self.assertEqual((run.returncode, run.stdout), (0, "{0: 100}\n"))

    def test_a_fork_by_a_signal_handler(self) -> None:
        """The lock may be taken twice by one thread."""
        with _library._changing, _library._changing:
            child = os.fork()
            if child == 0:
                os._exit(_library.on_stack(1 << 20, lambda: 7))
            self.assertEqual(os.waitstatus_to_exitcode(os.waitpid(child, 0)[1]), 7)

    @staticmethod
    def fail_for_memory() -> int:
        raise MemoryError

    def test_answers_in_threads(self) -> None:
        def answer() -> Any:
            here = Database.open(FOLDER / "race.db")
            most = (9, 0, 0, 0, 1, 5)
            plays = [
                here.play(most, (6, 5)),
                here.moves("3,3,3,3,0,0", (1, 1)),
                here.answer("moves 3,3,3,3,0,0 11"),
            ]
            calls: List[Callable[[], memoryview]] = [
                here.positions,
                here.means,
                here.epcs,
                here.distributions,
            ]
            tables = [bytes(call()) for call in calls]
            return (
                plays,
                tables,
                here.epc(most),
                here.distribution(most),
                [here.mean(at) for at in positions(16)],
            )

        first, *others = self.in_threads(*[answer] * 4)
        self.assertIsInstance(first, tuple)
        for other in others:
            self.assertEqual(other, first)

    def test_one_database_in_threads(self) -> None:
        """Threads that ask one database get what each asked for."""
        here, asked = database(44), positions(20)
        wanted = {at: here.mean(at) for at in asked}

        def ask() -> bool:
            mine = asked[:]
            random.Random(threading.get_ident()).shuffle(mine)
            return all(
                here.mean(at) == wanted[at] and here.play(at, (2, 1)).to in here
                for at in mine
                if any(at)
            )

        self.assertEqual(self.in_threads(*[ask] * 4), [True] * 4)

    def test_closing_while_others_ask(self) -> None:
        for _ in range(10):
            here = Database.open(FOLDER / "eight")
            table = bytes(here.distributions(words=True))

            def ask() -> int:
                try:
                    while True:
                        if (
                            here.mean(SIX) != Fraction(5, 4)
                            or bytes(here.distributions(words=True)) != table
                        ):
                            return 0
                except Refused as refused:
                    return refused.status

            told = self.in_threads(ask, ask, here.close)
            self.assertEqual(told, [1, 1, None])


OTHER_LIBRARY = """
#include <stdint.h>
uint32_t bearoff_library_version(uint16_t *major, uint16_t *minor, uint16_t *patch) {
    *major = %s;
    *minor = %s;
    *patch = %s;
    return 0;
}
"""

LOADING = """
import sys
import bearoff
try:
    bearoff.Database.open(sys.argv[1])
except bearoff.NoLibrary as error:
    print(error)
"""


class Versions(unittest.TestCase):
    def test_the_version_is_that_of_the_project(self) -> None:
        self.assertEqual(bearoff.__version__, (ROOT / "VERSION").read_text().strip())
        self.assertIn(
            f'version = "{bearoff.__version__}"\n', (ROOT / "python/pyproject.toml").read_text()
        )

    def test_sizes_are_those_of_the_header(self) -> None:
        header = (ROOT / "c/bearoff.h").read_text()
        for name in ("LINE", "RESULTS", "REPLY", "FILE", "STACK"):
            told = re.findall(rf"(?m)^#define BEAROFF_{name} (\d+)$", header)
            self.assertEqual(told, [str(getattr(_library, name))], name)
        statuses = {
            name: int(number) for name, number in re.findall(r"BEAROFF_([A-Z_]+) = (\d+),", header)
        }
        for name in ("NOT_OPEN", "TOO_MANY", "OVER_BOUND", "BUFFER_TOO_SMALL"):
            self.assertEqual(getattr(bearoff.errors, name), statuses[name], name)

    def test_which_versions_are_enough(self) -> None:
        for told, wanted, enough in (
            *(
                ("1.0.0", "1.0.0", True),
                ("1.0.1", "1.0.0", True),
                ("1.1.0", "1.0.9", True),
                ("1.10.0", "1.9.0", True),
            ),
            *(("1.0.0", "1.0.1", False), ("1.0.9", "1.1.0", False), ("2.0.0", "1.0.0", False)),
            ("0.9.9", "1.0.0", False),
        ):
            self.assertEqual(_library._is_enough(told, wanted), enough, (told, wanted))

    def test_other_libraries(self) -> None:
        with tempfile.TemporaryDirectory() as folder:
            source, later, empty = (
                Path(folder, name) for name in ("library.c", "later.so", "empty.so")
            )
            for library, version in (later, "2.3.4"), (empty, bearoff.__version__):
                source.write_text(OTHER_LIBRARY % tuple(version.split(".")))
                subprocess.run(
                    ["cc", "-shared", "-fPIC", "-o", str(library), str(source)], check=True
                )
            for path, told in (
                (
                    later,
                    f"{later} is of version 2.3.4, "
                    f"and this package of version {bearoff.__version__}",
                ),
                (empty, f"{empty} has no function bearoff_position_info"),
                (source, f"{source} is no library: "),
                (Path(folder, "missing.so"), f"{folder}/missing.so is no library: "),
                (Path("libm.so.6"), "libm.so.6 has no function bearoff_library_version"),
            ):
                environment = {**os.environ, "BEAROFF_LIBRARY": str(path)}
                script = f"import os; os.environ.update({environment!r})\n{LOADING}"
                run = run_alone(script, str(FOLDER / "eight"))
                self.assertTrue(run.returncode == 0 and run.stdout.startswith(told), run.stdout)


if __name__ == "__main__":
    unittest.main()
