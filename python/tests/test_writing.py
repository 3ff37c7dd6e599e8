"""Files that the package writes: stopped at each call, and over each kind of file that can stand
there.
"""

import contextlib
import errno
import io
import os
import resource
import shutil
import signal
import sqlite3
import stat
import subprocess
import sys
import tempfile
import threading
import unittest
from contextlib import closing
from functools import partial
from pathlib import Path
from types import SimpleNamespace
from typing import Any, Callable, Dict, Iterator, List, Optional
from unittest import mock

from bearoff import BadArgument, Database, __main__, _writing, export, gnubg

from .given import FILES, FOLDER, database

EIGHT = str(FOLDER / FILES[8])
OLD = b"what stood there before"
TABLE = ("export", "--database", EIGHT)
WHOLE = {"csv": TABLE, "json": TABLE, "bd": ("gnubg", "write", EIGHT)}
"""Each command that replaces a file, by the ending of its name, with the words before that."""
WRITERS = {**WHOLE, "sqlite": TABLE, "sqlite3": TABLE}
"""Each command that writes a file, likewise."""

CALLS = "open readlink lstat stat fstat write fchmod fsync link replace close".split()
"""The calls of the system at which a run is stopped."""

PLACED = "write fsync link replace fsync".split()
"""Those that bring a new file to its place, in their order."""

STOPPED = 99
"""The status of a run that went on behind what should have ended it."""

MODE = 0o604
NOBODY = 65534


class Folder(unittest.TestCase):
    def setUp(self) -> None:
        self.folder = Path(tempfile.mkdtemp(prefix="bearoff-test-"))
        self.addCleanup(shutil.rmtree, self.folder)
        os.chmod(self.folder, 0o755)
        self.errors = self.folder / "errors"
        self.kept = self.folder / "kept"
        self.kept.mkdir()

    def child(self, words: List[str], before: Callable[[], object] = int) -> int:
        """The status with which a process of its own ends that runs the command with these words,
        or minus its signal; what it says stands in `errors`.
        """
        child = os.fork()
        if child:
            return os.waitstatus_to_exitcode(os.waitpid(child, 0)[1])
        try:
            with open(self.errors, "w") as errors, mock.patch("sys.argv", ["", *words]):
                # a board file takes seconds, and what it says is compared elsewhere
                given = mock.patch.object(gnubg, "to_file", bytes)
                with given, contextlib.redirect_stderr(errors):
                    with contextlib.redirect_stdout(io.StringIO()):
                        # which a shell may have left ignored, as nohup does
                        signal.signal(signal.SIGHUP, signal.SIG_DFL)
                        signal.signal(signal.SIGINT, signal.default_int_handler)
                        before()
                        status = __main__.run()
            os._exit(status)
        finally:
            os._exit(STOPPED)

    @contextlib.contextmanager
    def meanwhile(self, does: Callable[..., None], *given: object) -> Iterator[None]:
        """Another process does something again and again."""
        child = os.fork()
        while not child:
            with contextlib.suppress(Exception):
                does(*given)
        try:
            yield
        finally:
            os.kill(child, signal.SIGKILL)
            os.waitpid(child, 0)

    def put(self, name: str, content: bytes = OLD, mode: int = MODE) -> Path:
        file = self.kept / name
        file.write_bytes(content)
        os.chmod(file, mode)
        return file

    def names(self) -> List[str]:
        return sorted(it.name for it in self.kept.iterdir())


class Stop:
    """Ends a run in its own way at one of the calls by which a file is written, and counts them."""

    def __init__(self, at: int, how: Callable[[], object]) -> None:
        self.left, self.how, self.seen = at, how, ""

    def put_into(self, module: Any) -> None:
        """Has a module of the package call what stops."""
        calls = {name: self.stopping(name, getattr(os, name)) for name in CALLS}
        module.os = SimpleNamespace(**{**vars(os), **calls})

    def stopping(self, name: str, call: Callable[..., Any]) -> Callable[..., Any]:
        def stop(*given: Any, **more: Any) -> Any:
            self.left -= 1
            if self.left == 0:
                Path(os.environ["SEEN"]).write_text(name)
                if name == "write":
                    # half of it, as where a disk is full
                    call(given[0], bytes(given[1])[: len(given[1]) // 2])
                self.how()
            # some hundred runs would wait for the disk, and nothing here sees whether they did
            return None if name == "fsync" else call(*given, **more)

        return stop


def fail() -> None:
    raise OSError(errno.EIO, "Input/output error")


SIGNALS = {"killed": 9, "asked to end": 15, "hung up": 1, "interrupted": 2}
WAYS: Dict[str, Callable[[], object]] = {
    **{way: partial(signal.raise_signal, number) for way, number in SIGNALS.items()},
    "a failed call": fail,
}


class Stopped(Folder):
    """Each command, ended at each of its calls."""

    def runs(self, ending: str, way: str, is_there: bool, has_none: bool = False) -> List[str]:
        """The calls at which a run was ended; the last run came to its end."""
        seen: List[str] = []
        words = [*WRITERS[ending], str(self.kept / f"link.{ending}")]
        os.environ["SEEN"] = str(self.folder / "seen")
        new: Optional[bytes] = None
        while True:
            for file in self.kept.iterdir():
                file.unlink()
            target = self.kept / f"table.{ending}"
            (self.kept / f"link.{ending}").symlink_to(target.name)
            if is_there:
                self.put(target.name)
            (self.folder / "seen").write_text("")

            def before() -> None:
                Stop(len(seen) + 1, WAYS[way]).put_into(_writing)
                if has_none:
                    setattr(_writing, "_UNNAMED", "/proc/no/such")

            status = self.child(words, before)
            at = (self.folder / "seen").read_text()
            told = (way, at, len(seen), status, self.errors.read_text())
            here, wanted = self.names(), [f"link.{ending}"]
            if target.exists():
                wanted.append(target.name)
                content = target.read_bytes()
                if content != OLD:
                    new = new or content
                    self.assertEqual(content, new, told)
                    if ending == "csv":
                        self.assertEqual(content.count(b"\n"), 65, told)
            if is_there:
                self.assertTrue(target.exists(), told)
                self.assertEqual(stat.S_IMODE(target.stat().st_mode), MODE, told)
            self.assertEqual(os.readlink(self.kept / f"link.{ending}"), target.name, told)
            if way == "killed" and (at == "replace" or has_none):
                # its name, and then the one step into the place
                more = [name for name in here if name.startswith(".bearoff-")]
                self.assertLessEqual(len(more), 1, told)
                here = [name for name in here if name not in more]
                if more and is_there:
                    # which nobody else may read who may not read the old one
                    mode = stat.S_IMODE((self.kept / more[0]).stat().st_mode)
                    self.assertIn(mode, (0o600, MODE), told)
                    self.assertEqual(target.read_bytes(), OLD, told)
            self.assertEqual(here, sorted(wanted), told)
            self.assertNotIn("Traceback", told[-1])
            if not at:
                self.assertEqual(status, 0, told)
                self.assertNotEqual(target.read_bytes(), OLD)
                return seen
            if way == "a failed call":
                # without its first way to open a new file it has another
                line = "bearoff: [Errno 5] Input/output error"
                if status or at != "open":
                    self.assertEqual((status, told[-1][: len(line)]), (1, line), told)
                    self.assertEqual(told[-1].count("\n"), 1, told)
            else:
                self.assertEqual(status, -SIGNALS[way], told)
            seen.append(at)

    def test_each_call(self) -> None:
        for ending in WHOLE:
            for way in WAYS:
                for is_there in (True, False):
                    if ending != "csv" and way in ("hung up", "interrupted"):
                        continue
                    seen = self.runs(ending, way, is_there)
                    place = [name for name in seen if name in PLACED]
                    self.assertEqual(place, PLACED, seen)

    def test_where_a_new_file_has_a_name_at_once(self) -> None:
        for way in WAYS:
            for is_there in (True, False):
                seen = self.runs("csv", way, is_there, has_none=True)
                self.assertNotIn("link", seen)


class Tables(Folder):
    """SQLite files, which SQLite itself changes."""

    def setUp(self) -> None:
        super().setUp()
        self.file = self.kept / "table.sqlite"

    def begin(self, is_there: bool) -> None:
        """A table of one row, and one of another program."""
        for file in self.kept.iterdir():
            file.unlink()
        if is_there:
            with closing(sqlite3.connect(self.file)) as table, table:
                table.execute("CREATE TABLE positions AS SELECT 7 AS rank")
                table.execute("CREATE TABLE mine AS SELECT 5 AS number")

    def check(self, is_there: bool, count: int, told: object = None) -> None:
        """The file is whole, and nothing is beside it once another program has changed it."""
        found = {}
        if self.file.exists():
            with closing(sqlite3.connect(self.file)) as table, table:
                self.assertEqual([*table.execute("PRAGMA integrity_check")], [("ok",)], told)
                for [name] in [*table.execute("SELECT tbl_name FROM sqlite_master")]:
                    [found[name]] = table.execute(f"SELECT count(*) FROM {name}").fetchone()
                table.execute("PRAGMA user_version = 3")
        wanted = {"mine": int(is_there), "positions": count}
        self.assertEqual(found, {name: rows for name, rows in wanted.items() if rows}, told)
        self.assertLessEqual(set(self.names()), {self.file.name}, told)

    def test_each_write(self) -> None:
        """The system kills it at a write that is too large, or lets that fail."""
        for is_there in (True, False):
            for action, ended in ((signal.SIG_DFL, -signal.SIGXFSZ), (signal.SIG_IGN, 1)):
                statuses = []
                for most in [*range(500, 15000, 700), 10**6]:

                    def before() -> None:
                        signal.signal(signal.SIGXFSZ, action)
                        resource.setrlimit(resource.RLIMIT_CORE, (0, 0))
                        resource.setrlimit(resource.RLIMIT_FSIZE, (most, most))

                    self.begin(is_there)
                    status = self.child([*TABLE, str(self.file)], before)
                    told = (is_there, most, status, self.errors.read_text())
                    if status == 1:
                        self.assertEqual(self.names(), [self.file.name] * is_there, told)
                        self.assertRegex(told[-1], "^bearoff: [a-zIO/ ]+: '.*'\n$")
                    self.check(is_there, is_there if status else 64, told)
                    statuses.append(status)
                self.assertEqual(set(statuses), {0, ended})
                self.assertGreater(statuses.count(ended), 10)

    def test_each_way_between_two_rows(self) -> None:
        def stop() -> None:
            def rows(_database: Database) -> Any:
                yield (0,) * 13
                WAYS[way]()
                yield (1,) * 13

            mock.patch("bearoff.tables._rows", rows).start()

        for way in WAYS:
            for is_there in (True, False):
                self.begin(is_there)
                status = self.child([*TABLE, str(self.file)], stop)
                self.assertEqual(status, -SIGNALS[way] if way in SIGNALS else 1)
                if way != "killed":
                    self.assertEqual(self.names(), [self.file.name] * is_there)
                self.check(is_there, int(is_there), way)

    def test_another_program(self) -> None:
        """One that changes the file is waited for, and one that has it open goes on."""
        (self.kept / "link.sqlite").symlink_to(self.folder / "there.sqlite")
        self.file = self.folder / "there.sqlite"
        for mode in ("WAL", "DELETE"):
            with closing(sqlite3.connect(self.file, isolation_level=None)) as other:
                other.execute(f"PRAGMA journal_mode={mode}")
                other.execute("BEGIN IMMEDIATE")
                with mock.patch("bearoff.tables._PATIENCE", 0):
                    with self.assertRaisesRegex(OSError, "database is locked; close"):
                        export(database(8), self.kept / "link.sqlite")
                other.execute("COMMIT")
                export(database(8), self.kept / "link.sqlite")
                count = other.execute("SELECT count(*) FROM positions").fetchone()
                self.assertEqual(count, (64,))
        self.assertEqual(self.names(), ["link.sqlite"])

    def test_a_race(self) -> None:
        """Another program opens, changes and closes the file all the time."""
        for mode in ("WAL", "DELETE"):
            self.begin(True)
            rows = 0
            with self.meanwhile(self.change, mode):
                for _ in range(2000):
                    export(database(8), self.file)
                    with closing(sqlite3.connect(self.file)) as table:
                        self.assertEqual([*table.execute("PRAGMA integrity_check")], [("ok",)])
                        [rows] = table.execute("SELECT count(*) FROM mine").fetchone()
                    if rows > 50:
                        break
            self.assertGreater(rows, 1)

    def change(self, mode: str) -> None:
        with closing(sqlite3.connect(self.file)) as table, table:
            table.execute(f"PRAGMA journal_mode={mode}")
            table.execute("INSERT INTO mine SELECT 6")


class Refused(Folder):
    """What is refused with a line and a status, and leaves all as it was."""

    def refuse(self, words: List[str], status: int, why: str, **more: Any) -> None:
        told = self.child(words, **more), self.errors.read_text()
        self.assertEqual(told[0], status, told)
        self.assertRegex(told[1], f"^bearoff: .*{why}.*\n$")
        self.assertEqual(told[1].count("\n"), 1, told)

    def test_a_database_stays(self) -> None:
        """Under each of its names, whichever database was read, and also a damaged one."""
        right = Path(EIGHT).read_bytes()
        for content in (right, b"EPCTABLE", b"EPCTABLE, and no database"):
            for ending, words in WRITERS.items():
                file = self.put(f"race.{ending}", content)
                os.link(file, self.kept / f"second.{ending}")
                (self.kept / f"link.{ending}").symlink_to(f"../kept/{file.name}")
                stood = self.names()
                for name in ("race", "second", "link", "../kept/race"):
                    for own in (words, (*words[:-1], str(file)))[: 2 if content is right else 1]:
                        self.refuse(
                            [*own, f"{self.kept}/{name}.{ending}"], 2, "this is a bearoff database"
                        )
                        self.assertEqual((file.read_bytes(), self.names()), (content, stood))
                for path in self.kept.iterdir():
                    path.unlink()

    def test_what_sqlite_can_not_change(self) -> None:
        os.mkfifo(self.kept / "pipe.sqlite")
        (self.kept / "link.sqlite").symlink_to("/dev/stdout")
        file = self.put("table.sqlite", OLD * 100)
        stood = self.names()
        for name, why in (
            ("pipe", "not a plain file"),
            ("link", "not a plain file"),
            ("table", "file is not a database; remove it"),
            ("no/table", "unable to open database file; its folder"),
        ):
            self.refuse([*TABLE, f"{self.kept}/{name}.sqlite"], 1, why)
            self.assertEqual((file.read_bytes(), self.names()), (OLD * 100, stood))

    def test_no_thread(self) -> None:
        def before() -> None:
            problem = RuntimeError("can't start new thread")
            mock.patch.object(threading.Thread, "start", side_effect=problem).start()

        for asked in (["mean", "0,0,0,0,0,1"], ["mean", "0,0,0,0,0,1", "--database", EIGHT]):
            self.refuse(asked, 1, "no thread can be begun: can't start new thread", before=before)
        for words in WRITERS.values():
            self.refuse([*words, str(self.kept / "a.csv")], 1, "no thread", before=before)
        self.assertEqual(self.names(), [])

    def test_no_memory(self) -> None:
        def before() -> None:
            mock.patch("bearoff.__main__.export", side_effect=MemoryError).start()

        words = [*WRITERS["csv"], str(self.kept / "a.csv")]
        self.refuse(words, 1, "too little memory", before=before)

    def test_what_can_not_be_written(self) -> None:
        (self.kept / "folder.csv").mkdir()
        (self.kept / "loop.csv").symlink_to("loop.csv")
        (self.kept / "away.csv").symlink_to("no/folder.csv")
        stood = self.names()
        for name, why in (
            ("folder.csv", "Is a directory"),
            ("loop.csv", "Too many levels"),
            ("away.csv", "No such file"),
            ("no/table.csv", "No such file"),
            ("x" * 300 + ".csv", "too long"),
        ):
            self.refuse([*WRITERS["csv"], str(self.kept / name)], 1, why)
            self.assertEqual(self.names(), stood)
        with self.assertRaisesRegex(BadArgument, "null"):
            export(database(8), "a\0.csv")

    def test_a_file_of_somebody_else(self) -> None:
        """Who may not write a file doesn't replace it, although the folder would allow that."""
        if os.getuid() != 0:
            self.skipTest("it needs the rights of root")
        os.chmod(self.kept, 0o777)
        shutil.copy(EIGHT, self.folder / "eight")
        self.errors.touch()
        os.chmod(self.errors, 0o666)

        def nobody() -> None:
            os.setgroups([])
            os.setgid(NOBODY)
            os.setuid(NOBODY)

        words = ["export", "--database", str(self.folder / "eight")]
        for owner, mode in ((0, 0o644), (0, 0o602), (0, 0o600), (NOBODY, 0o444)):
            for ending in ("csv", "sqlite"):
                file = self.put(f"table.{ending}", OLD, mode)
                os.chown(file, owner, owner)
                self.refuse([*words, str(file)], 1, "denied", before=nobody)
                self.assertEqual((file.read_bytes(), self.names()), (OLD, [file.name]))
                file.unlink()


class Written(Folder):
    def test_permissions(self) -> None:
        """Those of an old file, without its set-id bits, or those that the process gives."""
        self.addCleanup(os.umask, os.umask(0))
        for mask in (0o022, 0o077, 0o002):
            os.umask(mask)
            export(database(8), self.kept / f"{mask}.csv")
            mode = (self.kept / f"{mask}.csv").stat().st_mode
            self.assertEqual(stat.S_IMODE(mode), 0o666 & ~mask)
        for mode in (0o604, 0o640, 0o777, 0o6755):
            file = self.put("table.csv", OLD, mode)
            export(database(8), file)
            self.assertEqual(stat.S_IMODE(file.stat().st_mode), mode & 0o777)

    def test_a_second_name_keeps_the_old_file(self) -> None:
        file = self.put("table.csv")
        os.link(file, self.kept / "second")
        export(database(8), file)
        self.assertEqual((self.kept / "second").read_bytes(), OLD)

    def test_an_open_file_is_written_into(self) -> None:
        """As it is of the shell, which has opened it, and the command's own line comes behind."""
        link, out = self.kept / "link.csv", self.kept / "out"
        export(database(8), self.kept / "table.csv")
        wanted = b"before\n" + (self.kept / "table.csv").read_bytes() + b"64 positions\n"
        words = [sys.executable, "-m", "bearoff", *TABLE, str(link)]
        for name in ("/dev/stdout", "/dev/fd/1", "/proc/self/fd/1", "/proc/thread-self/fd/1"):
            link.symlink_to(name)
            with open(out, "wb", 0) as stream:
                stream.write(b"before\n")
                subprocess.run(words, stdout=stream, check=True)
            self.assertEqual(out.read_bytes(), wanted)
            piped = subprocess.run(words, stdout=subprocess.PIPE, check=True).stdout
            self.assertEqual(b"before\n" + piped, wanted)
            link.unlink()

    def test_a_race(self) -> None:
        """Its name is swapped by another user, between a link to a file of root and one of his."""
        if os.getuid() != 0:
            self.skipTest("it needs the rights of root")
        secret = self.put("secret", OLD, 0o600)
        home = self.folder / "home"
        home.mkdir()
        os.chown(home, NOBODY, NOBODY)
        with self.meanwhile(self.swap, secret, home):
            for _ in range(500):
                with contextlib.suppress(OSError):
                    _writing.write_whole(str(home / "table.csv"), b"new")
                found = secret.stat()
                self.assertEqual((found.st_uid, stat.S_IMODE(found.st_mode)), (0, 0o600))

    def swap(self, secret: Path, home: Path) -> None:
        os.chdir(home)
        os.seteuid(NOBODY)
        os.symlink(secret, "link")
        os.replace("link", "table.csv")
        Path("plain").touch(0o644)
        os.replace("plain", "table.csv")

    def test_a_pipe_is_written_into(self) -> None:
        pipe = self.kept / "pipe.csv"
        os.mkfifo(pipe)
        told: List[bytes] = []
        reader = threading.Thread(target=lambda: told.append(pipe.read_bytes()))
        reader.start()
        export(database(8), pipe)
        reader.join()
        export(database(8), self.kept / "table.csv")
        self.assertEqual(told, [(self.kept / "table.csv").read_bytes()])
        self.assertTrue(stat.S_ISFIFO(pipe.stat().st_mode))


if __name__ == "__main__":
    unittest.main()
