"""The commands of the package, each with a file and without one."""

import contextlib
import io
import os
import re
import signal
import subprocess
import sys
import tempfile
import unittest
from pathlib import Path
from typing import List, Tuple
from unittest import mock

from bearoff import Database, __main__

from .given import FILES, FOLDER, PROGRAM, ROOT, database, run_command

XGID = "XGID=-ABC--D------------a-b--c-:0:0:1:21:0:0:0:0:10"
MINE, THEIRS = "1,2,3,0,0,4", "3,0,0,2,0,1"
RACE = str(FOLDER / FILES[44])


def run(*words: str, given: str = "", path: str = "") -> Tuple[int, str, str]:
    told = run_command(*words, given=given, PATH=path or os.environ["PATH"])
    return told.returncode, told.stdout, told.stderr


class Commands(unittest.TestCase):
    def right(self, want: str, *words: str) -> None:
        for more in ((), ("--database", RACE)):
            self.assertEqual(run(*words, *more), (0, want, ""), words)

    def test_mean_and_epc(self) -> None:
        here = database(44)
        mean, epc = here.mean(MINE), here.epc(MINE)
        six = "0,0,0,0,0,1: 1.250000 rolls, 5/4\n"
        self.right(six, "mean", "0,0,0,0,0,1")
        self.right(six + f"{MINE}: {float(mean):.6f} rolls, {mean}\n", "mean", "0 0 0 0 0 1", XGID)
        six = "0,0,0,0,0,1: 10.208 pips, 245/24; wastage 4.208\n"
        self.right(six, "epc", "0,0,0,0,0,1")
        wastage = here.wastage(MINE)
        told = f"{epc.thousandths / 1000:.3f} pips, {epc}"
        told += f"; wastage {wastage.thousandths / 1000:.3f}"
        self.right(f"{MINE}: {told}\n", "epc", XGID)
        self.right("0,0,0,0,0,0: 0.000 pips, 0; wastage 0.000\n", "epc", "0,0,0,0,0,0")

    def test_each_position_by_itself(self) -> None:
        """Its error stands in its place, and they share one database."""
        eight = str(FOLDER / FILES[8])
        six, over = "0,0,0,0,0,1: 1.250000 rolls, 5/4\n", f"more pips than the bound: {MINE}\n"
        two = "error: a position is six counts, and these are 2: 1,2\n"
        many = "error: more than 15 checkers: 0,0,0,0,0,16\n"
        none = "error: neither an XGID, an ID of GNU Backgammon nor six counts: ?[2J x\n"
        for words, given, status, want in (
            (("0 0 0 0 0 1", "1,2", "0,0,0,0,0,1"), "", 2, six + two + six),
            (("0,0,0,0,0,16", "1,2"), "", 3, many + two),
            ((MINE, "0,0,0,0,0,1", "--database", eight), "", 3, f"error: {over}{six}"),
            (("0,0,0,0,0,1", "-"), "1,2\r\n0,0,0,0,0,16\n0 0 0 0 0 1", 2, six + two + many + six),
            (("-",), "\x1b[2J\tx\n", 2, none),
            (("-",), "", 0, ""),
        ):
            self.assertEqual(run("mean", *words, given=given), (status, want, ""), words)
        asked = ["epc", "0,0,0,0,0,1", "1,2", MINE, MINE]
        with mock.patch.object(Database, "build", side_effect=Database.build) as build:
            with contextlib.redirect_stdout(io.StringIO()):
                self.assertEqual(__main__.main(asked), 2)
        build.assert_called_once_with(38)

    def test_a_closed_pipe(self) -> None:
        """It ends as by SIGPIPE, and says nothing."""
        for words in (["epc", XGID], ["moves", XGID], ["--help"]):
            ends, there = os.pipe()
            os.close(ends)
            told = run_command(*words, stdout=there)
            os.close(there)
            self.assertEqual((told.returncode, told.stderr), (-signal.SIGPIPE, ""), words)

    def test_play_and_moves(self) -> None:
        here = database(44)
        best = here.play(MINE, 21)
        for words in ((XGID,), (MINE, "21"), (MINE, "1-2"), (XGID, "21")):
            self.right(f"{best.text}, to {best.to}\n", "play", *words)
        lines = [
            f"{here.play_to(MINE, 21, choice.to).text}, to {choice.to}:"
            f" {float(choice.loss):.6f} rolls, {choice.loss}\n"
            for choice in here.moves(MINE, 21)
        ]
        self.assertGreater(len(lines), 5)
        self.right("".join(lines), "moves", XGID)
        other = here.play(MINE, 66)
        self.right(f"{other.text}, to {other.to}\n", "play", XGID, "66")

    def test_wins(self) -> None:
        chance = database(44).wins(MINE, THEIRS)
        for words in ((XGID,), (MINE, THEIRS)):
            status, told, errors = run("wins", *words)
            self.assertEqual((status, errors), (0, ""))
            self.assertEqual(told.split("\n")[0], f"{float(chance):.6f}, {chance}")
            self.assertIn("usually wins slightly more often", told)

    def test_the_lines_of_the_page(self) -> None:
        page = (ROOT / "docs/embedding.md").read_text("utf-8")
        [block] = re.findall(r"```console\n(.*?)```", page, re.DOTALL)
        asked = re.findall(r"^\$ python -m bearoff (.*)\n((?:[^$].*\n)*)", block, re.MULTILINE)
        self.assertEqual(len(asked), 3)
        for words, want in asked:
            self.right(want, *words.split())

    def test_what_goes_wrong(self) -> None:
        eight = str(FOLDER / FILES[8])
        for words, status, line in (
            (
                ("play", "1,2", "21"),
                2,
                "bearoff: a position is six counts, and these are 2: 1,2\n",
            ),
            (
                ("play", "0,0,0,0,0,1"),
                2,
                "bearoff: missing roll after the position, for example 21\n",
            ),
            (
                ("play", "0,0,0,0,0,1", "7"),
                2,
                "bearoff: not a roll of two dice, as in 21 or \"2-1\": '7'\n",
            ),
            (("wins", MINE), 2, "bearoff: the opponent's position is missing"),
            (("play", "0,0,0,0,0,1", "77"), 3, "bearoff: a die is not 1 to 6"),
            (("play", "0,0,0,0,0,0", "21"), 3, "bearoff: no checker is left"),
            (("wins", "0,0,0,0,0,16", MINE), 3, "bearoff: more than 15 checkers"),
            (("play", XGID, "--database", eight), 3, "bearoff: more pips than the bound"),
            (("epc", MINE, "--database", f"{eight}.none"), 1, "bearoff: [Errno 2]"),
            (("export", "table.txt"), 2, "bearoff: the name of the file ends in none of .csv"),
            (("export", "no/folder/table.csv"), 1, "bearoff: [Errno 2]"),
            (("gnubg", "write", eight, "file.bd"), 2, "bearoff: the file has all 54264 positions"),
            (("gnubg", "compare", eight), 2, "bearoff: not a one-sided bearoff file"),
            (("gnubg",), 2, "usage: python -m bearoff gnubg"),
            (("mean",), 2, "usage: python -m bearoff mean"),
            ((), 2, "usage: python -m bearoff"),
        ):
            told = run(*words)
            self.assertEqual(told[:2], (status, ""), told)
            self.assertTrue(told[2].startswith(line), told)
            self.assertNotIn("Traceback", told[2])

    def test_words_that_a_terminal_would_obey(self) -> None:
        for words in (
            ("\x1b[2J",),
            ("play", "\x1b[2J"),
            # with a blank it would be taken as a position
            ("mean", "1", "--\x1b[2J\nbearoff:right"),
            ("play", "0,0,0,0,0,1", "-\x1b[2J\nbearoff: right"),
            ("mean", "0,0,0,0,0,1", "--database", "no\x1b[2J\nfile\u202e"),
            ("export", "\x1b]0;\x07.csv\n"),
            ("export", "no/\x1b]0;\x07\n.csv"),
            ("grade", "\x9b2J\n"),
            ("gnubg", "compare", "\x1b\n"),
            ("gnubg", "write", "\x1b\n", "file"),
        ):
            _, told, errors = run(*words)
            self.assertEqual(told, "")
            *usage, last = errors.rstrip("\n").split("\n")
            self.assertRegex(last, "^(python -m )?bearoff( [a-z]+)*: ")
            self.assertTrue(not usage or usage[0].startswith("usage: "), errors)
            self.assertTrue(all(map(str.isprintable, [*usage, last])), errors)


class Program(unittest.TestCase):
    """Commands of the program `bearoff`, whose words are handed to it."""

    def setUp(self) -> None:
        place = tempfile.TemporaryDirectory()
        self.addCleanup(place.cleanup)
        self.path = place.name
        self.program = Path(place.name, "bearoff")

    def test_they_are_those_of_its_help(self) -> None:
        told = subprocess.run([PROGRAM, "--help"], stdout=subprocess.PIPE, encoding="utf-8")
        listed = re.search(r"^Commands:\n((?:  .*\n)+)", told.stdout, re.MULTILINE)
        assert listed
        theirs = set(re.findall(r"^  ([a-z]+) ", listed[1], re.MULTILINE)) - {"help"}
        self.assertEqual(theirs, {*__main__.PROGRAM})
        status, told_here, _ = run("--help")
        self.assertEqual(status, 0)
        for name in theirs:
            self.assertRegex(told_here, rf"\b{name}\b")

    def test_it_answers(self) -> None:
        self.program.symlink_to(PROGRAM)
        eight, lines = str(FOLDER / FILES[8]), "mean 0,0,0,0,0,1\nsix\n"
        damaged = Path(self.path, "damaged")
        damaged.write_bytes(Path(eight).read_bytes()[:-1])
        for words in (
            ("check", eight),
            ("check", "--board", eight),
            ("query", eight),
            ("ask", eight, "mean 0,0,0,0,0,1", "play 1,0,0,0,0,0 21"),
            ("about", eight),
            ("about", f"{self.path}/none"),
            ("audit", eight),
            ("check", str(damaged)),
            ("upgrade", eight, "/no/such"),
            ("build", "--pips", "99", f"{self.path}/new"),
            ("check", "--help"),
            ("check",),
        ):
            own = subprocess.run([PROGRAM, *words], input=lines.encode(), capture_output=True)
            told = run(*words, given=lines, path=self.path)
            wanted = (own.returncode, own.stdout.decode(), own.stderr.decode())
            self.assertEqual(told, wanted, words)

    def test_what_it_is_given(self) -> None:
        """Each word as it is, whatever its bytes are, and the signals as they were."""
        self.program.write_text('#!/bin/sh\nprintf "<%s>" "$@"\ngrep SigIgn /proc/self/status\n')
        self.program.chmod(0o755)
        words = [b"build", b"", b" a  b ", b"\xff\n", b"--help", b"-x", b"*"]
        direct = subprocess.run([os.fsencode(self.program), *words], capture_output=True)
        environment = {**os.environ, "PATH": f"{self.path}:/usr/bin:/bin"}
        command: List[bytes] = [os.fsencode(sys.executable), b"-m", b"bearoff", *words]
        here = ROOT / "python"
        told = subprocess.run(command, cwd=here, env=environment, capture_output=True)
        self.assertEqual((told.stdout, told.stderr), (direct.stdout, b""))
        self.assertIn(b"<\xff\n><--help>", told.stdout)

    def test_which_one(self) -> None:
        """The one beside this Python before one that the system finds."""
        for is_beside in (True, False):
            if not is_beside:
                self.program.unlink()
            else:
                self.program.write_text("#!/bin/sh\n")
                self.program.chmod(0o755)
            with mock.patch("sysconfig.get_path", return_value=self.path), mock.patch(
                "shutil.which", return_value="/found/bearoff"
            ), mock.patch("os.execv", side_effect=OSError("no")) as become:
                with contextlib.redirect_stderr(io.StringIO()):
                    self.assertEqual(__main__.main(["check", "race.db"]), 1)
            program = str(self.program) if is_beside else "/found/bearoff"
            become.assert_called_once_with(program, [program, "check", "race.db"])

    def test_there_is_none(self) -> None:
        status, told, errors = run("check", "race.db", path=self.path)
        line = "bearoff: check is a command of the program bearoff, which was not found\n"
        self.assertEqual((status, told, errors), (1, "", line))
        self.program.write_bytes(b"no program")
        self.program.chmod(0o755)
        status, told, errors = run("check", "race.db", path=self.path)
        self.assertEqual((status, told, errors.count("\n")), (1, "", 1))
