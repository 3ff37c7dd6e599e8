"""The built program as a user runs it: each command with its words, files and streams, also those
that fail; databases that are refused; lines and their replies; files that change or are longer
than any database; and each bound once, with the sizes and the digests that were counted
outside."""

import contextlib
import hashlib
import os
import re
import resource
import shlex
import shutil
import subprocess
import sys
from collections import Counter
from pathlib import Path

import pytest

from running import (
    KNOWN,
    CALLERS,
    ROOT,
    SLOWER,
    as_bytes,
    at_terminal,
    code_blocks,
    expect,
    expect_same,
    expect_that,
    explained,
    run,
    succeed,
    wait_until,
)

THREE = "mean 0,0,0,0,0,1\ndist 5,0,0,0,0,0\nplay 0,0,0,2,0,0 21\n"
REPLIES = "mean 5/4 epc 245/24 10.208\ndist 2:11/36 3:25/36\nplay 4/2 2/1 to 1,0,0,1,0,0"
AUDIT = """pips 0 positions 1 least 0/1 greatest 0/1
pips 1 positions 1 least 1/1 greatest 1/1
pips 2 positions 2 least 1/1 greatest 1/1
pips 3 positions 3 least 1/1 greatest 11/6"""
TYPED_HELP = (
    "Lines: mean, dist or rank and a position; play or moves, a position and a roll; loss, a\n"
    "position, a roll and a position. A position is six counts, that of the ace point first, of\n"
    "at most 8 pips where no file is named: mean 0,0,0,0,0,1. A roll is two digits:\n"
    "play 0,0,0,2,0,0 21. An empty line or help shows this, and quit or Ctrl-D ends the input.\n"
)
BUILD_USAGE = "Usage: bearoff build --pips <N> <FILE>\n       bearoff build --board <FILE>"
READERS = ("check", "query", "query --cache 1", "audit")


def rows(text):
    """The lines of a table, each cut at its bars."""
    return [tuple(cell.strip() for cell in line.split("|")) for line in text.strip().split("\n")]


def cells(text):
    """All cells of a table."""
    return [cell for row in rows(text) for cell in row]


def digest(data):
    return hashlib.sha256(data).hexdigest()


def damage(file, source, place, *values):
    """A copy of a file with some bytes changed."""
    data = bytearray(Path(source).read_bytes())
    data[place : place + len(values)] = bytes(values)
    Path(file).write_bytes(data)


def cut(file, source, size):
    """A copy of the first bytes of a file."""
    Path(file).write_bytes(Path(source).read_bytes()[:size])


def expect_refused(ask, command, file, line):
    """A command that reads a database refuses it with a line, and upgrade opens no file for it."""
    words = [*command.split(), file, *(["newer"] if command == "upgrade" else [])]
    expect(ask(words, THREE), 3, "", f"bearoff: refused {line}")


class TestCommands:
    """Each command, with its words, and the files and the outputs that fail."""

    @pytest.mark.parametrize(
        "words, input, output",
        [
            pytest.param(words, input, output, id=name or words)
            for name, words, input, output in (
                ("", "build --pips 8 made", "", "built pips 8 positions 64"),
                ("", "check eight", "", "ok pips 8 positions 64"),
                ("", "query eight", THREE, REPLIES),
                *(("", f"query --cache {it} eight", THREE, REPLIES) for it in (1, 2, 64, 65535)),
                ("no words", "", THREE, REPLIES),
                ("no words behind the options", "--", THREE, REPLIES),
                ("a last line without a line feed", "", THREE[:-1].encode(), REPLIES),
                ("no input", "", "", ""),
                ("", "audit three", "", AUDIT),
                ("", "upgrade eight made", "", "upgraded pips 8 positions 64"),
                ("query of an upgrade", "query new", THREE, REPLIES),
                ("query of what is refused", "query eight", "help", "error bad-line"),
            )
        ],
    )
    def test_answers(self, files, ask, words, input, output):
        expect(ask(words, input), 0, output)

    @pytest.mark.parametrize(
        "words, status, error",
        [
            ("upgrade new newer", 3, "not-old"),
            ("upgrade nothing newer", 1, "open"),
            ("upgrade eight .", 1, "open"),
            ("upgrade eight {full}", 1, "write"),
            ("build --pips 1 .", 1, "open"),
            ("build --pips 8 {full}", 1, "write"),
            ("build --pips 59 newer", 2, "over-bound"),
            ("build --pips 255 newer", 2, "over-bound"),
            *((f"{command} nothing", 1, "open") for command in READERS),
            *((f"{command} .", 1, "file") for command in READERS),
        ],
    )
    def test_faults(self, files, ask, full, words, status, error):
        expect(ask(words.format(full=full)), status, "", f"bearoff: {error}")
        assert os.path.exists(full) and not os.path.isfile(full), "the device is gone"

    def test_upgrade_of_a_new_file_over_an_old_one(self, files, ask):
        shutil.copy("new", "same")
        expect(ask("upgrade same eight"), 3, "", "bearoff: not-old")
        expect_same("same", "new", "the new file")

    def test_upgrade_over_itself(self, files, ask):
        expect(ask("upgrade eight eight"), 0, "upgraded pips 8 positions 64")
        expect_same("eight", "new", "the upgrade of a file over itself")

    # other spellings: an option with `=`, or behind the file; and behind `--` each word is a file.
    # Each makes its file.
    @pytest.mark.parametrize(
        "words, file",
        rows(
            """
        --pips=6 other|other
        other --pips 6|other
        other --pips=6|other
        --pips 6 -- other|other
        --pips=6 -- other|other
        --pips 6 -|-
        --pips=6 -- --pips|--pips
        --pips 6 -- -x|-x
        --pips 6 -- --board|--board
    """
        ),
    )
    def test_spellings_of_build(self, files, ask, words, file):
        expect(ask("build " + words), 0, "built pips 6 positions 30")
        expect_same(file, "six", f"build {words}")

    @pytest.mark.parametrize("words, file", rows("-- six other|other\n-- six -y|-y\n-- -x --|--"))
    def test_spellings_of_upgrade(self, files, ask, built, words, file):
        shutil.copy("six", "-x")
        expect(ask("upgrade " + words), 0, "upgraded pips 6 positions 30")
        expect_same(file, built(6, is_new=True), f"upgrade {words}")

    @pytest.mark.parametrize(
        "words", cells("-- six|six --|-|-- -|-- --pips|-- -x|-- -y|-- --|-- --board")
    )
    def test_spellings_of_check(self, files, ask, words):
        for name in ("-", "--pips", "-x", "-y", "--", "--board"):
            shutil.copy("six", name)
        expect(ask("check " + words), 0, "ok pips 6 positions 30")

    @pytest.mark.parametrize(
        "words",
        cells(
            "--cache=3 eight | eight --cache 3 | eight --cache=3 | -- eight | --cache 3 -- eight"
            " | --cache=3 -- eight"
        ),
    )
    def test_spellings_of_query(self, files, ask, words):
        expect(ask("query " + words, THREE), 0, REPLIES)

    def test_query_of_a_file_with_a_dash(self, files, ask):
        os.rename("three", "-z")
        told = "mean 1/1 epc 49/6 8.167\nerror over-bound"
        expect(ask("query -- -z", "mean 0,0,1,0,0,0\nmean 0,0,0,1,0,0"), 0, told)

    @pytest.mark.parametrize("words", ["-- three", "three --", "-- -z"])
    def test_spellings_of_audit(self, files, ask, words):
        shutil.copy("three", "-z")
        expect(ask("audit " + words), 0, AUDIT)

    @pytest.mark.skipif(os.getuid() == 0, reason="root may read each file")
    def test_no_leave_to_read(self, files, ask):
        os.chmod("eight", 0)
        expect(ask("check eight"), 1, "", "bearoff: open")

    # words that are refused: a text on standard error alone, and no file
    @pytest.mark.parametrize(
        "words",
        cells(
            """
        build --pips x large | build --pips 256 large | build large | build --pips 8 | check
        query --cache 0 eight | query --cache 65536 eight | query eight eight | upgrade eight
        build --pips=x large | build --pips= large | build --pips=256 large | build --pips=8
        build --pips=8 -- | build -- large --pips 8 | build -- --pips 8 large
        build --pips=8 --pips=8 large | build --pips=8 -large | query --cache=0 eight
        query --cache=65536 eight | query --cache= eight | query -- eight --cache=3 | check --
        audit -- | query -- | upgrade -- | upgrade -- eight | -- check eight | -- -- | -- nothing
        upgrade eight large large | ask | ask eight | ask -- | ask -- eight
        ask --board eight help | ask eight help -x | ask eight --cache 3 help | about | about --
        about eight eight | about --board eight | about -- eight eight | nothing | build --board
        build --board -- | build --board large large | build --board=large
        build --board --board large | build --pips --board large | check --board | bogus
        check eight --board large | check --board=eight | query --board | check --pips 3 eight
        query eight --board eight | query --cache --board eight | audit --board
        audit --board eight eight | upgrade --board eight large | --board eight
    """
        ),
    )
    def test_words_that_are_refused(self, files, ask, words):
        done = ask(words)
        is_so = (done.status, done.output) == (2, b"") and b"tip:" not in done.errors != b""
        expect_that(is_so, done, "status 2, and a text without tips on standard error alone")

    # an option that a board file has not is named
    @pytest.mark.parametrize(
        "words, option",
        [
            ("build --pips 8 --board large", "--pips"),
            ("build --board --pips=8 large", "--pips"),
            ("build large --board --pips 0", "--pips"),
            ("query --cache 5 --board eight", "--cache"),
            ("query --board eight --cache=5", "--cache"),
        ],
    )
    def test_options_beside_board(self, files, ask, words, option):
        usage = {"--pips": BUILD_USAGE, "--cache": "Usage: bearoff query [OPTIONS] <FILE>"}[option]
        told = f"error: the argument '{option} <N>' cannot be used with '--board'\n\n{usage}"
        expect(ask(words), 2, "", f"{told}\n\nFor more information, try '--help'.")

    @pytest.mark.parametrize(
        "words",
        "X|help X|build --pips X db|build --pips 6 db X|check a X|query --cache X db|query --X db"
        "|ask --X db help|about a X|audit --X a|upgrade a b X|--X".split("|"),
    )
    def test_words_that_a_terminal_does_not_print(self, files, ask, words):
        """A word is shown with a question mark for each character that writes no letter."""
        done = ask([it.replace("X", "\x1b[2J\n\x9bX\u202e") for it in words.split()])
        told = done.errors.decode()
        assert (done.status, done.output) == (2, b"") and "?[2J??X?" in told, done
        assert not [it for it in told if it != "\n" and not it.isprintable()] and "\nX" not in told

    def test_a_build_without_a_bound(self, files, ask):
        told = f"error: --pips is missing\n\n{BUILD_USAGE}\n\nFor more information, try '--help'."
        expect(ask("build large"), 2, "", told)

    # the help of a command tells of board files, and of what refuses one
    @pytest.mark.parametrize("name", ["build", "check", "query", "audit"])
    def test_helps_of_board(self, files, ask, name):
        helps = {
            ask(f"{name} {it}").output for it in ("--help", "--board --help", "--help --board")
        }
        (text,) = helps
        assert b"FILE is a board file: the whole home board, 90 pips" in text
        assert name == "build" or b"With `--board` a database is refused with" in text

    # a word that is no UTF-8 text names no file; X stands for it
    @pytest.mark.parametrize(
        "words",
        [
            *(f"{command} X" for command in READERS),
            *(f"{command} --board X" for command in ("build", "check", "query", "audit")),
            *cells("X | build --pips 8 X | build --pips X made | upgrade X made"),
            *cells("upgrade eight X | ask X help | ask -- X help | ask X X"),
        ],
    )
    def test_a_word_that_is_no_text(self, files, ask, words):
        word = os.fsdecode(b"made-\xff")
        expect(ask([word if it == "X" else it for it in words.split()]), 1, "", "bearoff: open")

    # .. and what stands in it
    @pytest.mark.parametrize(
        "words, told",
        rows(
            """
        --version|bearoff 1.0.0
        --help|Usage: bearoff [COMMAND]
        -h|  -h, --help     Print help (see more with '--help')
        --help|Examples:
        --help|  1  I/O error, out of memory, or `ask` could answer none of its queries
        help build|Usage: bearoff build --pips <N> <FILE>
        help build|The largest pip count in the database, 0 to 58
        help build|Exit status: 0 FILE was written; 1 I/O error or out of memory (FILE is unchanged, or the whole
        check --help|Usage: bearoff check [OPTIONS] <FILE>
        query -h|Usage: bearoff query [OPTIONS] <FILE>
        ask --help|Usage: bearoff ask <FILE> <LINE>...
        ask --help|A query in quotes: 'mean 0,0,0,0,0,1'
        ask --help|Exit status: 0 every query has its reply, and one at least was answered; 1 none was, I/O error
        show --help|Usage: bearoff show [OPTIONS] [FILE] <POSITION>... [ROLL]
        help about|Usage: bearoff about <FILE>
        help about|Exit status: 0 FILE is right; 1 I/O error or out of memory; 2 invalid arguments; 3 FILE failed
        audit --help|Usage: bearoff audit [OPTIONS] <FILE>
        audit --help|Exit status: 0 success; 1 I/O error or out of memory; 2 invalid arguments; 3 the file failed
        upgrade --help|Usage: bearoff upgrade <OLD> <NEW>
    """
        ),
    )
    def test_words_that_tell_a_text(self, files, ask, words, told):
        done = ask(words)
        is_so = done.status == 0 and told.encode() in done.output and done.errors == b""
        expect_that(is_so, done, f"status 0, and '{told}' on standard output alone")

    @pytest.mark.parametrize(
        "words",
        cells(
            """| --help | check one | query one | ask one help | about one | audit one
            build --pips 1 other | upgrade eight other"""
        ),
    )
    def test_a_full_output(self, files, program, full, words):
        with open(full, "wb") as output:
            done = subprocess.run(
                [program, *words.split()],
                input=b"mean 0,0,0,0,0,0\n",
                stdout=output,
                stderr=subprocess.PIPE,
            )
        assert (done.returncode, done.stderr) == (1, b"bearoff: write\n")

    def test_full_outputs(self, files, program, full):
        with open(full, "wb") as output:
            how = {"stdin": subprocess.DEVNULL, "stdout": output, "stderr": output}
            assert subprocess.run([program, "check", "nothing"], **how).returncode == 1

    def test_a_reader_that_goes_away(self, room, program):
        with open("lines", "wb") as lines:
            lines.write(b"mean 0,0,0,0,0,1\n" * 200000)
        with open("lines", "rb") as lines, subprocess.Popen(
            [program], stdin=lines, stdout=subprocess.PIPE, stderr=subprocess.PIPE
        ) as child:
            assert child.stdout.readline() == b"mean 5/4 epc 245/24 10.208\n"
            child.stdout.close()
            errors = child.stderr.read()
            assert (child.wait(60), errors) == (1, b"bearoff: write\n")


def opened_by(process):
    """The names of the files that a process has open, each by its number."""
    names = {}
    for number in Path(f"/proc/{process}/fd").iterdir():
        with contextlib.suppress(FileNotFoundError):
            names[number.name] = os.readlink(number)
    return names


class TestClosedStreams:
    """Each of the seven ways to start with standard streams that are closed: a file that is opened
    never becomes one of them, so a command says what it says of a stream that fails, or works
    where it needs none. Where the root folder can't be opened to stand in for a stream, it says
    so."""

    WORDS = cells(
        """| --help | build --pips 3 made | check three | query three | query --cache 2 three
        ask three 'rank 1,0,0,0,0,0' | audit three | upgrade three made | build --board made
        check --board board | query --board board | ask board 'rank 1,0,0,0,0,0'
        audit --board board"""
    )
    every_way = pytest.mark.parametrize("closed", ["0", "1", "2", "01", "02", "12", "012"])

    @every_way
    @pytest.mark.parametrize("words", WORDS)
    def test_streams(self, files, ask, board, words, closed):
        shutil.copy(board(8), "board")
        words = shlex.split(words)
        ample = ask(words, THREE)
        expect_that(ample.status == 0, ample, "status 0")
        whole = None
        if os.path.exists("made"):
            whole = Path("made").read_bytes()
            os.remove("made")
        error = "bearoff: write" if "1" in closed else ""
        if "0" in closed and words[:1] in ([], ["query"]):
            error = "bearoff: read"

        def close():
            for stream in closed:
                os.close(int(stream))

        done = ask(words, THREE if "0" not in closed else "", preexec_fn=close)
        expect(
            done, 1 if error else 0, b"" if error else ample.output, "" if "2" in closed else error
        )
        if whole is not None:
            expect_same("made", whole, f"'{words}' with the streams {closed} closed")
        assert os.path.getsize("three") == 3014

    @every_way
    def test_what_stands_in(self, room, program, closed):
        """While a file is open each closed stream is the root folder."""
        os.mkfifo("pipe")

        def close():
            for stream in closed:
                os.close(int(stream))

        # it waits for what the pipe will give
        with open("pipe", "r+b", buffering=0):
            streams = dict.fromkeys(("stdin", "stdout", "stderr"), subprocess.DEVNULL)
            child = subprocess.Popen([program, "check", "pipe"], preexec_fn=close, **streams)
            wait_until(lambda: str(room / "pipe") in opened_by(child.pid).values())
            # a list that was made while files were opened may leave some out
            opened = opened_by(child.pid)
        child.wait(60)
        assert {stream: opened.get(stream) for stream in closed} == {it: "/" for it in closed}

    @pytest.fixture(scope="class")
    def apart(self, program, built, board, store):
        """Runs the program with a root folder of its own, which it may not read: as a user who is
        not root, and in a folder with two files that may be written."""
        if os.getuid() != 0 or Path(program).read_bytes()[:4] != b"\x7fELF":
            pytest.skip("a root folder of one's own is given by root, to a program with no script")
        root = store / "root"
        (root / "room").mkdir(parents=True)
        shutil.copyfile(program, root / "bearoff")
        (root / "bearoff").chmod(0o755)
        # a static program needs none
        for library in re.findall(r"(/\S+) \(0x", run("ldd", program).output.decode()):
            (root / library[1:]).parent.mkdir(parents=True, exist_ok=True)
            shutil.copy(library, root / library[1:])
        shutil.copy(built(3), root / "room/three")
        shutil.copy(board(8), root / "room/board")
        (root / "room").chmod(0o777)
        root.chmod(0o711)

        def asked(words, closed, input):
            def enter():
                os.chroot(root)
                os.chdir("/room")
                os.setgroups([])
                os.setgid(65534)
                os.setuid(65534)
                for stream in closed:
                    os.close(int(stream))

            try:
                return run("/bearoff", *words.split(), input=input, preexec_fn=enter)
            except subprocess.SubprocessError:
                pytest.skip("a root folder of one's own can't be had here")

        asked.room = root / "room"
        return asked

    @every_way
    @pytest.mark.parametrize("words", WORDS)
    def test_no_root_folder(self, apart, words, closed):
        done = apart(words, closed, THREE if "0" not in closed else "")
        expect(done, 1, "", "" if "2" in closed else "bearoff: open")
        assert sorted(os.listdir(apart.room)) == ["board", "three"], "a file was opened"

    @pytest.mark.parametrize("words", ["check three", "query three", "check --board board"])
    def test_no_root_folder_and_no_closed_stream(self, apart, words):
        """Then it is not needed."""
        done = apart(words, "", THREE)
        expect_that(done.status == 0 and done.errors == b"", done, "status 0")


HEADERS = {
    "no bytes": (lambda: cut("bad", "one", 0), "header too-short"),
    "31 bytes": (lambda: cut("bad", "one", 31), "header too-short"),
    "a byte less": (lambda: cut("bad", "one", 883), "header bad-length"),
    "a byte more": (lambda: damage("bad", "one", 884, 0), "header bad-length"),
    "magic": (lambda: damage("bad", "one", 0, 0), "header bad-magic"),
    "version 3": (lambda: damage("bad", "one", 9, 3), "header bad-version"),
    "version 2": (lambda: damage("bad", "one", 9, 2), "header bad-record-bytes"),
    "bound": (lambda: damage("bad", "one", 11, 45), "header bad-bound"),
    "count": (lambda: damage("bad", "one", 15, 3), "header bad-count"),
    "record bytes": (lambda: damage("bad", "one", 19, 171), "header bad-record-bytes"),
    "reserved": (lambda: damage("bad", "one", 31, 1), "header bad-reserved"),
}


def play_worse():
    """A copy of the file of eight pips in which a play isn't least (of rank 44, the one of 21 is
    recorded as rank 13), and the mean and the shares of its record are those of that play."""
    data = bytearray(Path("eight").read_bytes())

    def numbers(rank):
        record = data[32 + 426 * rank :][:426]
        return [int.from_bytes(record[place:][:16], "big") for place in (0, *range(58, 426, 16))]

    best, worse = numbers(int.from_bytes(data[32 + 426 * 44 + 18 :][:2], "big")), numbers(13)
    later = [2 * (new - old) // 36 for old, new in zip(best, worse)]
    told = [n + more for n, more in zip(numbers(44), (later[0], 0, *later[1:]))]
    assert sum(told[1:]) == 36**22
    mean, *shares = (number.to_bytes(16, "big") for number in told)
    damage("bad", "eight", 32 + 426 * 44, *mean, *data[32 + 426 * 44 + 16 :][:2], 0, 13)
    damage("bad", "bad", 32 + 426 * 44 + 58, *b"".join(shares))


PLAY_OF_44 = 32 + 426 * 44 + 18
# a mean, a play, a share, a play that isn't least (of rank 44, the one of 21 recorded as rank 13),
# alone and with the numbers of that play, numbers that are too large to be added, and a mean in a
# file of version 2
RECORDS = {
    "a mean": (lambda: damage("bad", "one", 473, 1), "mean rank 1"),
    "a play": (lambda: damage("bad", "one", 475, 1), "play rank 1 roll 0"),
    "a share": (lambda: damage("bad", "one", 883, 1), "spread rank 1 k 22"),
    "not least": (lambda: damage("bad", "eight", PLAY_OF_44, 0, 13), "not-least rank 44 roll 1"),
    "not least, with its numbers": (play_worse, "not-least rank 44 roll 1"),
    "large numbers": (
        lambda: Path("bad").write_bytes(Path("one").read_bytes()[:458] + b"\xff" * 426),
        "play rank 1 roll 0",
    ),
    "a mean of version 2": (lambda: damage("bad", "one_new", 90 + 15, 1), "mean rank 1"),
}


class TestRefusals:
    """Headers that are refused, cut, a byte too long, and a byte changed in each part; and records
    that are refused."""

    @pytest.mark.parametrize("command", [*READERS, "upgrade"])
    @pytest.mark.parametrize("which", [*HEADERS, *RECORDS])
    def test_refused(self, files, ask, built, which, command):
        shutil.copy(built(1, is_new=True), "one_new")
        make, line = {**HEADERS, **RECORDS}[which]
        make()
        expect_refused(ask, command, "bad", line)


class TestLongFiles:
    """Files that are longer than their database, also than any database, and than what is read of
    a file."""

    @pytest.mark.parametrize("command", [*READERS, "upgrade"])
    @pytest.mark.parametrize(
        "size",
        [
            27297,
            15060844,
            16777216,
            16777217,
            16804512,
            *range(20000000, 20000003),
            20065537,
            40000000,
        ],
    )
    def test_longer(self, files, ask, size, command):
        os.truncate("eight", size)
        expect_refused(ask, command, "eight", "header bad-length")


class TestLongestFiles:
    """The same of the longest database, from one byte more on."""

    def test_whole(self, built, ask):
        expect(ask(["check", built(58)]), 0, "ok pips 58 positions 46062")

    @pytest.mark.parametrize("command", [*READERS, "upgrade"])
    @pytest.mark.parametrize(
        "size", [15060845, 16777216, 16777217, 20000000, 20000001, 20000002, 20065537, 40000000]
    )
    def test_longer(self, room, built, ask, size, command):
        shutil.copy(built(58), "long")
        os.truncate("long", size)
        expect_refused(ask, command, "long", "header bad-length")


class TestLongestList:
    @pytest.mark.parametrize("words", [["query"], ["query", "--cache", "9"]], ids=" ".join)
    def test_words(self, built, ask, words):
        """The longest list of moves of all positions and rolls: 108 results, counted outside. In
        memory it lies in a room of its own, and over pages it takes memory. A program that is
        made without proof takes minutes for pages."""
        done = ask([*words, built(58)], "moves 3,3,2,2,2,3 11", timeout=900)
        expect_that(len(set(done.output.split())) == 109, done, "109 different words")


class TestTies:
    """A tied play that the builder would not choose (of rank 21, the one of 21 recorded as rank 5)
    is told, and kept by an upgrade."""

    LINE = "play 0,1,0,1,0,0 21"

    def test_the_play_of_the_builder(self, files, ask):
        expect(ask("query six", self.LINE), 0, "play 2/off 4/3 to 0,0,1,0,0,0")

    @pytest.mark.parametrize("file", ["tied", "kept"])
    @pytest.mark.parametrize("command", ["check", "query", "query --cache 1"])
    def test_a_tied_play(self, files, ask, file, command):
        damage("tied", "six", 32 + 426 * 21 + 18, 0, 5)
        expect(ask("upgrade tied kept"), 0, "upgraded pips 6 positions 30")
        assert os.path.getsize("kept") == 3228
        told = "ok pips 6 positions 30" if command == "check" else "play 4/2 2/1 to 1,1,0,0,0,0"
        expect(ask(f"{command} {file}", self.LINE), 0, told)


class TestLongLines:
    @pytest.mark.parametrize("length", [127, 128, 129, 130, 131, 1000000])
    def test_long(self, ask, length):
        """Lines that are too long, by one byte and by many, and one that only its spaces make
        wrong."""
        lines = b"rank 1,0,0,0,0,0".ljust(length) + b"\r\nrank 1,0,0,0,0,0\n"
        expect(ask("", lines), 0, "error bad-line\nrank 1")

    @pytest.mark.parametrize(
        "words, bound", [("query", 58), ("query --cache 9", 8), ("query --board", 90)]
    )
    def test_each_length(self, ask, built, whole, words, bound):
        lines = b"".join(b"x" * length + b"\n" for length in range(140))
        file = whole if bound == 90 else built(bound)
        expect(ask([*words.split(), file], lines), 0, "error bad-line\n" * 140)


class TestOneAtATime:
    @pytest.mark.parametrize("words", ["", "query eight", "query --cache 1 eight"])
    def test_a_thousand(self, files, program, words):
        """One line, one reply, a thousand times."""
        with subprocess.Popen(
            [program, *words.split()], stdin=subprocess.PIPE, stdout=subprocess.PIPE
        ) as child:
            for _ in range(1000):
                child.stdin.write(b"mean 0,0,0,0,0,1\n")
                child.stdin.flush()
                assert child.stdout.readline() == b"mean 5/4 epc 245/24 10.208\n"
            child.stdin.close()
            assert (child.stdout.read(), child.wait(60)) == (b"", 0)


class TestTerminal:
    """At a terminal one control-D on a line of its own ends the input: nothing is read after
    it."""

    @pytest.fixture
    def terminal(self, files, program, whole):
        os.symlink(whole, "whole")
        return lambda words, *typed, **how: at_terminal([program, *words.split()], *typed, **how)

    @pytest.mark.parametrize("typed", [THREE, "", THREE[:-1] + "\4"], ids=["lines", "none", "cut"])
    @pytest.mark.parametrize(
        "words", ["", "query eight", "query --cache 9 eight", "query --board whole"]
    )
    def test_the_end(self, terminal, words, typed):
        told = as_bytes(REPLIES if typed else "")
        came = terminal(words, f"{typed}\4".encode(), stdout=subprocess.PIPE)
        assert came == (0, b"", told, b"")

    # where standard output is the terminal, too, a prompt stands before each line that is typed
    @pytest.mark.parametrize(
        "words, end", [("", b"\4"), ("query eight", b"quit\n"), ("query --board whole", b"\4")]
    )
    def test_the_prompt(self, terminal, words, end):
        mean = "mean 0,0,1,0,0,0"
        replies = {mean: "mean 1/1 epc 49/6 8.167\n", "": TYPED_HELP, "help": TYPED_HELP}
        lines = [mean, *5 * [""], "help", "help me", "quit it", "rank", 100 * "x"]
        told = "".join("> " + replies.get(line, "error bad-line\n") for line in lines)
        came = terminal(words, "".join(f"{line}\n" for line in lines).encode() + end)
        assert came == (0, f"{TYPED_HELP}{told}> ".encode(), None, b"")

    def test_a_file_that_is_typed(self, terminal):
        came = terminal("check /proc/self/fd/0", b"\4")
        assert came == (3, b"", None, b"bearoff: refused header too-short\n")

    def test_lines_of_a_file(self, terminal):
        Path("lines").write_text(THREE, encoding="ascii")
        with open("lines", "rb") as lines:
            assert terminal("", b"", stdin=lines) == (0, as_bytes(REPLIES), None, b"")


class TestManyTurns:
    """An input of which each read gives one byte."""

    @pytest.mark.parametrize(
        "words", ["query eight", "query --cache 9 eight", "query --board whole"]
    )
    def test_more_than_a_million(self, files, program, whole, words):
        os.symlink(whole, "whole")
        # such a pipe keeps what is written at a time apart
        out, into = os.pipe2(os.O_DIRECT | os.O_CLOEXEC)
        with subprocess.Popen(
            [program, *words.split()],
            stdin=out,
            stdout=subprocess.PIPE,
            stderr=subprocess.PIPE,
        ) as child:
            os.close(out)
            with contextlib.suppress(BrokenPipeError):
                for _ in range(1 << 20):
                    os.write(into, b"x")
                os.write(into, b"\nrank 1,0,0,0,0,0\n")
            os.close(into)
            output, errors = child.communicate(timeout=60 * SLOWER)
        assert (child.returncode, output, errors) == (0, b"error bad-line\nrank 1\n", b"")


class TestChanges:
    """A file that is overwritten after its check, and one that is cut: the fault is told, and no
    line of any kind is answered by the bytes that stand there now. The record that was kept may
    still be told, and a line before it that asks for no record is answered."""

    KEPT = b"mean 0,1,0,0,0,0\n", b"mean 1/1 epc 49/6 8.167\n"
    RANK = b"rank 1,0,0,0,0,0\n", b"rank 1\n"

    @pytest.mark.parametrize(
        "size, beyond", [(3014, b"\xff" * 2982), (0, b"")], ids=["overwritten", "cut"]
    )
    @pytest.mark.parametrize(
        "line",
        cells(
            """mean 1,0,0,0,0,0 | dist 1,0,0,0,0,0 | play 1,1,0,0,0,0 21
            moves 1,1,0,0,0,0 21 | loss 1,1,0,0,0,0 21 1,0,0,0,0,0"""
        ),
    )
    @pytest.mark.parametrize(
        "first, replies",
        [(b"", [b""]), (KEPT[0], [b"", KEPT[1]]), (RANK[0], [RANK[1]])],
        ids=["alone", "behind the one that was kept", "behind a rank"],
    )
    def test_changed(self, files, program, size, beyond, line, first, replies):
        words = [program, "query", "--cache", "1", "three"]
        with subprocess.Popen(
            words, stdin=subprocess.PIPE, stdout=subprocess.PIPE, stderr=subprocess.PIPE
        ) as child:
            child.stdin.write(self.KEPT[0])
            child.stdin.flush()
            assert child.stdout.readline() == self.KEPT[1]
            with open("three", "r+b") as file:
                file.seek(32)
                file.write(beyond)
                file.truncate(size)
            output, errors = child.communicate(first + as_bytes(line) + self.KEPT[0], timeout=60)
        assert output in replies
        assert (child.returncode, errors) == (1, b"bearoff: file\n")


def reads(program, *words):
    """How often the program has read anything when one line is answered."""
    with subprocess.Popen(
        [program, *words], stdin=subprocess.PIPE, stdout=subprocess.PIPE
    ) as child:
        child.stdin.write(b"rank 1,0,0,0,0,0\n")
        child.stdin.flush()
        assert child.stdout.readline() == b"rank 1\n"
        counts = Path(f"/proc/{child.pid}/io").read_text(encoding="ascii")
        return int(counts.split("syscr: ")[1].split()[0])


def expect_reads(program, path, positions, many, few):
    """By each of so many pages each record of the file is read once, and by each of so few the
    file is read less often the more they are."""
    without = reads(program)
    by_pages = lambda *words: reads(program, "query", *words) - without
    once = positions + 1
    for records in many:
        assert (
            by_pages("--cache", records, path) == once
        ), f"{records} pages, a header and {positions} records"
    told = [by_pages("--cache", records, path) for records in few] + [once]
    assert all(
        less > more for less, more in zip(told, told[1:])
    ), f"{told} reads by more and more pages"
    last = few[-1]
    for words in (
        [f"--cache={last}", path],
        [path, "--cache", last],
        [path, f"--cache={last}"],
        [f"--cache={last}", "--", path],
    ):
        assert by_pages(*words) == told[-2], f"as many reads by {words} as by {few[-1]} pages"


class TestReads:
    def test_of_64_positions(self, files, program):
        expect_reads(
            program, "eight", 64, ["64", "100", "65535"], ["1", "2", "4", "8", "16", "32"]
        )


class TestManyReads:
    def test_of_44_pips(self, program, built):
        expect_reads(
            program, str(built(44)), 26314, ["26314", "65535"], ["1", "100", "1000", "10000"]
        )


class TestExample:
    """The example of the page for users, as it stands there, over a database and over a file that
    is refused."""

    @pytest.fixture
    def example(self, room, program):
        Path("example.py").write_text(
            "".join(code_blocks("docs/using.md", "python")), encoding="utf-8"
        )
        return lambda: run(sys.executable, "-I", "example.py", program)

    def test_over_a_database(self, example, ask):
        succeed(*ask("build --pips 12 race.db").words)
        expect(example(), 0, "0,0,0,0,0,1 5/4\n0,0,0,2,0,0 277/162\n2,2,2,0,0,0 65441/23328")

    def test_over_a_file_that_is_refused(self, example):
        Path("race.db").write_bytes(b"no database")
        expect(example(), 1, "", "bearoff: refused header too-short\nbearoff ended with status 3")


class TestPipes:
    def test_a_reader_that_goes_away(self, room, program):
        """A build into a pipe gives its reader the first levels at once, and ends where the reader
        goes away."""
        os.mkfifo("pipe")
        with subprocess.Popen(["head", "-c", "458", "pipe"], stdout=subprocess.PIPE) as reader:
            expect(
                run(program, "build", "--pips", "44", "pipe", timeout=20), 1, "", "bearoff: write"
            )
            front = reader.communicate(timeout=20)[0]
        assert len(front) == 458


def count_positions():
    """How many positions have at most so many pips, by their checkers and their pips from point to
    point."""
    ways = Counter({(0, 0): 1})
    for point in range(1, 7):
        wider = Counter()
        for (checkers, pips), number in ways.items():
            for more in range(16 - checkers):
                wider[checkers + more, pips + more * point] += number
        ways = wider
    return [
        sum(number for (_, pips), number in ways.items() if pips <= bound) for bound in range(59)
    ]


COUNTS = count_positions()
COUNTED = {
    int(bound): (int(size), sha)
    for bound, size, sha in map(
        str.split, (CALLERS / "files_of_version_2").read_text(encoding="ascii").splitlines()
    )
}


@pytest.fixture(scope="session")
def levels(program, built):
    """The lines of each pip count."""
    return succeed(program, "audit", built(58)).splitlines(keepends=True)


class TestBounds:
    """Version 1 to 44 pips, and its upgrade; and from there on version 2. The files of version 2
    are those that were counted outside."""

    @pytest.mark.parametrize("bound", range(59))
    def test_bound(self, room, ask, levels, bound):
        count, newest = COUNTS[bound], "file"
        told = f"pips {bound} positions {count}"
        expect(ask(f"build --pips {bound} file", timeout=300), 0, f"built {told}")
        expect(ask("check file"), 0, f"ok {told}")
        expect(ask("audit file"), 0, b"".join(levels[: bound + 1]))
        if bound <= 44:
            assert os.path.getsize("file") == 32 + 426 * count
            expect(ask("upgrade file upgraded"), 0, f"upgraded {told}")
            expect(ask("check upgraded"), 0, f"ok {told}")
            newest = "upgraded"
        data = Path(newest).read_bytes()
        assert (len(data), digest(data)) == COUNTED[bound]

    # by pages it takes longer than all of the above
    @pytest.mark.parametrize(
        "bound",
        [
            pytest.param(it, marks=[pytest.mark.gate] * (it not in (*range(13), 30, 44, 58)))
            for it in range(59)
        ],
    )
    def test_pages(self, room, program, ask, bound):
        succeed(program, "build", "--pips", bound, "file")
        expect(ask("query --cache 65535 file", "rank 0,0,0,0,0,0"), 0, "rank 0")

    @pytest.mark.parametrize(
        "bound, sha",
        [
            (8, "65ad1f8b4cba6dd688b02284c450711349947df7c961a65a1e03b0f65bee5cd9"),
            (44, "c5aedb6ab5951c7e4e0845a494c4f332b51e06fcad7346a88390d6a1a0242162"),
        ],
    )
    def test_digest_of_version_1(self, built, bound, sha):
        assert digest(built(bound).read_bytes()) == sha

    def test_worked_lines(self, built, ask):
        lines = (CALLERS / "lines_of_44").read_bytes()
        expect(ask(["query", built(44)], lines), 0, (CALLERS / "replies_of_44").read_bytes())

    def test_replies_over_an_upgrade(self, built, ask):
        lines = (CALLERS / "lines_of_44").read_bytes()
        lines += succeed(sys.executable, "-I", CALLERS / "questions.py", 44, 1000)
        before, after = ask(["query", built(44)], lines), ask(
            ["query", built(44, is_new=True)], lines
        )
        expect_that(
            before.status == after.status == 0 and before.output, after, "status 0, and replies"
        )
        expect_same(after.output, before.output, "replies over an upgrade")

    def test_upgrade_over_itself(self, room, built, ask):
        shutil.copy(built(44), "same")
        expect(ask("upgrade same same"), 0, "upgraded pips 44 positions 26314")
        expect_same("same", built(44, is_new=True), "the upgrade of 44 pips over itself")

    def test_the_last_position_of_58_pips(self, built, ask):
        expect(ask(["query", built(58)], "rank 6,0,0,1,0,8"), 0, "rank 46061")


def expect_audit(ask, built, bound, sha, **how):
    """The lines of an audit, all of them, have the digest that was counted outside."""
    done = ask(["audit", built(bound)], **how)
    is_so = done.status == 0 and digest(done.output) == sha
    expect_that(is_so, done, f"status 0, and the audit with digest {sha}")


AUDIT_OF_8 = "3041c5b24c9e44ff66126de1f8b8282b862e173eae54d046657a8655eac28635"
AUDIT_OF_44 = "15ed1886bb3205fe704966262c6270292adb462fb6422948b1fdb00049aa3392"
AUDIT_OF_58 = "efcf3cd9e443566c68d98ee992ddc05fc44574da556e8fc658fd88f3796b1ab2"


class TestAsk:
    """Lines that are words, over each kind of file."""

    LINES = THREE.split("\n")[:-1]
    OVER = "bearoff: unanswered (a board file has all positions)"
    QUOTES = "bearoff: unanswered (quote a LINE: 'mean 0,0,0,0,0,1')"
    FORMS = "bearoff: unanswered (queries: play 0,0,0,2,0,0 21, or mean, dist, loss, moves, rank)"

    @pytest.mark.parametrize("file", ["eight", "new", "board"])
    def test_files(self, files, ask, board, file):
        shutil.copy(board(8), "board")
        expect(ask(["ask", file, *self.LINES]), 0, REPLIES)
        expect(ask(["ask", file, "help", "rank 1,0,0,0,0,0"]), 0, "error bad-line\nrank 1")

    @pytest.mark.parametrize(
        "words, output",
        [
            (["mean 1,0,0,0,0,0"], "mean 1/1 epc 49/6 8.167"),
            (["rank 0,0,0,0,0,0", "help", "rank 1,0,0,0,0,0"], "rank 0\nerror bad-line\nrank 1"),
            (["", "rank 1,0,0,0,0,0", ""], "error bad-line\nrank 1\nerror bad-line"),
            (["rank 1,0,0,0,0,0\r"], "rank 1"),
            (["rank 1,0,0,0,0,0\nrank 0,1,0,0,0,0"], "rank 1\nrank 2"),
            (["rank 1,0,0,0,0,0\n"], "rank 1\nerror bad-line"),
            (["\u00e9" * 200, "rank 1,0,0,0,0,0"], "error bad-line\nrank 1"),
            (["\udcff", "rank 1,0,0,0,0,0", "\udcc3"], "error bad-line\nrank 1\nerror bad-line"),
            (["rank 1,0,0,0,0,0"] * 5000, "rank 1\n" * 4999 + "rank 1"),
            (["\u00e9" * 60000] * 6 + ["rank 1,0,0,0,0,0"], "error bad-line\n" * 6 + "rank 1"),
        ],
    )
    def test_words(self, files, ask, words, output):
        expect(ask(["ask", "eight", *words], THREE), 0, output)

    @pytest.mark.parametrize("file", ["eight", "board"])
    @pytest.mark.parametrize(
        "words, output, hint",
        [
            ([""], "error bad-line", FORMS),
            (["rank"], "error bad-line", FORMS),
            (["rank", "1,0,0,0,0,0"], "error bad-line\nerror bad-line", QUOTES),
            (["rank 1,0,0", "0,0,0"], "error bad-line\nerror bad-line", FORMS),
            ([" rank 1,0,0,0,0,0"], "error bad-line", FORMS),
            (["rank 1,0,0,0,0,0\r\r"], "error bad-line", FORMS),
            (["rank 0,0,0,0,0,9", "rank 16,0,0,0,0,0"], "error over-bound\nerror too-many", OVER),
            (["\udcff", "rank 9,0,0,0,0,0"], "error bad-line\nerror over-bound", OVER),
            (["play 0,0,0,0,0,0 21"], "error finished", FORMS),
            (["loss 1,0,0,0,0,0 21 1,0,0,0,0,0"], "error not-legal", FORMS),
            (["--", "-x", "--help", "--"], "error bad-line\n" * 2 + "error bad-line", QUOTES),
        ],
    )
    def test_no_answer(self, files, ask, board, file, words, output, hint):
        shutil.copy(board(8), "board")
        expect(ask(["ask", file, *words], THREE), 1, output, hint)

    def test_words_behind_dashes(self, files, ask):
        shutil.copy("eight", "-x")
        expect(ask(["ask", "--", "-x", "rank 1,0,0,0,0,0"]), 0, "rank 1")

    def test_the_input_stays(self, files, program):
        """Nothing of standard input is read, so who started the program may read it."""
        Path("lines").write_text(THREE)
        with open("lines", "rb", buffering=0) as lines:
            done = subprocess.run(
                [program, "ask", "eight", *self.LINES], stdin=lines, capture_output=True
            )
            assert (done.returncode, done.stderr) == (0, b"")
            assert done.stdout.decode() == REPLIES + "\n"
            assert lines.read() == THREE.encode()

    @pytest.mark.parametrize(
        "place, values, line",
        [
            (0, b"F", "header bad-magic"),
            (8, b"\0\4", "header bad-version"),
            (8, b"\3\0", "header bad-version"),
            (8, b"\0\3", "header bad-record-bytes"),
            (8, b"\0\2", "header bad-record-bytes"),
            (458, b"\0" * 16, "mean rank 1"),
        ],
    )
    def test_refusals(self, files, ask, place, values, line):
        damage("damaged", "eight", place, *values)
        expect(ask(["ask", "damaged", *self.LINES]), 3, "", f"bearoff: refused {line}")

    @pytest.mark.parametrize("size", [0, 9, 10, 31, 32, 33])
    @pytest.mark.parametrize("name", ["eight", "new", "board"])
    def test_files_that_are_cut(self, files, ask, board, name, size):
        shutil.copy(board(8), "board")
        cut("cut", name, size)
        fault = "too-short" if size < 32 else "bad-length"
        expect(ask("ask cut help"), 3, "", f"bearoff: refused header {fault}")

    @pytest.mark.parametrize("file, error", [("nothing", "open"), (".", "file")])
    def test_faults(self, files, ask, file, error):
        expect(ask(["ask", file, "help"]), 1, "", f"bearoff: {error}")


NO_FILE = "cannot be opened: No such file or directory (os error 2)"
# what has no width, breaks a line or turns the direction of writing
UNSHOWN = 0x200B, 0x200F, 0x2028, 0x202E, 0x2060, 0x2066, 0x206F


class TestAbout:
    """What a file is, of each kind, and why it is refused, in words."""

    @pytest.mark.parametrize(
        "file, kind, version",
        [("eight", "database", 1), ("new", "database", 2), ("board", "board file", 3)],
    )
    @pytest.mark.parametrize("words", [["about"], ["about", "--"]])
    def test_files(self, files, ask, board, words, file, kind, version):
        shutil.copy(board(8), "board")
        expect(ask([*words, file]), 0, f"kind {kind}\nversion {version}\npips 8\npositions 64")

    def test_the_whole_board(self, files, ask, whole):
        expect(ask(["about", whole]), 0, "kind board file\nversion 3\npips 90\npositions 54264")

    @pytest.mark.parametrize("which", [*HEADERS, *RECORDS])
    def test_refusals(self, files, ask, built, which):
        shutil.copy(built(1, is_new=True), "one_new")
        make, line = {**HEADERS, **RECORDS}[which]
        make()
        # a header of version 3 is that of a board file
        line = "header bad-record-bytes" if which == "version 3" else line
        expect(ask("about bad"), 3, "", explained(line, "bad"))

    # of version 2; tests/test_boards.py has those of a board file
    @pytest.mark.parametrize(
        "place, values, line",
        [
            (0, b"F", "bad-magic"),
            (8, b"\0\4", "bad-version"),
            (8, b"\3\0", "bad-version"),
            (10, b"\xff\xff", "bad-bound"),
            (12, b"\xff", "bad-count"),
            (16, b"\xff", "bad-record-bytes"),
            (31, b"\1", "bad-reserved"),
        ],
    )
    def test_headers(self, files, ask, place, values, line):
        damage("bad", "new", place, *values)
        expect(ask("about bad"), 3, "", explained(f"header {line}", "bad"))

    @pytest.mark.parametrize("size", [0, 9, 10, 31, 32, 33])
    @pytest.mark.parametrize("name", ["eight", "new", "board"])
    def test_files_that_are_cut(self, files, ask, board, name, size):
        shutil.copy(board(8), "board")
        cut("cut", name, size)
        fault = "too-short" if size < 32 else "bad-length"
        expect(ask("about cut"), 3, "", explained(f"header {fault}", "cut"))

    # the first line and the status are those of `check`, and the second has the path as it was given
    @pytest.mark.parametrize(
        "file, line, meaning",
        [
            ("nothing", "open", NO_FILE),
            ("eight/in", "open", "cannot be opened: Not a directory (os error 20)"),
            ("no/such", "open", NO_FILE),
            (".", "file", "cannot be read: Is a directory (os error 21)"),
            ("\u00e9" * 300, "open", "cannot be opened: File name too long (os error 36)"),
        ],
    )
    def test_faults(self, files, ask, file, line, meaning):
        expect(ask(["about", file]), 1, "", f"bearoff: {line}\n{file}: {meaning}")
        expect(ask(["check", file]), 1, "", f"bearoff: {line}")

    @pytest.mark.parametrize("number", [*range(1, 32), *range(127, 160), *UNSHOWN])
    def test_a_name_that_a_terminal_does_not_print(self, files, ask, number):
        """Nothing of it reaches the terminal, also where its file is refused."""
        file = f"\u00e9{chr(number)}[31m\u65e5"
        expect(ask(["about", file]), 1, "", f"bearoff: open\n\u00e9?[31m\u65e5: {NO_FILE}")
        Path(file).write_bytes(b"")
        expect(ask(["about", file]), 3, "", explained("header too-short", "\u00e9?[31m\u65e5"))


class TestAudits:
    def test_of_8(self, ask, built):
        expect_audit(ask, built, 8, AUDIT_OF_8)


class TestBoards:
    """The whole home board, and what is no board file. tests/test_boards.py has all replies."""

    def test_build(self, files, ask, whole):
        expect(ask("build --board eight"), 0, "built pips 90 positions 54264")
        sha = "bf11d8377b8d8e7ee690d3fb1bcbb650a5e8ee105a740de12fbb117d78f8e178"
        assert digest(Path("eight").read_bytes()) == sha
        expect_same(whole, "eight", "the board file")

    def test_check(self, ask, whole):
        expect(ask(["check", "--board", whole]), 0, "ok pips 90 positions 54264")

    @pytest.mark.parametrize(
        "input, output",
        [
            (THREE, REPLIES),
            (THREE[:-1].encode(), REPLIES),
            ("", ""),
            ("rank 0,0,0,0,0,15", "rank 54263"),
            ("rank 0,0,0,5,5,5\nrank 0,0,0,3,5,7", "rank 53778\nrank 54101"),
            (
                "play 0,0,0,3,5,7 66\nmoves 0,0,0,0,0,15 66\nrank 16,0,0,0,0,0\nmean 1",
                "play 6/off 6/off 6/off 6/off to 0,0,0,3,5,3\nmoves 0,0,0,0,0,11:0/1\n"
                "error too-many\nerror bad-line",
            ),
            ("x" * 200_000, "error bad-line"),
            ("mean 0,0,0,0,0,1\r\n" * 20_000, "mean 5/4 epc 245/24 10.208\n" * 20_000),
        ],
        ids=["lines", "no last line feed", "none", "last", "middle", "kinds", "long", "many"],
    )
    def test_query(self, ask, whole, input, output):
        expect(ask(["query", "--board", whole], input), 0, output)

    def test_audit(self, ask, whole, built):
        done = ask(["audit", "--board", whole])
        to_58 = ask(["audit", built(58)]).output
        is_so = done.status == 0 and done.errors == b"" and done.output.count(b"\n") == 91
        expect_that(is_so and done.output.startswith(to_58), done, "the lines of 91 pip counts")
        last = done.output.split(b"\n")[90].split()
        assert last[:4] == [b"pips", b"90", b"positions", b"1"] and last[5] == last[7]

    @pytest.mark.parametrize(
        "words, status, error",
        [
            ("build --board .", 1, "open"),
            ("build --board nowhere/newer", 1, "open"),
            ("build --board {full}", 1, "write"),
            *(
                (f"{command} --board {file}", *told)
                for command in ("check", "query", "audit")
                for file, told in (
                    ("nothing", (1, "open")),
                    (".", (1, "file")),
                    *((it, (3, "refused header bad-version")) for it in ("eight", "new")),
                )
            ),
        ],
    )
    def test_faults(self, files, ask, full, words, status, error):
        expect(ask(words.format(full=full), THREE), status, "", f"bearoff: {error}")
        assert os.path.exists(full) and not os.path.isfile(full), "the device is gone"

    @pytest.mark.parametrize("command", ("query --cache 1", "upgrade"))
    def test_a_board_file_is_no_database(self, room, ask, whole, command):
        expect_refused(ask, command, str(whole), "header bad-version")

    @pytest.mark.parametrize("command", ("check", "query", "audit"))
    def test_a_board_file_that_is_not_asked_for(self, room, ask, whole, command):
        asked = ask([command, "--board", whole], THREE)
        assert asked.status == 0 and asked.output
        expect(ask([command, whole], THREE), 0, asked.output.decode().rstrip("\n"))

    def test_a_file_that_is_cut(self, room, ask, whole):
        data = whole.read_bytes()
        for size in (0, 31, 32, 97, len(data) - 1):
            Path("cut").write_bytes(data[:size])
            fault = "too-short" if size < 32 else "bad-length"
            expect(ask("check --board cut"), 3, "", f"bearoff: refused header {fault}")

    @pytest.mark.parametrize("words", ("check", "query", "audit", "build"))
    def test_a_full_output(self, room, program, whole, full, words):
        asked = [program, words, "--board", "made" if words == "build" else whole]
        how = {"input": THREE.encode(), "stderr": subprocess.PIPE, "timeout": 60}
        with open(full, "wb") as output:
            done = subprocess.run(asked, stdout=output, **how)
        assert (done.returncode, done.stderr) == (1, b"bearoff: write\n")


class TestLongAudits:
    def test_of_44(self, ask, built):
        expect_audit(ask, built, 44, AUDIT_OF_44)

    def test_of_58(self, ask, built):
        expect_audit(ask, built, 58, AUDIT_OF_58)


class TestSmallStack:
    """Each command over the greatest bounds on 1 MB of stack, on which the environment lies too,
    as docs/using.md promises."""

    LINES = "mean 0,0,0,0,0,1\nmoves 0,0,0,2,0,0 21"
    TOLD = "mean 5/4 epc 245/24 10.208\nmoves 1,0,0,1,0,0:0/1 0,1,1,0,0,0:1/9"

    @pytest.fixture
    def ask_it(self, ask):
        def lower():
            resource.setrlimit(resource.RLIMIT_STACK, (1024 * 1024, 1024 * 1024))

        return lambda words, input="", **more: ask(
            words, input, env=KNOWN, preexec_fn=lower, timeout=300
        )

    def test_build_of_44(self, room, ask_it, built):
        expect(ask_it("build --pips 44 old"), 0, "built pips 44 positions 26314")
        expect_same("old", built(44), "the database of 44 pips")

    def test_upgrade(self, room, ask_it, built):
        expect(ask_it(["upgrade", str(built(44)), "new"]), 0, "upgraded pips 44 positions 26314")

    def test_build_of_58(self, room, ask_it):
        expect(ask_it("build --pips 58 large"), 0, "built pips 58 positions 46062")

    def test_check(self, ask_it, built):
        expect(ask_it(["check", str(built(58))]), 0, "ok pips 58 positions 46062")

    @pytest.mark.parametrize("words", [[], ["--cache", "9"]], ids=["in memory", "by pages"])
    def test_query(self, ask_it, built, words):
        expect(ask_it(["query", *words, str(built(58))], self.LINES), 0, self.TOLD)

    def test_ask(self, ask_it, built):
        expect(ask_it(["ask", str(built(58)), *self.LINES.split("\n")]), 0, self.TOLD)

    def test_about(self, ask_it, built):
        told = "kind database\nversion 2\npips 58\npositions 46062"
        expect(ask_it(["about", str(built(58))]), 0, told)

    def test_no_words(self, ask_it):
        expect(ask_it("", self.LINES.split("\n")[0]), 0, self.TOLD.split("\n")[0])

    def test_audit(self, ask_it, built):
        expect_audit(ask_it, built, 58, AUDIT_OF_58)

    def test_the_whole_board(self, room, ask_it):
        expect(ask_it("build --board whole"), 0, "built pips 90 positions 54264")
        expect(ask_it("check --board whole"), 0, "ok pips 90 positions 54264")
        expect(ask_it("query --board whole", self.LINES), 0, self.TOLD)
        expect(ask_it(["ask", "whole", *self.LINES.split("\n")]), 0, self.TOLD)
        done = ask_it("audit --board whole")
        is_so = (done.status, done.errors, done.output.count(b"\n")) == (0, b"", 91)
        expect_that(is_so, done, "the lines of 91 pip counts")


def test_the_page_for_users_is_there():
    assert (ROOT / "docs/using.md").is_file()
