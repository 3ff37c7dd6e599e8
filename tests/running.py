"""Runs commands as a user does, and compares what came with what was wanted."""

import collections
import contextlib
import hashlib
import json
import os
import re
import shlex
import shutil
import subprocess
import termios
import threading
import time
from pathlib import Path
from urllib.parse import unquote

import pytest

import needs

ROOT = Path(__file__).resolve().parent.parent
HERE = ROOT / "tests"
CALLERS = HERE / "callers"

# how many times as long a command may take, as of a program that is made without a proof
SLOWER = int(os.environ.get("SLOWER", "1"))

# what a program that is not proved has to find in its environment to say nothing of that
KNOWN = {}

Done = collections.namedtuple("Done", "words folder input status output errors")


def as_bytes(text):
    """What a command is given or has to say: bytes as they are, and a text as the lines that it
    has."""
    if isinstance(text, bytes):
        return text
    return (text if not text or text.endswith("\n") else text + "\n").encode()


# the program, of whose runs it is looked at what stands in their folder before and after
WATCHED = set()


def standing(folder):
    """What stands in a folder and below it: of each name the mode, and the bytes or where it
    leads."""
    found = {}
    for path in folder.rglob("*"):
        data = os.readlink(path) if path.is_symlink() else None
        if data is None and path.is_file() and os.access(path, os.R_OK):
            data = hashlib.sha256(path.read_bytes()).digest()
        found[str(path)] = path.lstat().st_mode, data
    return found


def run(*words, input=b"", cwd=None, timeout=120, **more):
    """Runs a command with an input, and tells its status and both outputs. The program changes
    nothing in the folder where it is run but the file that `build` and `upgrade` name."""
    __tracebackhide__ = True
    words = [str(word) for word in words]
    given = as_bytes(input)
    here = Path(cwd or os.getcwd())
    # what is put before its calls may write there
    is_watched = words[0] in WATCHED and "env" not in more and not here.is_relative_to(ROOT)
    before = standing(here) if is_watched else {}
    try:
        done = subprocess.run(
            words, input=given, capture_output=True, cwd=cwd, timeout=timeout * SLOWER, **more
        )
    except subprocess.TimeoutExpired as late:
        pytest.fail(f"ran:    {line_of(words)}\ncame:   no end within {late.timeout} s")
    done = Done(words, str(here), given, done.returncode, done.stdout, done.stderr)
    after = standing(here) if is_watched else {}
    changed = {path for path, _ in before.items() ^ after.items()}
    if words[1:2] in (["build"], ["upgrade"]) and done.errors in (b"", b"bearoff: write\n"):
        named = words[2:] if words[1] == "build" else words[-1:]
        changed -= {os.path.realpath(here / word) for word in named}
    expect_that(not changed, done, f"{' '.join(sorted(changed))} as before")
    return done


def at_terminal(words, typed, **how):
    """Runs a command at a terminal at which something is typed, and which is each of its streams
    that is not given: its status, what the terminal shows, and the output and the errors."""
    typist, terminal = os.openpty()
    settings = termios.tcgetattr(terminal)
    settings[1] &= ~termios.OPOST
    settings[3] &= ~termios.ECHO
    termios.tcsetattr(terminal, termios.TCSANOW, settings)
    how = {"stdin": terminal, "stdout": terminal, "stderr": subprocess.PIPE, **how}
    child, shown = subprocess.Popen(words, **how), b""
    late = threading.Timer(20 * SLOWER, child.kill)
    late.start()
    os.close(terminal)
    os.write(typist, typed)
    # the terminal fails once the command has gone
    with contextlib.suppress(OSError):
        while piece := os.read(typist, 4096):
            shown += piece
    output, errors = child.communicate()
    late.cancel()
    os.close(typist)
    return child.returncode, shown, output, errors


def wait_until(holds):
    """Waits until something holds, and a minute at most: a test then says what it misses."""
    until = time.monotonic() + 60 * SLOWER
    while not holds() and time.monotonic() < until:
        time.sleep(0.01)


def shown(data, most=1500):
    return f"{data!r}" if len(data) <= most else f"{data[:most]!r}.. ({len(data)} bytes)"


def line_of(words):
    """Words as a line, and what is no UTF-8 text of them by its numbers."""
    return shlex.join(words).encode("utf-8", "backslashreplace").decode("utf-8")


def told(done):
    """What was run and what came, for a failure."""
    given = f"\ninput:  {shown(done.input, 300)}" if done.input else ""
    return (
        f"ran:    {line_of(done.words)}{given}\nin:     {done.folder}\n"
        f"came:   status {done.status}, output {shown(done.output)}, errors {shown(done.errors)}"
    )


def expect(done, status=0, output="", errors=""):
    """The status, and the whole of both outputs."""
    __tracebackhide__ = True
    output, errors = as_bytes(output), as_bytes(errors)
    if (done.status, done.output, done.errors) != (status, output, errors):
        pytest.fail(
            f"{told(done)}\nwanted: status {status}, output {shown(output)},"
            f" errors {shown(errors)}",
            pytrace=False,
        )


def expect_that(is_so, done, wanted):
    """That something holds of what came, which is said in words."""
    __tracebackhide__ = True
    if not is_so:
        pytest.fail(f"{told(done)}\nwanted: {wanted}", pytrace=False)


# what the first fault of a file means in the words of `about`
MEANINGS = {
    "header too-short": "is shorter than a header, which has 32 bytes",
    "header bad-magic": "does not begin as a database or a board file does",
    "header bad-version": "states a version other than 1, 2 and 3",
    "header bad-bound": "states more pips than a file of its version has",
    "header bad-count": "states another number of positions than its pips have",
    "header bad-record-bytes": "states records of another length than its version has",
    "header bad-reserved": "has a reserved byte in its header that is not 0",
    "header bad-length": "is shorter or longer than its header and its records",
    "play": "records a play that the rules do not allow",
    "not-least": "records a play that is not the best one",
    "mean": "records a mean that is not that of its plays",
    "spread": "records a chance that is not that of its plays",
}


def explained(line, path):
    """What `about` says of a file that is refused by a line, without the last line feed."""
    return f"bearoff: refused {line}\n{path}: {MEANINGS[line.partition(' rank')[0]]}"


def succeed(*words, **how):
    """Runs a command that has to end with status 0, and tells what it wrote."""
    __tracebackhide__ = True
    done = run(*words, **how)
    expect_that(done.status == 0, done, "status 0")
    return done.output


def copy_all(room):
    """Copies what is tracked into a repository of its own, and gives the names."""
    names = succeed("git", "ls-files", "-z", cwd=ROOT).decode("utf-8").split("\0")[:-1]
    names = [name for name in names if (ROOT / name).exists()]
    for name in names:
        (room / name).parent.mkdir(parents=True, exist_ok=True)
        shutil.copy(ROOT / name, room / name)
    succeed("git", "init", "--quiet")
    succeed("git", "add", "--all")
    return names


def expect_same(one, other, what):
    """That two files, or bytes, are the same."""
    __tracebackhide__ = True
    here, there = (
        data if isinstance(data, bytes) else Path(data).read_bytes() for data in (one, other)
    )
    if here != there:
        at = next(
            (place for place, (a, b) in enumerate(zip(here, there)) if a != b),
            min(len(here), len(there)),
        )
        pytest.fail(
            f"{what}: {'what came' if isinstance(one, bytes) else one} differs from byte {at} on\n"
            f"came:   {shown(here[at:at + 60])} of {len(here)} bytes\n"
            f"wanted: {shown(there[at:at + 60])} of {len(there)} bytes",
            pytrace=False,
        )


def need(*names):
    """Installs what a test needs where it is missing. What can't be had is a failure, or, where it
    is optional, leaves the test out. Over what is not proved nothing is installed, and what is
    missing leaves the test out."""
    if KNOWN:
        missing = [name for name in names if not needs.BY_NAME[name].is_there()]
        if missing:
            pytest.skip(f"there is no {' '.join(missing)}: make needs installs it")
        return
    for name in needs.install(names):
        packages = " ".join(needs.BY_NAME[name].packages)
        if needs.BY_NAME[name].is_optional:
            pytest.skip(f"Debian's {packages} can't be had here: {needs.WHY_NOT.get(name, '')}")
        pytest.fail(
            f"Debian's {packages} is needed and can't be installed: tests/needs.py {name}",
            pytrace=False,
        )


def coded_rows(name, count):
    """The rows of a list that each language reads: so many words, and then a text."""
    rows = (HERE / name).read_text(encoding="ascii").splitlines()
    parts = [row.split(" ", count) for row in rows if not row.startswith("#")]
    return [(*words[:count], unquote("".join(words[count:]))) for words in parts]


def race_rows():
    """The texts of notation_texts.json, and what the library tells of each: its status, and behind
    it the place or, where it is 0, both players' counts, whether the other's are told, the dice
    and who is on roll. It refuses those that are spelled in a way that the packages alone take."""
    texts = json.loads((HERE / "callers/notation_texts.json").read_text(encoding="utf-8"))
    found = []
    for text, *told in (*texts["read"], *texts["refused"]):
        if text in texts["spelled"]:
            told = ("malformed", "")
        if len(told) == 4:
            mine, theirs, dice, on_roll = told
            seat = [None, "bottom", "top"].index(on_roll)
            words = (0, *mine, *(theirs or [0] * 6), int(bool(theirs)), *(dice or [0, 0]), seat)
        else:
            reason, line = told
            point = re.search(r"\bpoint (\d+)", line)
            shared = line.startswith("both players")
            status = 32 if shared else STATUSES[reason]
            whose = 0 if reason == "malformed" else 1 + line.startswith("the other player")
            words = (status, int(point[1]) if point else whose)
        found.append((text, " ".join(map(str, words))))
    return found


REASONS = ("malformed", "too-many", "bar", "outside", "contact", "other-side")
STATUSES = dict(zip(REASONS, (11, 3, 33, 34, 35, 36)))


def code_blocks(page, kind):
    """The blocks of code of a kind in a page of the repository."""
    found = re.findall(rf"(?ms)^```{kind}\n(.*?)^```$", (ROOT / page).read_text(encoding="utf-8"))
    if not found:
        pytest.fail(f"{page} has no block of {kind}", pytrace=False)
    return found
