"""Refuses each call of a kind in turn, the first, then the second and so on, under the built
program and under crates/failing_calls, by a library that is preloaded (refused_calls.c): each
growth of memory, each opening, read, write and seek, and each call that brings a new file to the
disk and puts it in its place. Each such run has to end with the status and the line that the fault
has, with whole replies before it, or as if nothing had been refused, where HARMLESS says so. After
a fault the file that was to be written is the old one, or the new one where it was in its place by
then, and nothing else is left. A call that a signal interrupts once is either made again, and then
all ends as ever, or a fault like any other; REPEATED says which. Where a standard stream is closed
and the root folder can't be opened to stand in for it, nothing else is opened."""

import errno
import os
import re
import shlex
import shutil
import subprocess
from pathlib import Path

import pytest

from running import HERE, KNOWN, at_terminal, need, run

LINES = (
    "rank 1,0,0,0,0,0\nmoves 0,0,0,2,0,0 21\nmean 0,0,1,0,0,0\n\n0,0,0,0,1,0\nplay 0,0,0,2,0,0 21"
)

# the lines that a refused call of a kind may end with
FAULTS = {
    "growth": ("memory",),
    "open": ("open", "write"),
    "closed-open": ("open",),
    "link": ("open",),
    "tell": ("open", "write"),
    "sync": ("write",),
    "unable-sync": ("write",),
    "unsupported-sync": ("write",),
    "rename": ("write",),
    "seek": ("file",),
    "input": ("read",),
    "output": ("write",),
    "idle-output": ("write",),
    "load": ("file",),
    "store": ("write",),
    "idle-store": ("write",),
    "interrupted-input": ("read",),
    "interrupted-load": ("file",),
    "interrupted-output": ("write",),
}

# the kinds of calls that come behind the one that puts the new file in its place, too
AFTER_IT = ["open", "output", "idle-output", "interrupted-output", "sync"]

# the kinds that may also leave no trace: a growth of the cache's, a folder that may not be written
# or read, a file that can't have the old one's mode, and what is asked for a name alone
HARMLESS = ["closed-open", "link", "tell", "mode", "unable-sync", "unsupported-sync"]

# the first opening asks whether a standard stream is closed, and is wanted for nothing else
FIRST = "open:1"

# the kinds whose interrupted calls are made again: by the commands with the word, or by all where
# there is none
REPEATED = {
    "interrupted-open": None,
    "interrupted-store": None,
    "interrupted-load": "--cache",
    "interrupted-output": None,
    "interrupted-mode": None,
    "interrupted-sync": None,
}


GIVEN = ["input", "interrupted-input", "slow-input"]
TOLD = ["output", "idle-output", "interrupted-output", "slow-output"]
OPENED = ["open", "interrupted-open"]
LOADED = ["load", "interrupted-load", "slow-load"]
STORED = "store idle-store interrupted-store slow-store closed-open link tell mode".split()
STORED += "interrupted-mode sync unable-sync unsupported-sync interrupted-sync rename".split()

COMMANDS = {
    "no words": ("", ["growth", *GIVEN, *TOLD]),
    "build": ("build --pips 8 made", ["growth", *OPENED, *STORED, *TOLD]),
    "check": ("check eight", ["growth", *OPENED, *LOADED, *TOLD]),
    "query": ("query eight", ["growth", *OPENED, *LOADED, *GIVEN, *TOLD]),
    "query by pages": (
        "query --cache 2 eight",
        ["growth", "seek", *OPENED, *LOADED, *GIVEN, *TOLD],
    ),
    "ask": ("ask eight 'rank 1,0,0,0,0,0'", ["growth", *OPENED, *LOADED, *TOLD]),
    "show": ("show eight -", ["growth", *OPENED, *LOADED, *GIVEN, *TOLD]),
    "about": ("about eight", ["growth", *OPENED, *LOADED, *TOLD]),
    "audit": ("audit eight", ["growth", *OPENED, *LOADED, *TOLD]),
    "upgrade": ("upgrade eight made", ["growth", *OPENED, *LOADED, *STORED, *TOLD]),
    "help": ("--help", ["growth", "output", "interrupted-output"]),
    "wrong words": ("check", ["growth"]),
}

# the trials of crates/failing_calls, and how a refused growth of each may end
TRIALS = {
    "build": ["memory", "later"],
    "push": ["memory", "later"],
    "moves": ["memory"],
    "run": ["later"],
    "pages": ["memory", "whole"],
    "puts": ["whole"],
}


def clang():
    kit = shutil.which("rt")
    kit = os.path.dirname(os.path.dirname(os.path.realpath(kit))) if kit else ""
    inside = os.path.join(kit, "toolchain", "bin", "clang")
    if os.path.exists(inside):
        return inside
    need("cc")
    return "cc"


@pytest.fixture(scope="session")
def library(store):
    made = store / "refused_calls.so"
    words = [clang(), "-O1", "-shared", "-fPIC", "-o", made, HERE / "refused_calls.c"]
    subprocess.run(words, check=True)
    return made


@pytest.fixture
def refusing(library, files):
    """Runs a command with a call refused: the outcome, and how many calls of that kind there were.
    The file `made` is each time the old one again."""
    old = Path("three").read_bytes()

    def run_it(command, call, **how):
        Path("count").unlink(missing_ok=True)
        Path("made").write_bytes(old)
        environment = {"LD_PRELOAD": str(library), "REFUSED_CALL": call, "REFUSED_COUNT": "count"}
        environment |= {**KNOWN, **how.pop("more", {})}
        done = run(*command, env=environment, timeout=60, **{"input": LINES, **how})
        return done, int(Path("count").read_text()) if os.path.exists("count") else 0

    run_it.old = old
    return run_it


def made():
    return Path("made").read_bytes()


def is_whole(kind, old, whole):
    """Whether what stands after a fault is the old file, or the new one where the call can come
    behind it, and nothing else."""
    stands = [old] + ([whole] if kind in AFTER_IT else [])
    return made() in stands and not [name for name in os.listdir() if name.endswith(".tmp")]


def is_told(name, errors, lines):
    """Whether one of these lines was written. Behind that of a fault of its file `about` writes
    what it means, and what the system says."""
    line, _, more = errors.partition(b"\n")
    if name == "about" and line in (b"bearoff: open", b"bearoff: file"):
        told = re.fullmatch(rb"eight: cannot be (opened|read): .+\n", more)
        return told is not None and line + b"\n" in lines
    return errors in lines


def came(name, which, got):
    return (
        f"{name}: with {which} refused it ends with status {got.status},"
        f" {got.output[-60:]!r}, {got.errors[-60:]!r}, {len(made())} bytes"
    )


@pytest.mark.parametrize(
    "name, kind", [(name, kind) for name, (_, kinds) in COMMANDS.items() for kind in kinds]
)
def test_program(program, refusing, note, name, kind):
    words = shlex.split(COMMANDS[name][0])
    command = [program, *words]
    ample, calls = refusing(command, kind + ":0")
    whole, harmless, wrong = made(), 0, []
    assert calls > 0, f"{name}: no call of the kind {kind}"
    if kind.startswith("slow-"):
        got, calls = refusing(command, kind + ":1+")
        assert (got.status, got.output, got.errors) == (0, ample.output, b""), came(
            name, kind, got
        )
        assert made() == whole, f"{name}: with one byte a call the file is another one"
        note(f"{name}: {calls} calls of the kind {kind}")
        return
    is_repeated = kind in REPEATED and REPEATED[kind] in [None] + words
    # a call that is interrupted each time anew never ends, so one is
    ends = [""] if kind.startswith("interrupted-") else ["", "+"]
    # the database in memory is written there
    told = ("memory", "write") if (name, kind) == ("no words", "growth") else FAULTS.get(kind, ())
    lines, outputs = [f"bearoff: {line}\n".encode() for line in told], {}
    for which in [f"{kind}:{call}{end}" for call in range(1, calls + 1) for end in ends]:
        got, _ = refusing(command, which)
        is_prefix = ample.output.startswith(got.output)
        is_lines = got.output == b"" or got.output.endswith(b"\n")
        is_same = got[3:] == ample[3:]
        may_be_harmless = (
            kind in HARMLESS or which == FIRST or (kind == "growth" and "--cache" in words)
        )
        if is_repeated or (may_be_harmless and is_same):
            harmless += not which.endswith("+")
            if not is_same or made() != whole:
                wrong.append(came(name, which, got))
        elif not (
            got.status == 1
            and is_told(name, got.errors, lines)
            and is_prefix
            and is_lines
            and is_whole(kind, refusing.old, whole)
            # behind a refused write nothing is written, also where it would be taken
            and outputs.setdefault(which.rstrip("+"), got.output) == got.output
        ):
            wrong.append(came(name, which, got))
    assert not wrong, "\n".join(wrong)
    is_short_of_memory = (name, kind) == ("query by pages", "growth")
    assert not is_short_of_memory or b"rank 1\n" in outputs.values(), "a reply was not handed on"
    told = f", {harmless} of them without a trace" if harmless else ""
    note(f"{name}: {calls} calls of the kind {kind}{told}")


def test_standard_error_fails_too(program, refusing):
    """The status stands."""
    got, calls = refusing([program, "check", "nothing"], "errors:1+")
    assert (calls > 0, got.status, got.output, got.errors) == (True, 1, b"", b"")


def test_a_terminal_that_fails(program, library):
    """It is no end of the input."""
    calls = {"LD_PRELOAD": str(library), "REFUSED_CALL": "input:1"}
    status, _, _, errors = at_terminal([program], b"", env={**KNOWN, **calls})
    assert (status, errors) == (1, b"bearoff: read\n")


# how the root folder can't be opened: no leave, no number for an open file in the process or in
# the system, no memory, a disk that fails
NO_ROOT = {name: getattr(errno, name) for name in ("EACCES", "EMFILE", "ENFILE", "ENOMEM", "EIO")}


# with each error each stream is one of those that are closed; it is told before any word is read
@pytest.mark.parametrize(
    "error, closed",
    [
        pytest.param(it, closed, marks=[pytest.mark.gate] * ("EACCES" != it and closed != "012"))
        for it in NO_ROOT
        for closed in ["0", "1", "2", "01", "02", "12", "012"]
    ],
)
def test_closed_streams_that_nothing_can_stand_in_for(program, refusing, board, error, closed):
    """The root folder is opened for each closed stream, and nothing after it where it can't be: no
    database takes the place of a stream, and a file that was to be written stays."""
    shutil.copy(board(8), "board")
    boards = ["build --board made", *(f"{it} --board board" for it in ("check", "query", "audit"))]
    more = {"REFUSED_ERROR": str(NO_ROOT[error])}
    errors = b"" if "2" in closed else b"bearoff: open\n"

    def close():
        for stream in closed:
            os.close(int(stream))

    for words in [*(words for words, _ in COMMANDS.values()), "--version", *boards]:
        for which in range(1, len(closed) + 1):
            got, calls = refusing(
                [program, *shlex.split(words)],
                f"closed-open:{which}",
                more=more,
                preexec_fn=close,
                input="" if "0" in closed else LINES,
            )
            assert (got.status, got.output, got.errors) == (1, b"", errors), came(
                words, f"opening {which}", got
            )
            assert calls == which, f"{words}: {calls} files were opened"
            assert made() == refusing.old, f"{words}: the file was opened"


@pytest.mark.parametrize("word", TRIALS)
def test_trial(trials, refusing, note, word):
    """A trial of crates/failing_calls, which says itself whether what came of it is right."""
    wanted = TRIALS[word]
    ample, calls = refusing([trials, word], "growth:0")
    assert ample.output == b"whole\n", f"{word} with ample memory: {ample}"
    seen = {}
    for call in range(1, calls + 1):
        for which in [f"growth:{call}"] + ([f"growth:{call}+"] if word == "puts" else []):
            got, _ = refusing([trials, word], which)
            text = got.output.decode().strip()
            if got.status == 1 and text == "" and got.errors:
                text = "before"
            else:
                is_known = got.status == 0 and text in ("memory", "later", "whole", "own")
                assert is_known, came(word, which, got)
            seen[text] = seen.get(text, 0) + 1
    assert set(wanted) <= set(seen), f"{word}: no refused growth ends as some of {wanted}: {seen}"
    assert set(seen) <= {*wanted, "before", "own"}, f"{word}: a refused growth ends as {seen}"
    counts = ", ".join(f"{count} {text}" for text, count in sorted(seen.items()))
    note(f"{word}: {calls} growths: {counts}")
