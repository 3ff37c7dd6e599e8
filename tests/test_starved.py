"""The built program with less and less memory, and with a small stack: each command has to end
with its answer or with a named fault, and never by a signal, and a file that it was to write is
the whole new one, or else the old one; a database that is built straight into its file may stand
there in part. In the gate the address space goes by steps of 4 KB through 600 KB above and below
the least with which a command is done, which is found first; over 8 pips it goes on down to the
least with which the system starts the program, and sizes up to 4,128 KB are tried twice, since the
system puts the stack at another place each time. By hand (--by-hand) it goes from 40 MB in steps
of 64 KB too, also over 44 and 58 pips, which takes half an hour. The environment lies on the stack
too, so there is none."""

import collections
import concurrent.futures
import contextlib
import os
import re
import shutil
import tempfile
from pathlib import Path

import pytest

from running import KNOWN, expect_that, run, told

pytestmark = pytest.mark.xdist_group("alone")

LINES = "mean 0,0,0,0,0,1\nmoves 0,0,0,2,0,0 21\nplay 0,0,0,2,0,0 21"
FAULT = re.compile(rb"bearoff: (memory|open|file|write)\n")
# without arguments no file is opened, and the memory for the database is taken before it is built
FAULT_IN_MEMORY = re.compile(rb"bearoff: memory\n")

# what the system's loader says where it has no room for itself or for the C library
UNLOADED = re.compile(rb"annot|failed to map segment")

# in KB: the address space that is ended with, where the system's loader has none for itself, which
# it says by the status 127; the least with which the program is promised to be done over 8 pips
# (docs/using.md); from where on the steps are small, and what is begun with; and the least stack
# that is promised
FLOOR, LEAST, LOW, MOST, LEAST_STACK = 2924, 4096, 4128, 40960, 1024

STEP, AROUND = 4, 600
SMALL_STEPS = [size for size in range(LOW, FLOOR - STEP, -STEP) for _ in range(2)]
LARGE_STEPS = list(range(MOST, LOW, -64))

# a command whose file stands in `closed`, a folder that can't be written, writes straight into it
COMMANDS = {"no words": [], "help": ["--help"], "version": ["--version"]}
for bound in (8, 20, 44, 58):
    COMMANDS[f"build of {bound} pips"] = ["build", "--pips", str(bound), "made"]
    COMMANDS[f"build of {bound} pips straight"] = ["build", "--pips", str(bound), "closed/made"]
for bound in (8, 20, 44, 58):
    COMMANDS[f"check of {bound} pips"] = ["check", f"db_{bound}"]
    COMMANDS[f"query of {bound} pips"] = ["query", f"db_{bound}"]
    for records in (5, 100, 65535):
        COMMANDS[f"query of {bound} pips by pages of {records} records"] = [
            "query",
            "--cache",
            str(records),
            f"db_{bound}",
        ]
    COMMANDS[f"ask of {bound} pips"] = ["ask", f"db_{bound}", "mean 0,0,0,0,0,1"]
    COMMANDS[f"show of {bound} pips"] = ["show", f"db_{bound}", "0,0,0,0,0,1"]
    COMMANDS[f"about of {bound} pips"] = ["about", f"db_{bound}"]
    COMMANDS[f"audit of {bound} pips"] = ["audit", f"db_{bound}"]
for bound in (8, 20, 44):
    COMMANDS[f"upgrade of {bound} pips"] = ["upgrade", f"db_{bound}", "made"]
    COMMANDS[f"upgrade of {bound} pips straight"] = ["upgrade", f"db_{bound}", "closed/made"]
COMMANDS["build of the whole board"] = ["build", "--board", "made"]
COMMANDS["build of the whole board straight"] = ["build", "--board", "closed/made"]
COMMANDS["show over the whole board"] = ["show", "0,0,0,0,0,1"]
for bound in (8, 20, 90):
    for command in ("check", "query", "audit"):
        words = [command, "--board", f"board_{bound}"]
        COMMANDS[f"{command} of a board file of {bound} pips"] = words
    words = ["ask", f"board_{bound}", "mean 0,0,0,0,0,1"]
    COMMANDS[f"ask of a board file of {bound} pips"] = words
    COMMANDS[f"show of a board file of {bound} pips"] = ["show", f"board_{bound}", "0,0,0,0,0,1"]
    COMMANDS[f"about of a board file of {bound} pips"] = ["about", f"board_{bound}"]

# what docs/using.md promises with the least address space
PROMISED = (
    "no words",
    "help",
    *(f"{it} of 8 pips" for it in ("build", "check", "query", "ask", "show", "about")),
    *(f"{it} of 8 pips" for it in ("audit", "upgrade")),
    *(f"query of {it} pips by pages of 100 records" for it in (8, 44)),
)

# what is said there to have been enough, in KB
ENOUGH = {"build of 20 pips": 5 << 10, "build of the whole board": 21 << 10}

# over 8 pips, and what has no database
LOW_COMMANDS = [name for name, words in COMMANDS.items() if {"8", "db_8", "board_8"} & {*words}]
LOW_COMMANDS += ["no words", "help", "version"]

# those that are swept in the gate: each command, over more than 8 pips too
SWEPT = [
    name for name in COMMANDS if name in LOW_COMMANDS or " 20 " in name or "build of the" in name
]

# those that write straight into a large file
STRAIGHT = (
    "build of 44 pips straight",
    "upgrade of 44 pips straight",
    "build of the whole board straight",
)

# what stands in the place of a file that is written, and a user who is not root
OLD = b"an older file"
NOBODY = {"user": 65534, "group": 65534, "extra_groups": []} if os.getuid() == 0 else {}

# the program, a folder, and what makes a file of each kind, of a bound
Starved = collections.namedtuple("Starved", "program work files")


@pytest.fixture(scope="module")
def starved(program, built, board):
    with contextlib.ExitStack() as folders:
        # where there is room in memory, hundreds of large files need no disk
        memory = Path("/dev/shm")
        is_large = memory.is_dir() and shutil.disk_usage(memory).free > 256 << 20
        home, work = (
            Path(folders.enter_context(tempfile.TemporaryDirectory("", "bearoff-starved-", where)))
            for where in (None, memory if is_large else None)
        )
        # also for the user that is nobody
        for folder in (home, work):
            folder.chmod(0o755)
        shutil.copyfile(program, home / "bearoff")
        (home / "bearoff").chmod(0o755)
        yield Starved(home / "bearoff", work, {"db": built, "board": board})


def limited(starved, limit, size, words):
    """The program under a limit, with no environment, in a folder of its own where an old file
    stands in the place of the one that it writes; what stands there then, and what else it
    leaves."""
    lower = ["/usr/bin/prlimit", f"--{limit}={1024 * size}", "--"] if size else []
    with tempfile.TemporaryDirectory(dir=starved.work) as folder:
        made = Path(folder, words[-1]) if words and words[-1].endswith("made") else None
        user = {}
        os.chmod(folder, 0o755)
        for name in words:
            kind, _, bound = name.partition("_")
            if kind in starved.files and bound:
                os.symlink(starved.files[kind](int(bound)), os.path.join(folder, name))
        if made:
            made.parent.mkdir(exist_ok=True)
            made.write_bytes(OLD)
        if made and made.parent != Path(folder):
            made.chmod(0o666)
            made.parent.chmod(0o555)
            user = NOBODY
        got = run(*lower, starved.program, *words, cwd=folder, input=LINES, env=KNOWN, **user)
        left = [name for _, _, names in os.walk(folder) for name in names if ".tmp" in name]
        return got, made.read_bytes() if made else None, left


def outcome(starved, size, words, ample, limit="as"):
    """done, named, not started, or what else a run under a limit came to."""
    whole, wanted = ample
    got, stands, left = limited(starved, limit, size, words)
    is_old = stands in (None, OLD)
    if (got.status, got.output) == (127, b"") and UNLOADED.search(got.errors) and is_old:
        return "not started"
    if left:
        return f"leaves {', '.join(left)}"
    if (got.status, got.output, got.errors, stands) == (0, whole.output, b"", wanted):
        return "done"
    fault = FAULT if words else FAULT_IN_MEMORY
    if got.status == 1 and fault.fullmatch(got.errors) and whole.output.startswith(got.output):
        if is_old:
            return "named"
        return f"leaves {len(stands)} bytes in the file\n{told(got)}"
    return told(got)


def with_ample_memory(starved, words):
    """What a run comes to, and the file that it writes."""
    ample, stands, _ = limited(starved, "as", None, words)
    expect_that(ample.status == 0 and ample.errors == b"", ample, "status 0, with ample memory")
    assert stands != OLD, "nothing is written"
    return ample, stands


def starve(starved, name, sizes, note):
    """Steps the address space of a command down."""
    words = COMMANDS[name]
    ample = with_ample_memory(starved, words)
    with concurrent.futures.ThreadPoolExecutor(4) as four:
        outcomes = list(four.map(lambda size: outcome(starved, size, words, ample), sizes))
    wrong = []
    for size, came in zip(sizes, outcomes):
        if came not in ("done", "named", "not started"):
            wrong.append(f"{name} with {size} KB: {came}")
        if came != "done" and size >= LEAST and name in PROMISED:
            wrong.append(f"{name} with {size} KB is not done")
    assert not wrong, f"{len(wrong)} of {len(sizes)} runs:\n" + "\n".join(wrong)
    done = [size for size, came in zip(sizes, outcomes) if came == "done"]
    note(
        f"{name}: done with {min(done, default='none')} KB of address space;"
        f" {len(sizes)} runs without a signal"
    )


def least(starved, words):
    """The least address space with which a command is done, as far as bisection tells."""
    ample = with_ample_memory(starved, words)
    few, enough = FLOOR // STEP, MOST // STEP
    while enough - few > 1:
        half = (few + enough) // 2
        if outcome(starved, STEP * half, words, ample) == "done":
            enough = half
        else:
            few = half
    return STEP * enough


# of the proved program: the checks of the other make it some pages larger
@pytest.mark.proved
@pytest.mark.parametrize("name", SWEPT)
def test_memory_about_the_least(starved, name, note):
    middle = least(starved, COMMANDS[name])
    assert middle <= ENOUGH.get(name, MOST)
    lowest = max(middle - AROUND, FLOOR)
    sizes = [*range(middle + AROUND, lowest - STEP, -STEP)]
    if name in LOW_COMMANDS and "straight" not in name:
        sizes += [size for size in sizes if size <= LOW]
        sizes += range(lowest - STEP, FLOOR - STEP, -STEP)
    if name == "build of the whole board straight":
        # the runs above the least take most of the time, and differ from those of the other
        # one in how the file is begun, which comes first
        sizes = [size for size in sizes if size < middle or size % (10 * STEP) == 0]
    starve(starved, name, sizes, note)


@pytest.mark.parametrize("step", [1536, pytest.param(256, marks=pytest.mark.gate)])
@pytest.mark.parametrize("name", STRAIGHT)
def test_little_memory_for_a_large_file(starved, name, step, note):
    """Such a file is emptied once all memory was taken."""
    starve(starved, name, range(6 << 10, 18 << 10, step), note)


@pytest.mark.parametrize("name", LOW_COMMANDS)
def test_small_stack(starved, name):
    words = COMMANDS[name]
    ample = with_ample_memory(starved, words)
    came = outcome(starved, LEAST_STACK, words, ample, "stack")
    assert came == "done", f"{name} with a stack of {LEAST_STACK} KB: {came}"


@pytest.mark.by_hand
@pytest.mark.parametrize("name", COMMANDS)
def test_less_and_less_memory(starved, name, note):
    starve(starved, name, LARGE_STEPS + SMALL_STEPS, note)


@pytest.mark.by_hand
@pytest.mark.parametrize("name", [name for name in COMMANDS if name not in LOW_COMMANDS])
def test_small_stack_over_large_bounds(starved, name):
    test_small_stack(starved, name)
