"""The library for C under callers in C, C++ and Python: every position of 8 pips, and a thousand
of 44 and of 58, give what the program's own lines give, and so do the lines that the library
answers itself, good and bad; each refusal gives its status and leaves the rest of the caller's
memory alone (under valgrind, and with AddressSanitizer in the caller), bytes that are cut or are
changed after they were opened lead no call outside them, rooms of exactly the size of a file are
enough and smaller ones aren't, so are the rooms that the header names for any list of results and
any reply, each status has its text, texts are read as positions and refused as the grammar has it,
threads with a database each answer the same, each call has a status while another thread changes
its bytes and takes no more stack than the header says, and both libraries export what the header
declares and nothing else. The package for Python passes its own tests, is accepted
by mypy and is installed by pip without a trace in the checkout; the examples of docs/embedding.md
and docs/analysts.md do what the pages say."""

import collections
import ctypes
import hashlib
import os
import re
import shutil
import sys
from itertools import combinations
from pathlib import Path

import pytest

from running import (
    CALLERS,
    HERE,
    ROOT,
    code_blocks,
    coded_rows,
    expect,
    expect_same,
    expect_that,
    need,
    race_rows,
    run,
    succeed,
)
from test_boards import FILES as BOARDS

HEADER = (ROOT / "c/bearoff.h").read_text(encoding="utf-8")
FLAGS = ["-O2", "-Wall", "-Wextra", "-Werror", f"-I{ROOT}/c"]
PRINTED = "1.250 rolls, 10.208 pips\n4/2 2/1"
PRINTED_OF_A_BOARD = "12.266 rolls, 100.174 pips"
SANITIZED = ["-g", "-fsanitize=address,undefined", "-fno-sanitize-recover"]
AS_CPP = ["-std=c++17", "-x", "c++"]

# each caller: the compiler and its words before the source, and those behind it
STATIC = ["libbearoff.a"]
CALLER_WORDS = {
    "lines_c": ("cc", ["-std=c11"], "lines.c", [*STATIC, "-lpthread"]),
    "lines_cpp": ("c++", AS_CPP, "lines.c", ["-x", "none", *STATIC, "-lpthread"]),
    "lines_shared": (
        "cc",
        ["-std=c11"],
        "lines.c",
        ["-L.", "-lbearoff", "-lpthread", "-Wl,-rpath,$ORIGIN"],
    ),
    "refusals_c": ("cc", ["-std=c11", "-g"], "refusals.c", STATIC),
    "refusals_cpp": ("c++", AS_CPP, "refusals.c", ["-x", "none", *STATIC]),
    "refusals_asan": ("cc", ["-std=c11", *SANITIZED], "refusals.c", STATIC),
    "reads_outside": ("cc", ["-std=c11"], "reads_outside.c", STATIC),
    "builds": ("cc", ["-std=c11"], "builds.c", [*STATIC, "-lpthread"]),
    "stacks": ("cc", ["-std=c11"], "stacks.c", [*STATIC, "-lpthread"]),
    "races": ("cc", ["-std=c11"], "races.c", [*STATIC, "-lpthread"]),
    "rooms": ("cc", ["-std=c11"], "rooms.c", STATIC),
    "order": ("cc", ["-std=c11", *SANITIZED], "order.c", STATIC),
    "largest": ("cc", ["-std=c11"], "largest.c", STATIC),
    "lines_asan": ("cc", ["-std=c11", *SANITIZED], "lines.c", [*STATIC, "-lpthread"]),
    "files_c": ("cc", ["-std=c11"], "files.c", [*STATIC, "-lpthread"]),
    "files_cpp": ("c++", AS_CPP, "files.c", ["-x", "none", *STATIC, "-lpthread"]),
    "files_asan": ("cc", ["-std=c11", *SANITIZED], "files.c", [*STATIC, "-lpthread"]),
}
LINE_CALLERS = ["lines_c", "lines_cpp", "lines_shared"]


@pytest.fixture(scope="session")
def caller(library):
    """A caller, compiled once."""

    def compiled(name):
        compiler, before, source, behind = CALLER_WORDS[name]
        if not (library / name).exists():
            words = [compiler, *before, *FLAGS, "-o", name, CALLERS / source, *behind]
            expect(run(*words, cwd=library), 0)
        return library / name

    return compiled


BAD = (
    b"| |mean|mean | mean 0,0,0,0,0,1|mean  0,0,0,0,0,1|mean 0,0,0,0,0,1 |Mean 0,0,0,0,0,1"
    b"|mean 0,0,0,0,0,01|mean 0,0,0,0,0,1000|mean 0,0,0,0,0,-1|mean 0,0,0,0,1|mean 0,0,0,0,0,0,1"
    b"|play 0,0,0,0,0,1|play 0,0,0,0,0,1 2|play 0,0,0,0,0,1 07|play 0,0,0,0,0,16 07"
    b"|play 0,0,0,0,0,16 21|loss 0,0,0,0,0,1 21|loss 0,0,0,0,0,1 21 0,0,0,0,0"
    b"|loss 0,0,0,0,0,1 21 0,0,0,0,0,16|loss 0,0,0,0,0,0 21 0,0,0,0,0,0"
    b"|loss 0,0,0,0,0,16 21 0,0,0,0,0|moves 0,0,0,0,0,0 21|moves 15,0,0,0,0,0 66"
    b"|rank 0,0,0,0,0,0|rank 0,0,0,0,0,1|rank 0,0,0,0,4,4|rank 9,0,0,0,1,5|rank 0,0,0,0,0,15"
    b"|rank 0,0,0,0,0,16|mean 0,0,0,0,0,1\tx|mean\t0,0,0,0,0,1"
    b"|\377\376|mean 0,0,0,0,0,1\0|\0|mean 0,0,0,0,0,1\r "
).split(b"|")
for length in (127, 128, 129, 130, 131, 5000):
    BAD += [b" " * length, b"mean " + b"0,0,0,0,0,1".rjust(length)]
BAD = b"".join(line + b"\n" for line in BAD)

COUNTS = {8: [], 44: [1000], 58: [1000]}

# how often each of two threads opens bytes that a third one changes
ROUNDS = 3000


@pytest.fixture(scope="session")
def asked(program, built):
    """Questions about positions of a bound, and the program's replies."""
    kept = {}

    def of(bound, with_bad=False):
        if (bound, with_bad) not in kept:
            words = [sys.executable, "-I", CALLERS / "questions.py", bound, *COUNTS[bound]]
            lines = succeed(*words) + (BAD if with_bad else b"")
            replies = succeed(program, "query", built(bound), input=lines)
            assert replies.count(b"\n") == lines.count(b"\n")
            kept[bound, with_bad] = lines, replies
        return kept[bound, with_bad]

    return of


@pytest.mark.parametrize("exported", ["-g libbearoff.a", "-D libbearoff.so"])
def test_exports(library, exported):
    """What the header declares, and nothing else, is what a caller can link against."""
    declared = sorted(re.findall(r"(?m)^(?:uint32_t|bool) (bearoff_[a-z_]*)\(.*", HEADER))
    assert declared, "c/bearoff.h declares nothing"
    words = ["nm", "--defined-only", "--format=posix", *exported.split()]
    told = succeed(*words, cwd=library).decode()
    assert sorted(re.findall(r"(?m)^([^\s@]+)\S* (?!A 0)[A-Za-z] ", told)) == declared
    if "libbearoff.so" in exported:
        # each by the first number of its version
        versions = re.findall(r"(?m)^(bearoff_[a-z_]*)@@BEAROFF_1 T ", told)
        assert sorted(versions) == declared


@pytest.mark.parametrize("bound", COUNTS)
@pytest.mark.parametrize("name", LINE_CALLERS)
def test_calls(caller, built, asked, name, bound):
    lines, replies = asked(bound)
    expect(run(caller(name), built(bound), input=lines), 0, replies)


@pytest.mark.parametrize("bound", COUNTS)
@pytest.mark.parametrize("name", LINE_CALLERS)
def test_lines_as_text(caller, built, asked, name, bound):
    lines, replies = asked(bound, with_bad=True)
    expect(run(caller(name), built(bound), "--text", input=lines), 0, replies)


@pytest.mark.parametrize("bound", COUNTS)
def test_two_threads(caller, built, asked, bound):
    lines, replies = asked(bound)
    expect(run(caller("lines_c"), built(bound), 2, input=lines), 0, replies)


@pytest.mark.parametrize("name", ["refusals_c", "refusals_cpp", "refusals_asan"])
def test_refusals(caller, built, name):
    expect(run(caller(name), built(8)), 0)


Row = collections.namedtuple("Row", "call state position roll to faults text")


def refused_rows():
    """The rows of refusals.txt: what a call tells that could be refused for several reasons, each row
    with its reasons."""
    found = []
    for line in (HERE / "refusals.txt").read_text(encoding="ascii").splitlines():
        if not line.startswith("#"):
            *words, text = *line.split()[:5], line
            faults = [word for word in line.split()[5:] if word != "none"]
            found.append(Row(*words, faults, text))
    return found


def statuses():
    """The statuses of the header by the names of the rows, in its order."""
    told = re.findall(r"(?m)^    BEAROFF_([A-Z_]+) = (\d+),", HEADER)
    return {name.lower().replace("_", "-"): int(number) for name, number in told}


def order_of_refusals():
    """The reasons in the order in which they are told: what is none of what a call wants, which C
    can't be given, and then the statuses as the header has them."""
    told = re.search(
        r" Order of errors\. .*?: (.*?)\. ", " ".join(HEADER.replace("\n *", "\n").split())
    )[1]
    names = re.findall("BEAROFF_([A-Z_]+)", told)
    return ["bad-line", *(name.lower().replace("_", "-") for name in names)]


ROWS = refused_rows()
# what a row is asked as a line; a die that is none makes it no line
LINES = {
    "mean": ("mean {position}", "dist {position}", "rank {position}"),
    "play": ("play {position} {roll}", "moves {position} {roll}"),
    "loss": ("loss {position} {roll} {to}",),
}


# whose statuses a row of order.c has
KINDS_IN_ORDER = ("database", "board")


class TestOrderOfRefusals:
    """A call that could be refused for several reasons tells the first of them, whatever it is
    asked by; the tests of the packages for Python and JavaScript have the same rows."""

    def test_rows(self):
        """Each row has its reasons in the order of the header, and each two that a call can have
        at once stand in one."""
        order = order_of_refusals()
        for row in ROWS:
            assert row.faults == sorted(row.faults, key=order.index), row.text
        # one position can't be both, and one that is none is neither
        apart = {
            "mean": {("bad-line", "too-many"), ("bad-line", "over-bound")},
            "play": {("too-many", "finished"), ("over-bound", "finished")},
            "loss": {("over-bound", "finished")},
        }
        for call in {row.call for row in ROWS}:
            lists = [row.faults for row in ROWS if row.call == call]
            known = sorted({fault for faults in lists for fault in faults}, key=order.index)
            pairs = {pair for faults in lists for pair in combinations(faults, 2)}
            assert pairs == {*combinations(known, 2)} - apart.get(call, set()), call

    def test_calls(self, caller, built):
        rows = [row for row in ROWS if row.faults[:1] != ["bad-line"]]
        told = succeed(caller("order"), built(8), input="\n".join(row.text for row in rows))
        number = {**statuses(), "none": 0}
        wrong = []
        for row, line in zip(rows, told.decode().splitlines(), strict=True):
            wanted = str(number[(row.faults or ["none"])[0]])
            wrong += [
                f"{row.text}: {kind} {status}"
                for kind, status in zip(KINDS_IN_ORDER, line.split(), strict=True)
                if status not in (wanted, "-")
            ]
        assert wrong == []

    @pytest.mark.parametrize("kind", ["database", "board"])
    def test_lines(self, program, built, board, kind):
        words = ["query", "--board", board(8)] if kind == "board" else ["query", built(8)]
        asked = [
            (form.format(**row._asdict()), (row.faults or ["none"])[0])
            for row in ROWS
            if row.state == "open"
            for form in LINES.get(row.call, ())
        ]
        told = succeed(program, *words, input="\n".join(line for line, _ in asked))
        wrong = [
            f"{line}: {reply}, and not {wanted}"
            for (line, wanted), reply in zip(asked, told.decode().splitlines(), strict=True)
            if (reply.removeprefix("error ") if reply.startswith("error") else "none")
            != {"bad-roll": "bad-line"}.get(wanted, wanted)
        ]
        assert wrong == []


VALGRIND = ["valgrind", "-q", "--error-exitcode=9", "--leak-check=full"]


def test_refusals_under_valgrind(caller, built):
    need("valgrind")
    words = [*VALGRIND, "--main-stacksize=16777216", caller("refusals_c"), built(8)]
    expect(run(*words, timeout=600))


@pytest.mark.parametrize(
    "with_bad, words", [(False, ["2"]), (True, ["--text"])], ids=["two threads", "text"]
)
def test_lines_under_valgrind(caller, program, built, asked, with_bad, words):
    need("valgrind")
    lines = b"".join(asked(8)[0].splitlines(True)[:300]) + (BAD if with_bad else b"")
    replies = succeed(program, "query", built(8), input=lines)
    words = [*VALGRIND, caller("lines_c"), built(8), *words]
    expect(run(*words, input=lines, timeout=600), 0, replies)


@pytest.mark.proved
@pytest.mark.parametrize(
    "kind, bound, times",
    [
        *((kind, 0, 500) for kind in ("version 1", "version 2", "board")),
        *((kind, 8, 4000) for kind in ("version 1", "version 2", "board")),
        ("version 1", 44, 100),
        ("version 2", 58, 100),
        ("board", 90, 100),
    ],
)
def test_changed_bytes(caller, built, board, note, kind, bound, times):
    """Bytes that are cut, and those that are changed after they were opened."""
    # a database of more than 44 pips is of version 2 as it is built
    is_new = kind == "version 2" and bound <= 44
    file = board(bound) if kind == "board" else built(bound, is_new)
    told = succeed(caller("reads_outside"), file, times, timeout=600)
    note(f"reads outside, {kind} of {bound} pips: {told.decode().partition(':')[0]}")


def test_changed_bytes_of_every_call():
    """Each export that opens bytes, or is given what was opened, is tried on changed ones."""
    names = re.findall(r"(?m)^uint32_t (bearoff_\w+)\(const bearoff_file \*", HEADER)
    names += re.findall(r"(?m)^uint32_t (bearoff_\w*open)\(", HEADER)
    tried = re.findall(r"\bbearoff_\w+", (CALLERS / "reads_outside.c").read_text())
    assert names and {*names} <= {*tried}


@pytest.fixture(scope="session")
def built_by_c(built, board):
    """The file of a kind and a bound, as the library has to build it."""
    return lambda kind, bound: (board if kind == "board" else built)(bound)


# in KB, the stack that is said to be enough: of what opens or makes a file, and of every other call
# and a build to 8 pips; and that of a main thread
FILE_STACK, CALL_STACK, MAIN_STACK = 1536, 128, 8192
FEW_PIPS = 8


def build_stack(bound):
    """The stack that is said to be enough for bearoff_build, of a database."""
    return CALL_STACK if bound <= FEW_PIPS else FILE_STACK


def test_the_stack_that_is_said():
    """The header and the page have these sizes."""
    page = (ROOT / "docs/embedding.md").read_text(encoding="utf-8")
    text = " ".join(HEADER.replace("\n *", "").split())
    assert f"#define BEAROFF_STACK {FILE_STACK << 10} " in text
    assert f"every other call less than {CALL_STACK} KB." in text
    assert (
        "It needs less than BEAROFF_STACK bytes of stack, and less than 128 KB for a database of at"
        " most 8 pips." in text
    )
    assert "less than 1.5 MB of stack, and less than 128 KB for bounds up to 8 pips." in page


@pytest.mark.parametrize(
    "kind, bound, stack",
    [
        *(("database", bound, build_stack(bound)) for bound in (0, 8, 9, 20, 38, 58)),
        *(("board", bound, FILE_STACK) for bound in (8, 58, 90)),
    ],
)
def test_the_stack_of_a_build(caller, built_by_c, kind, bound, stack):
    """A build in a thread that has as many KB of stack as are said to be enough."""
    made = succeed(caller("builds"), kind, bound, stack, timeout=600)
    expect_same(made, built_by_c(kind, bound), "what the library builds")


@pytest.mark.parametrize(
    "kind, bound",
    [*(("database", bound) for bound in (1, 8, 20, 58)), *(("board", bound) for bound in (8, 90))],
)
def test_a_build_in_the_main_thread(caller, built_by_c, kind, bound):
    """The environment lies on its stack, too."""
    limited = ["/usr/bin/prlimit", f"--stack={MAIN_STACK << 10}", "--"]
    made = succeed(*limited, caller("builds"), kind, bound, 0, timeout=600)
    expect_same(made, built_by_c(kind, bound), "what the library builds")


@pytest.mark.parametrize(
    "kind, bound",
    [
        *(("database", bound) for bound in (8, 20, 38, 44, 58)),
        *(("board", bound) for bound in (8, 58, 90)),
    ],
)
def test_the_stack_of_each_call(caller, kind, bound, note):
    """What each export takes, of a database or a board of so many pips."""
    told = succeed(caller("stacks"), kind, bound, timeout=600)
    took = {name: int(size) for name, size in map(str.split, told.decode().splitlines())}
    most = {name: FILE_STACK for name in ("open", "upgrade", "build")}
    if kind == "database":
        most["build"] = build_stack(bound)
    wrong = {name: size for name, size in took.items() if size >= most.get(name, CALL_STACK) << 10}
    assert not wrong, f"bytes of stack of {kind} of {bound} pips: {wrong}"
    large = ", ".join(f"{name} {took[name]}" for name in took if name in most)
    size, name = max((size, name) for name, size in took.items() if name not in most)
    note(f"bytes of stack, {kind} of {bound} pips: {large}, at most {size} of others ({name})")


def test_the_stack_of_every_call():
    """Each export is among those whose stack is measured."""
    declared = re.findall(r"(?m)^(?:uint32_t|bool) bearoff_([a-z_]*)\(.*", HEADER)
    measured = re.findall(r"(?:ROW|ONCE)\((\w+)\)", (CALLERS / "stacks.c").read_text())
    assert sorted(declared) == sorted({*measured} - {"name", "nothing"})


# without a proof there are checks, which end a call that the change has led astray
@pytest.mark.proved
@pytest.mark.parametrize("bound", [4, 8, 10])
@pytest.mark.parametrize("kind", ["version 1", "version 2", "board"])
def test_bytes_that_change_while_they_are_read(caller, built, board, note, kind, bound):
    """Each call ends with a status, and never by a signal."""
    file = board(bound) if kind == "board" else built(bound, kind == "version 2")
    told = succeed(caller("races"), file, ROUNDS, timeout=600)
    note(f"races, {kind} of {bound} pips: {told.decode().splitlines()[0]}")


@pytest.mark.parametrize("step", [14, pytest.param(1, marks=pytest.mark.gate)])
def test_rooms(caller, step):
    """Rooms of each size that matters."""
    expect(run(caller("rooms"), step, timeout=600), 0)


@pytest.mark.parametrize(
    "name, source",
    [
        ("LINE", "opening.rt"),
        ("STATUS_TEXT", "status_texts.rt"),
        ("RESULTS", "choices.rt"),
        ("REPLY", "lines.rt"),
    ],
)
def test_sizes(name, source):
    """The rooms that the header names are as large as the contracts say is enough, and no larger;
    the package for JavaScript has them too."""
    contracts = (ROOT / "crates/bearoff_c/src/calls" / source).read_text(encoding="utf-8")
    told = re.search(rf"(?m)^#define BEAROFF_{name} (\d+)$", HEADER)[1]
    assert {told} == {*re.findall(r"(?m)^    ensures most \{ .*≤ (\d+) \}$", contracts)}
    if name == "RESULTS":
        script = (ROOT / "js/database.js").read_text(encoding="utf-8")
        assert f"\nconst MOST_RESULTS = {told};\n" in script


@pytest.mark.parametrize("step", [24, pytest.param(1, marks=pytest.mark.gate)])
def test_largest(caller, built, step):
    """The longest list of results, and the longest reply, to 58 pips: both are of rank 44,809."""
    expect(run(caller("largest"), built(58), step, timeout=600), 0, "108 results, 5828 bytes")


def test_board_room():
    """The room that the header names is enough for the greatest board file."""
    told = int(re.search(r"(?m)^#define BEAROFF_FILE (\d+)$", HEADER)[1])
    assert told >= BOARDS[90][0]
    assert f"{BOARDS[90][0]:,}" in HEADER


@pytest.mark.parametrize("words", [[], ["2"], ["--text"]], ids=["calls", "threads", "text"])
def test_board(caller, room, words):
    """A board file that was built in a room has the bytes that were computed outside, and its
    lines the replies."""
    data = succeed(caller("builds"), "board", 90, 0)
    assert (len(data), hashlib.sha256(data).hexdigest()) == BOARDS[90]
    Path("board.db").write_bytes(data)
    rows = (HERE / "board_rows.txt").read_bytes().splitlines(keepends=True)
    done = run(caller("lines_asan"), "board.db", *words, input=b"".join(rows[::2]), timeout=600)
    expect(done, 0, b"".join(rows[1::2]))


@pytest.mark.parametrize(
    "name, kind, bound, step",
    [
        ("files_cpp", "version 2", 8, 1),
        *(("files_asan", kind, 8, 1) for kind in ("version 1", "version 2", "board")),
        ("files_c", "version 1", 44, 50),
        ("files_c", "version 2", 58, 100),
        ("files_asan", "board", 30, 20),
        ("files_c", "board", 90, 100),
    ],
)
def test_files(caller, built, board, note, name, kind, bound, step):
    """What the calls say of a file agrees, and stands in its lines."""
    # a database of more than 44 pips is of version 2 as it is built
    is_new = kind == "version 2" and bound <= 44
    file = board(bound) if kind == "board" else built(bound, is_new)
    told = succeed(caller(name), file, step, timeout=600)
    note(f"files, {kind} of {bound} pips: {told.decode().strip()}")


def test_status_texts(library):
    """What the library says of each status is what the header says beside it."""
    said = {
        int(number): text
        for number, text in re.findall(r"(?m)^    BEAROFF_[A-Z_]+ = (\d+), +/\* (.*) \*/$", HEADER)
    }
    assert [*said] == [*range(12), *range(16, 28), *range(32, 37)]
    room = int(re.search(r"(?m)^#define BEAROFF_STATUS_TEXT (\d+)$", HEADER)[1])
    call = ctypes.CDLL(str(library / "libbearoff.so")).bearoff_status_text
    call.argtypes = [ctypes.c_uint32, ctypes.c_char_p, ctypes.c_size_t, ctypes.c_void_p]
    call.restype = ctypes.c_uint32
    said[28] = "the bytes changed while they were read"
    for status in (*range(300), 2**31, 2**32 - 1):
        text, needed = ctypes.create_string_buffer(room), ctypes.c_size_t()
        assert call(status, text, room, ctypes.byref(needed)) == 0
        told = text.raw[: needed.value].decode("ascii")
        assert told == said.get(status, "unknown status"), status


def test_the_program_of_the_header(library, room, built):
    """It stands in the first lines of the header, and is compiled as it stands there."""
    head = HEADER.split("#ifndef")[0]
    program = re.findall(r"(?m)^ \*     (.*)$", head)
    assert len(program) == 15
    Path("it.c").write_text("\n".join(program) + "\n", encoding="utf-8")
    words = ["-I", ROOT / "c", "-o", "it", "it.c", library / "libbearoff.a"]
    expect(run("cc", "-std=c11", "-Wall", "-Wextra", "-Werror", *words), 0)
    expect(run("./it", input=built(44).read_bytes()), 0, "13.964 pips, 4/2")
    expect(run("./it", input=built(44).read_bytes()[:-1]), 1)


def test_texts(library):
    """What is a position as a text."""
    call = ctypes.CDLL(str(library / "libbearoff.so")).bearoff_read_position
    call.argtypes = [ctypes.c_char_p, ctypes.c_size_t, ctypes.c_char_p, ctypes.c_char_p]
    for verdict, _, text in coded_rows("texts.txt", 2):
        content, race = text.encode(), ctypes.create_string_buffer(b"-" * 16, 16)
        status = call(content, len(content), race, ctypes.create_string_buffer(1))
        told = {11: "bad-text", 3: "too-many"}.get(status) or ",".join(map(str, race.raw[:6]))
        assert told == verdict, text
        assert status == 0 or race.raw == b"-" * 16, text


def test_races(library):
    """What is read of an XGID, of IDs and of six counts, and why a text is refused."""
    call = ctypes.CDLL(str(library / "libbearoff.so")).bearoff_read_position
    call.argtypes = [ctypes.c_char_p, ctypes.c_size_t, ctypes.c_char_p, ctypes.c_char_p]
    rows = race_rows()
    assert len(rows) > 100
    for text, wanted in rows:
        race, place = (ctypes.create_string_buffer(b"-" * size, size) for size in (16, 1))
        status = call(text.encode(), len(text.encode()), race, place)
        assert status == 0 or race.raw == b"-" * 16, text
        told = (*race.raw,) if status == 0 else (*place.raw,)
        assert " ".join(map(str, (status, *told))) == wanted, text
        assert status or place.raw == b"\0", text


@pytest.mark.parametrize("compiler", ["cc", "c++"])
def test_example_in_c(library, room, built, compiler):
    Path("example.c").write_text(code_blocks("docs/embedding.md", "c")[0], encoding="utf-8")
    shutil.copy(built(44), "race.db")
    before = ["-std=c11"] if compiler == "cc" else AS_CPP
    behind = [] if compiler == "cc" else ["-x", "none"]
    words = [*before, *FLAGS, "-o", "example", "example.c", *behind, library / "libbearoff.a"]
    expect(run(compiler, *words), 0)
    expect(run("./example"), 0, PRINTED)
    need("valgrind")
    words = [*VALGRIND, "--log-file=said", "--main-stacksize=16777216", "./example"]
    run(*words, timeout=600)
    assert Path("said").read_text() == ""


@pytest.fixture(scope="session")
def databases(store, built):
    """A folder as the packages' tests want it."""
    folder = store / "databases"
    folder.mkdir(exist_ok=True)
    for name, bound, is_new in (
        ("eight", 8, False),
        ("race.db", 44, False),
        ("large.db", 58, False),
        ("eight_new", 8, True),
        ("race_new.db", 44, True),
    ):
        if not (folder / name).exists():
            os.symlink(built(bound, is_new), folder / name)
    return folder


@pytest.fixture(scope="session")
def gnubg_says(store):
    """What GNU Backgammon says of positions, or None where it can't be had."""
    file = store / "gnubg_says"
    if not file.exists():
        done = run(sys.executable, "-I", CALLERS / "ask_gnubg.py", file, timeout=600)
        expect_that(done.status in (0, 3), done, "what GNU Backgammon says, or that there is none")
    return file if file.exists() else None


@pytest.fixture(scope="session")
def matches(store):
    """Matches that GNU Backgammon plays against itself, or None where it can't be had."""
    folder = store / "matches"
    if not folder.exists():
        done = run(sys.executable, "-I", CALLERS / "play_gnubg.py", folder, timeout=900)
        expect_that(
            done.status in (0, 3), done, "matches of GNU Backgammon, or that there is none"
        )
    return folder if folder.exists() and any(folder.iterdir()) else None


@pytest.fixture
def python(request, library, program, databases):
    """Runs Debian's Python with the package of this repository."""
    is_quick = request.config.getoption("--unproved") > request.config.getoption("--by-hand")

    def run_it(*words, cwd=ROOT / "python", path=ROOT / "python", **more):
        environment = {
            **os.environ,
            "PYTHONPATH": str(path),
            "BEAROFF_LIBRARY": str(library / "libbearoff.so"),
            "BEAROFF_PROGRAM": str(program),
            "BEAROFF_DATABASES": str(databases),
            "BEAROFF_STEP": "11" if is_quick else "1",
            "PYTHONDONTWRITEBYTECODE": "1",
            **more,
        }
        return run("/usr/bin/python3", *words, cwd=cwd, env=environment, timeout=900)

    return run_it


def test_the_readme(python, program, room):
    """What the README shows is what comes, at a terminal and then in Python."""
    page = (ROOT / "README.md").read_text(encoding="utf-8")
    for line in re.findall(r"(?m)^    \./bearoff (.*)$", page):
        succeed("sh", "-c", f'"$0" {line}', program)
    expect(python("-m", "doctest", ROOT / "README.md", cwd=room), 0, "")


def test_python_types():
    need("mypy")
    words = ["/usr/bin/mypy", "--strict", "--cache-dir=/dev/null", "bearoff", "tests"]
    succeed(*words, cwd=ROOT / "python", timeout=600)


PYTHON_TESTS = sorted(path.stem for path in (ROOT / "python/tests").glob("test_*.py"))


def counted(done):
    """How many tests of unittest there were."""
    found = re.search(rb"Ran (\d+) tests? in", done.errors)
    expect_that(found and int(found[1]) > 0, done, "tests that ran")
    return int(found[1])


def test_gnubg_was_asked(gnubg_says):
    need("gnubg")
    assert gnubg_says.stat().st_size > 0


@pytest.mark.parametrize("name", PYTHON_TESTS)
def test_python(python, gnubg_says, matches, note, name):
    """The tests of the package, over the program's lines too."""
    if re.search(rb"numpy|pandas", (ROOT / f"python/tests/{name}.py").read_bytes()):
        need("pandas")
    more = {"BEAROFF_GNUBG": str(gnubg_says)} if gnubg_says else {}
    more |= {"BEAROFF_MATCHES": str(matches)} if matches else {}
    done = python("-m", "unittest", "-v", f"tests.{name}", **more)
    expect_that(done.status == 0, done, "no test that fails")
    is_whole = b"skipped" not in done.errors or gnubg_says is None
    expect_that(is_whole, done, "no test that is left out")
    note(f"python/tests/{name}.py: {counted(done)} tests")


def test_example_for_analysts(python, room, built):
    """The example, and behind it the lines about exact numbers, the last of which is the mean of a
    position."""
    need("pandas")
    page = (ROOT / "docs/analysts.md").read_text(encoding="utf-8")
    exact = re.search(r"(?ms)^## Exact numbers$(.*?)^## Two sides", page)
    lines = re.findall(r"(?m)^    (.*)$", exact[1])
    lines[-1] = f'assert ({lines[-1]}) == database.mean("0,0,0,4,4,1")'
    script = "".join(code_blocks("docs/analysts.md", "python")) + "\n".join(lines) + "\n"
    Path("analysts.py").write_text(script, encoding="utf-8")
    shutil.copy(built(44), "race.db")
    wanted = "".join(code_blocks("docs/analysts.md", "text"))
    expect(python("analysts.py", cwd=room), 0, wanted)


@pytest.fixture
def example(room, built):
    """A folder with the example of the page and its database."""
    text = code_blocks("docs/embedding.md", "python")[0]
    Path("example.py").write_text(text, encoding="utf-8")
    shutil.copy(built(44), "race.db")
    return room


def test_example_in_python(python, example):
    expect(python("example.py", cwd=example), 0, PRINTED)


def test_board_example_in_python(python, room):
    text = code_blocks("docs/embedding.md", "python")[1]
    Path("example.py").write_text(text, encoding="utf-8")
    expect(python("example.py", cwd=room), 0, PRINTED_OF_A_BOARD)


@pytest.fixture
def pip(python, example):
    """Lets pip install the package from a place, and then runs the example over it."""
    need("pip")
    words = ["-m", "pip", "install", "-q", "--no-index", "--no-deps", "--target", example / "site"]

    def install(place):
        done = python(*words, place, cwd=example, path="")
        expect_that(done.status == 0, done, "pip to install the package")
        expect(python("example.py", cwd=example, path=example / "site"), 0, PRINTED)

    return install


def test_pip(pip):
    """The package as pip installs it, without a network, out of a checkout, in which it leaves
    nothing that git would show."""
    need("git")
    os.mkdir("checkout")
    # what a test beside this one has compiled is not in a checkout
    left_out = shutil.ignore_patterns("__pycache__")
    shutil.copytree(ROOT / "python", "checkout/python", ignore=left_out)
    shutil.copy(ROOT / ".gitignore", "checkout/")
    succeed("git", "init", "-q", "checkout")
    succeed("git", "-C", "checkout", "add", "-A")
    pip("./checkout/python")
    words = ["ls-files", "--others", "--modified", "--exclude-standard"]
    expect(run("git", "-C", "checkout", *words))


def test_an_archive_of_the_sources(pip):
    """The package's own archive has the same bytes where it is made again, and pip installs what is
    in it."""
    script = "import sys, wheels; wheels.build_sdist(sys.argv[1])"
    for folder in ("one", "two"):
        os.mkdir(folder)
        words = ["/usr/bin/python3", "-B", "-c", script, Path(folder).resolve()]
        environment = {**os.environ, "SOURCE_DATE_EPOCH": "1700000000"}
        expect(run(*words, cwd=ROOT / "python", env=environment))
    [one], [two] = (list(Path(folder).iterdir()) for folder in ("one", "two"))
    assert (one.name, one.read_bytes()) == (two.name, two.read_bytes())
    pip(one)


@pytest.mark.proved
def test_install(program, example):
    """What is installed is enough to build with."""
    need("pkg-config")
    text = code_blocks("docs/embedding.md", "c")[0]
    Path("example.c").write_text(text, encoding="utf-8")
    prefix = example / "prefix"
    succeed(ROOT / "packaging/install", prefix, timeout=3600)
    environment = {**os.environ, "PKG_CONFIG_PATH": f"{prefix}/lib/pkgconfig"}
    told = succeed("pkg-config", "--cflags", "--libs", "bearoff", env=environment).decode()
    words = ["-o", "installed", "example.c", *told.split(), f"-Wl,-rpath,{prefix}/lib"]
    expect(run("cc", "-std=c11", *words), 0)
    expect(run("./installed"), 0, PRINTED)
    succeed(prefix / "bin/bearoff", "--version")
    assert (prefix / "share/man/man1/bearoff.1").stat().st_size > 0


@pytest.mark.proved
class TestCMake:
    """What was installed is found by CMake, also where it was moved, and by no other first number
    of the version."""

    @pytest.fixture(params=["installed", "moved"])
    def project(self, request, program, example):
        need("cmake")
        succeed(ROOT / "packaging/install", example / "prefix", timeout=3600)
        prefix = example / "prefix"
        if request.param == "moved":
            prefix = prefix.rename(example / "a moved one")
        text = code_blocks("docs/embedding.md", "c")[0]
        Path("example.c").write_text(text, encoding="utf-8")
        lines = "".join(code_blocks("docs/embedding.md", "cmake"))
        lines += "add_executable(of_archive example.c)\n"
        lines += "target_link_libraries(of_archive bearoff::archive)\n"
        Path("CMakeLists.txt").write_text(lines, encoding="utf-8")
        return ["cmake", "-S", ".", "-B", "made", f"-DCMAKE_PREFIX_PATH={prefix}"]

    def test_found(self, project):
        succeed(*project, timeout=600)
        succeed("cmake", "--build", "made", timeout=600)
        for name in ("example", "of_archive"):
            expect(run(f"made/{name}"), 0, PRINTED)

    @pytest.mark.parametrize("asked", ["0", "0.9", "2", "1.0.1", "99"])
    def test_another_version(self, project, asked):
        lines = Path("CMakeLists.txt").read_text(encoding="utf-8")
        wanted = f"find_package(bearoff {asked} REQUIRED)"
        lines = lines.replace("find_package(bearoff 1 REQUIRED)", wanted)
        assert wanted in lines
        Path("CMakeLists.txt").write_text(lines, encoding="utf-8")
        done = run(*project, timeout=600)
        is_so = done.status != 0 and b"bearoff-config.cmake, version: " in done.errors
        expect_that(is_so, done, "a refusal that says which version there is")
