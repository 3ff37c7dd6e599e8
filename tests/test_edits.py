"""The mutants of crates/NAME/wrong_bodies, a file each, which tools/try_edits tries many in one check: what
it makes of what the prover says, which edits it tries together, and, over the prover itself, that
a body which is right is told as PROVED and one that does not compile as a BAD EDIT."""

import collections
import importlib.machinery
import importlib.util
import os
import re
import sys

import pytest

from running import ROOT, expect_that, run, succeed

# what the prover said of a check of a few mutants
SAID = """\
./proofs/text/parse/Answers.antt:80:40: error: `none`: module `Goals` has no `none` that can be named
./proofs/text/write/Answers.antt:47:85: error: `count_text`: `rw`: no part of the goal
./proofs/text/write/Answers.antt:49:5: error: 2 declarations that depend on `count_text`, which
note: src/board.rt:74:5: it is not proved that what the function ensures holds (`returns-value`)
fn low::board::Board::count: no proof: expected answers; `search` did not prove `returns-value`
impl low::board::BoardOrd: not proved; it waits for the proof of `cmp`
fn low::board::Board::is_empty: no proof: it calls `low::board::Board::count`, which is not proved
fn low::board::Board::pips: proved
fn low::text::parse: not proved
note: src/text.rt:59:5: it is not proved that the invariant of the loop holds (`loop-kept`)
fn low::text::read: not proved
fn low::text::write: not proved; it calls `low::board::Board::count`, which is not proved
logic=not-proved
"""

SOURCE = """\
const MOST: u8 = 90;

impl Board {
    pub fn count(&self) -> u8
        ensures { result ≤ 15 }
    {
        self.count
    }

    fn pips(&self) -> u8 {
        let pips = self.pips;
        pips
    }
}

impl From<ReadFault> for Fault {
    fn from(fault: ReadFault) -> Fault {
        Fault::Read
    }
}

impl<'a, T: Drop, const ROOM: usize> From<Room<T, ROOM>> for &'a Board {
    fn from(room: Room<T, ROOM>) -> Self
        ensures { result ≡ record {
          count = 15;
        } }
    {
        &room.board
    }
}

impl Digits for u128 {
    fn digits(self) -> u8;

    fn last(self) -> u8 {
        (self % 10) as u8
    }
}
"""


@pytest.fixture(scope="module")
def tool():
    """tools/try_edits as a module."""
    loader = importlib.machinery.SourceFileLoader("try_edits", str(ROOT / "tools/try_edits"))
    made = importlib.util.module_from_spec(importlib.util.spec_from_loader("try_edits", loader))
    was, sys.dont_write_bytecode = sys.dont_write_bytecode, True
    loader.exec_module(made)
    sys.dont_write_bytecode = was
    return made


def edit_of(tool, function, owner=None, module="text", name="x"):
    """An edit in a function."""
    return tool.Edit(name, "src/x.rt", ((0, 1, "a"),), tool.Place(module, owner, function))


@pytest.mark.parametrize(
    "function, owner, module, verdict",
    [
        (
            "count",
            ("Board", ""),
            "board",
            ("refused", "returns-value of low::board::Board::count"),
        ),
        ("read", None, "text", ("refused", "loop-kept of low::text::read")),
        # its own goal fails, whatever it waits for
        ("write", None, "text", ("refused", "count_text of low::text::write, by its answer")),
        # tried again without the edit of what it calls
        ("is_empty", ("Board", ""), "board", (None, False)),
        # tried alone: refused in no goal, and for a name alone
        ("pips", ("Board", ""), "board", (None, True)),
        ("parse", None, "text", (None, True)),
    ],
)
def test_verdicts(tool, function, owner, module, verdict):
    edit = edit_of(tool, function, owner, module)
    found, waits = tool.judge([edit], SAID, "low")
    assert found[edit] == verdict
    assert waits["low::board::Board::is_empty"] == {"low::board::Board::count"}


@pytest.mark.parametrize(
    "said, verdict",
    [
        ("fn low::x: proved\nlogic=proved functions=1\n", "PROVED"),
        ("src/x.rt:1:1: error[E1]: no such name\n", "BAD EDIT"),
        (SAID, "refused"),
        (
            "./proofs/x/Answers.antt:8:4: error: `none`: module `Goals` has no `none`\n"
            "fn low::x: not proved\nlogic=not-proved\n",
            "NAME ALONE",
        ),
        (
            "./proofs/x/Answers.antt:8:4: error: `beside`: `rw`: no part of the goal\n"
            "fn low::x: not proved\nlogic=not-proved\n",
            "refused",
        ),
        (
            "./proofs/x/Answers.antt:8:4: error: `returns`: antt ran out of the steps\n"
            "fn low::x: could not tell\nrattle: no verdict\n",
            "refused",
        ),
        ("fn low::x: could not tell\nrattle: no verdict: it was killed\n", "NOT TRIED"),
    ],
)
def test_verdicts_alone(tool, said, verdict, monkeypatch):
    monkeypatch.setattr(tool, "lemmas_of", lambda crate, function: {"beside"})
    assert tool.verdict_alone(said, 1, "low")[0] == verdict


def test_batches(tool):
    """Two edits of one function don't meet in a check, nor do those of functions of which one waits
    for the other, maybe through a third."""
    edits = [edit_of(tool, it, name=it + way) for way in "ab" for it in ("one", "two", "three")]
    waits = collections.defaultdict(set)
    tried = lambda: [it.name for it in tool.batch_of(edits, "low", waits)]
    assert tried() == ["onea", "twoa", "threea"]
    waits["low::text::one"] = {"low::text::between"}
    waits["low::text::between"] = {"low::text::three"}
    assert tried() == ["onea", "twoa"]
    edits.pop(0)
    assert tried() == ["twoa", "threea"]


def test_places(tool):
    def place(text):
        return tool.place_of(SOURCE, "src/text/board.rt", SOURCE.index(text))

    assert place("90") is None
    assert place("result ≤ 15") is None
    assert place("self.count") == ("text::board", ("Board", ""), "count")
    assert place("let pips") == ("text::board", ("Board", ""), "pips")
    assert place("Fault::Read") == ("text::board", ("Fault", "From<ReadFault>"), "from")
    assert tool.name_of(place("Fault::Read")) == "text::board::FaultFromReadFault::from"
    assert tool.name_of(place("&room.board")) == "text::board::RefBoardFromRoom::from"
    assert place("fn digits") is None
    assert tool.name_of(place("self % 10")) == "text::board::U128Digits::last"


def test_further_functions(tool, room):
    """An edit becomes a further function, and one of a trait's method stays where it is."""
    (room / "src").mkdir()
    (room / "src/x.rt").write_text(SOURCE)
    text = "file: src/x.rt\nold: %s\nnew: wrong"
    edit = tool.further(tool.read_edit("x", text % "let pips = self.pips;", room), 3, room)
    assert (edit.place.function, edit.of.function) == ("pips_variant_3", "pips")
    method = "    fn pips%s(&self) -> u8 {\n        %s\n        pips\n    }\n"
    was = method % ("", "let pips = self.pips;")
    wanted = SOURCE.replace(was, was + "\n" + method % ("_variant_3", "wrong"))
    assert tool.changed(SOURCE, edit.spans) == wanted
    edit = tool.read_edit("x", text % "Fault::Read", room)
    assert tool.further(edit, 3, room) == edit


def test_names(tool):
    """The proof of each function stands where its name says, also that of a type of another
    module."""
    wrong = []
    for crate in ROOT.glob("crates/*"):
        names = {*tool.functions_in(crate)}
        for path in (*crate.glob("proofs/**/Answers.antt"), *crate.glob("proofs/**/Proof.antt")):
            name = "::".join(path.parent.relative_to(crate / "proofs").parts)
            # one that calls itself stands in a folder of its own, and a law has no body
            if name not in names and "::+" not in name and "::law_" not in name:
                wrong.append(f"{crate.name}::{name}")
    assert not wrong


@pytest.mark.proved
@pytest.mark.xdist_group("prover")
def test_prover(room):
    """Over the prover: a right body, one that does not compile, and wrong ones beside them."""
    rows = {
        "is_right": ("named.number == file.number", "file.number == named.number"),
        "is_wrong": ('path.starts_with("/proc/")', "path.is_empty()"),
        "is_no_program": ("name_of(new) == name_of(place)", "name_of(new == name_of(place)"),
        "is_not_there": ("DraftFault::Nowhere", "DraftFault::Memory"),
        "takes_nothing_away": (
            "disk.remove(names.new.as_str())",
            "disk.facts_at(names.new.as_str())",
        ),
        # right, in a function whose proof is by hand
        "is_right_too": ("!disk.can_be_replaced(", "!(disk).can_be_replaced("),
    }
    text = "\n".join(
        f"name: {name}\nfile: src/draft.rt\nold: {old}\nnew: {new}\n"
        for name, (old, new) in rows.items()
    )
    (room / "edits").write_text(text)
    words = (ROOT / "tools/try_edits", "whole_file", "--edits", room / "edits")
    here = {**os.environ, "XDG_CACHE_HOME": str(room / "cache")}
    done = run(*words, env=here, timeout=1200)
    rows = re.findall(r"(?m)^([\w ]+): whole_file/(\w+): ", done.output.decode())
    verdicts = {name: kind for kind, name in rows}
    wanted = {
        "is_right": "PROVED",
        "is_right_too": "PROVED",
        "is_wrong": "refused",
        "is_no_program": "BAD EDIT",
        "is_not_there": "BAD EDIT",
        "takes_nothing_away": "refused",
    }
    expect_that(verdicts == wanted and done.status == 1, done, f"status 1 and {wanted}")


def test_each_edit_can_be_planted():
    """What an edit changes stands once in its crate."""
    wrong, count = [], 0
    for path in [*ROOT.glob("crates/*/must-fail/*"), *ROOT.glob("crates/*/wrong_bodies")]:
        crate = ROOT.joinpath(*path.relative_to(ROOT).parts[:2])
        for kind, text in re.findall(r"(?m)^(file|old): (.*)", path.read_text()):
            if kind == "file":
                source, count = crate / text.strip(), count + 1
            elif source.read_text().count(text) != 1:
                wrong.append(f"{path.relative_to(ROOT)}: '{text}' is not once in {source.name}")
    assert count > 300 and not wrong, "\n".join(wrong)


def test_parts():
    """`make check` names all parts."""
    rows = re.search(r"(?ms)^PARTS = \{$.*?^\}$", (ROOT / "tools/check").read_text())[0]
    parts = re.findall(r'(?m)^    "(\w+)": Part', rows)
    # a make within another one says which folder it enters
    made = succeed("make", "--no-print-directory", "--dry-run", "check", cwd=ROOT)
    assert made.decode().split()[1:] == parts


def test_patience():
    """A part that is to be patient is so before the processes of other parts, too."""
    told = re.search(r"(?m)^PATIENCE = '(.*)'$", (ROOT / "tools/check").read_text())[1]
    if not os.path.exists("/proc/self/autogroup"):
        pytest.skip("this system has no groups of processes that share its processors")
    group = succeed("sh", "-c", told, "sh", "cat", "/proc/self/autogroup", start_new_session=True)
    assert group.endswith(b" nice 10\n")
