"""The launcher `bearoff` and tools/prove, in copies of what they read: with a kit that only tells
how it was called, what is run before a proof, after one, after a change of a source and without a
kit, what --prove does, and what is taken for proved; and with the kit's own tools, in a copy where
nothing is proved, the first command of the README."""

import fnmatch
import os
import re
import shutil
import signal
import subprocess
import time
from pathlib import Path

import pytest

from running import ROOT, copy_all, expect_that, run, succeed, wait_until

# what the launcher and tools/prove call beside the kit
COMMANDS = (
    "sh bash cat sed find awk head tail dirname readlink mktemp date touch grep rm wc env"
    " python3 sort xargs sha256sum cut setpriv"
).split()

# its gate tells which crates it proves: one that FAILING names fails, and what it makes of the
# others is an empty library, or a program that tells its words
RT = """#!/bin/sh
[ "$1" != --help ] || { echo "rt ci [--anew]" >&2; exit; }
[ "$1" = ci ] || { echo "$KIT/START-HERE.md"; exit; }
echo "ci${2+ $2}:$(sed 's/:.*//' crates.txt | tr '\\n' ' ' | sed 's/^/ /; s/ $//')" >>"$TOLD"
for crate in crates/*; do
    name=${crate#crates/}
    mkdir -p "$crate/out/rlib/$name.rlib"
    [ "$FAILING" != "$name" ] || { echo "error: no proof of $name"; echo "rt: $name NOT PROVED"; exit 1; }
    if [ -f "$crate/src/main.rt" ]; then
        printf '#!/bin/sh\\necho proved "$@"\\n' >"$crate/out/$name" && chmod +x "$crate/out/$name"
    fi
    echo "rt: $name proved"
done; echo "rt: ok${FAILING:+; must-fail edits: 2 refused, 1 bad}"
"""

# compiles nothing: it tells how it was called, and makes a program that tells its input
AS_WRITTEN = """#!/bin/sh
echo "unproved$(printf ' <%s>' "$@")" >>"$TOLD"
[ -z "$FAILING" ] || { echo "unproved: $FAILING can't be compiled" >&2; exit 1; }
mkdir -p "$(dirname "$0")/../out/unproved"
printf '#!/bin/sh\\necho as written "$@"; cat; exit ${STATUS:-0}\\n' \
    >"$(dirname "$0")/../out/unproved/bearoff"
chmod +x "$(dirname "$0")/../out/unproved/bearoff"
"""

# the stamp of a library: the texts of its sources
RTLIB = """import os


class Crate:
    def __init__(self, folder, root, known):
        self.folder, self.name = folder, os.path.basename(folder)

    def makes_rlib(self):
        return os.path.isfile(f"{self.folder}/src/lib.rt")

    def stamp(self):
        with open(f"{self.folder}/src/lib.rt", encoding="ascii") as source:
            return source.read()
"""

NOTE = "bearoff: this answer is by the program as it is written: nothing was proved here yet*;*--prove*"
CHANGED = NOTE.replace("nothing was proved here yet", "a source or the toolchain has changed*")
FIRST = "*, and it is compiled first (about a minute);*"
COMPILED = ["unproved <--quiet> <program>"]
COPIED = ["a copy", "elsewhere", "kit", "none"]


class Copy:
    """A repository of a few crates in a folder with a space, and a kit that tells of itself."""

    def __init__(self, work):
        self.work, self.root = work, work / "a copy"
        self.launcher, self.told_file = self.root / "bearoff", work / "told"
        for crate in ("bearoff_cli", "low", "other", "beside"):
            source = self.root / "crates" / crate / "src"
            source.mkdir(parents=True)
            (source / ("main.rt" if crate == "bearoff_cli" else "lib.rt")).write_text("one\n")
        (self.root / "tools").mkdir()
        shutil.copy(ROOT / "HANDLES", self.root)
        shutil.copy(ROOT / "bearoff", self.launcher)
        for name in ("made", "prove", "sources"):
            shutil.copy(ROOT / "tools" / name, self.root / "tools")
        (self.root / "tools/unproved").write_text(AS_WRITTEN)
        (self.root / "tools/unproved").chmod(0o755)
        rows = "# a comment\nlow: \nother:\nbearoff_cli: low other clap\nbeside: low\n"
        (self.root / "crates.txt").write_text(rows)
        for folder in ("kit/bin", "kit/rlibs", "none", "elsewhere"):
            (work / folder).mkdir(parents=True)
        for command in COMMANDS:
            os.symlink(shutil.which(command), work / "none" / command)
        for name, text in {"rt": RT, "rtlib.py": RTLIB}.items():
            (work / "kit/bin" / name).write_text(text)
            (work / "kit/bin" / name).chmod(0o755)
        self.here = work / "elsewhere"
        self.program = self.root / "crates/bearoff_cli/out/bearoff_cli"
        self.note = Path(f"{self.program}.made")
        self.low = self.root / "crates/low/src/lib.rt"

    def run(self, *words, input="a line", status=0, failing="", has_kit=True, by=None):
        environment = self.environment(has_kit, STATUS=str(status), FAILING=failing)
        return run(by or self.launcher, *words, input=input, env=environment, cwd=self.here)

    def environment(self, has_kit=True, **more):
        path = f"{self.work}/kit/bin:{os.environ['PATH']}" if has_kit else f"{self.work}/none"
        more |= {"PATH": path, "KIT": f"{self.work}/kit", "TOLD": str(self.told_file)}
        return {**os.environ, **more, "TMPDIR": str(self.work)}

    def told(self):
        """How the kit was called since this was asked last."""
        lines = self.told_file.read_text().splitlines() if self.told_file.exists() else []
        self.told_file.unlink(missing_ok=True)
        return lines

    def prove(self, *words, **how):
        return self.run("--prove", *words, "--jobs", "5", **how)


@pytest.fixture
def copy(room):
    return Copy(room)


def expect(done, status, output, errors):
    """The status, what was written, and a pattern of what was said, without their last ends."""
    __tracebackhide__ = True
    wrote, said = done.output.decode().rstrip("\n"), done.errors.decode().rstrip("\n")
    is_so = (done.status, wrote) == (status, output) and fnmatch.fnmatchcase(said, errors)
    expect_that(is_so, done, f"status {status}, output {output!r}, errors like {errors!r}")


class TestBeforeAProof:
    """Words, folder, input, output, errors and status are those of the program as it is written,
    which is compiled first."""

    def test_no_words(self, copy):
        done = copy.run()
        expect(done, 0, "as written\na line", NOTE)
        assert done.errors.count(b"\n") == 1, "more than one line on standard error"
        assert copy.told() == COMPILED
        expect(done, 0, "as written\na line", FIRST)
        assert b"compiled" not in copy.run().errors

    def test_words_and_a_status(self, copy):
        done = copy.run("check", "a file", "--", "-x", status=3)
        expect(done, 3, "as written check a file -- -x\na line", NOTE)

    def test_what_can_not_be_compiled(self, copy):
        expect(copy.run(failing="it"), 1, "", f"{NOTE}\nunproved: it can't be compiled")

    def test_an_input_without_end(self, copy):
        """What is read is what the program reads, and no file is filled with it."""
        endless = copy.work / "endless"
        endless.write_text(f'#!/bin/sh\nyes | "{copy.launcher}" 2>/dev/null | head -n 3\n')
        endless.chmod(0o755)
        expect(copy.run(by=endless), 0, "as written\ny\ny", "")
        assert max(it.lstat().st_size for it in copy.work.rglob("*")) < 1_000_000

    @pytest.mark.parametrize("words", ["--jobs 0", "--jobs", "--jobs x", "now"])
    def test_wrong_words_of_prove(self, copy, words):
        expect(copy.run("--prove", *words.split()), 2, "", "usage: *")
        assert copy.told() == []

    def test_version(self, copy):
        """After the program's line another one says that it isn't proved, and by which kit."""
        line = f"NOT PROVED, {copy.work}/kit/START-HERE.md"
        expect(copy.run("--version"), 0, f"as written --version\na line\n{line}", NOTE)
        expect(copy.run("--version", "x"), 0, "as written --version x\na line", NOTE)
        expect(copy.run("--version", status=3), 3, "as written --version\na line", NOTE)


class TestWithoutAKit:
    def test_no_program(self, copy):
        said = "bearoff: the program is not built, and*rt*missing"
        expect(copy.run("check", "x", has_kit=False), 1, "", said)

    def test_prove(self, copy):
        expect(copy.run("--prove", has_kit=False), 1, "", "bearoff: *rt*missing")

    def test_what_makes_something(self, room):
        """A line says what is missing, and nothing is made."""
        folders = [it for it in os.environ["PATH"].split(":") if not os.path.exists(f"{it}/rt")]
        environment = {**os.environ, "PATH": ":".join(folders)}
        for words in (
            "packaging/modules made",
            "packaging/archive made",
            "packaging/library made",
        ):
            done = run(ROOT / words.split()[0], *words.split()[1:], env=environment)
            expect(done, 1, "", "*: the Rattle toolchain's command rt, which*missing")
        for words in ("over_proved bearoff_c build", "prove bearoff_c", "unproved modules"):
            done = run(ROOT / "tools" / words.split()[0], *words.split()[1:], env=environment)
            expect(done, 1, "", "*: the Rattle toolchain's command rt is missing")
        assert not [it for it in room.rglob("*") if it.is_file()]

    def test_a_changed_source(self, copy):
        assert copy.prove().status == 0
        copy.low.write_text("two\n")
        expect(copy.run("query", "x", has_kit=False), 0, "proved query x", "")


class TestProve:
    def test_a_proof_that_fails(self, copy):
        said = "*error: no proof of other*prove: *not proved; what the prover said is in*"
        expect(copy.prove(failing="other"), 1, "", said)
        (log,) = copy.work.glob("bearoff-prove-*.log")
        assert log.stat().st_size > 0, "a proof that fails leaves no log"
        assert not copy.note.exists(), "a proof that failed counts as one"
        assert not (copy.root / "crates/low/out").exists(), "what failed with others is taken"

    def test_what_is_proved(self, copy):
        """The crate and those below it, and no others, in a copy that is gone after it."""
        said = "bearoff: proving the program*prove: 1 of 3 crates are proved*3 of 3 crates are proved*"
        expect(copy.prove(), 0, "", said)
        assert copy.told() == ["ci: low other bearoff_cli"]
        assert sorted(it.name for it in copy.work.iterdir()) == COPIED
        assert (copy.root / "crates/low/out/rlib/stamp").read_text() == "one\n"
        assert not (copy.root / "crates/beside/out").exists()

    @pytest.mark.parametrize("word", [" --anew", ""])
    def test_anew(self, copy, word):
        """A gate that keeps nothing has no word for it."""
        (copy.work / "kit/bin/rt").write_text(RT.replace(" [--anew]", word))
        for _ in range(2):
            assert copy.prove("--anew").status == 0
            assert copy.told() == [f"ci{word}: low other bearoff_cli"]

    @pytest.mark.parametrize("number", [signal.SIGKILL, signal.SIGTERM])
    def test_a_proof_that_is_ended(self, copy, number):
        """The gate ends with it, and another one can begin."""
        rt, file = copy.work / "kit/bin/rt", copy.told_file
        told = lambda: file.read_text().splitlines() if file.exists() else []
        rt.write_text(
            RT.replace("crates/*; do", 'crates/*; do echo $$ >>"$TOLD"; exec sleep 600\n')
        )
        words = [copy.root / "tools/prove", "bearoff_cli", "--jobs", "2"]
        with subprocess.Popen(words, env=copy.environment(), stderr=subprocess.DEVNULL) as proving:
            wait_until(lambda: len(told()) == 2)
            proving.send_signal(number)
        wait_until(lambda: not os.path.exists(f"/proc/{told()[1]}"))
        assert not os.path.exists(f"/proc/{told()[1]}")
        rt.write_text(RT)
        assert copy.prove().status == 0

    def test_a_source_that_changes_meanwhile(self, copy):
        """What was proved is that of the sources as they were."""
        rt = copy.work / "kit/bin/rt"
        rt.write_text(RT.replace("crates/*; do", f'crates/*; do echo two >"{copy.low}"'))
        expect(copy.prove(), 1, "", "*made: a source changed meanwhile*")
        expect(copy.run(), 0, "as written\na line", CHANGED)


class TestGate:
    """What `rt ci` made of the crates here is taken, and nothing of it is proved again."""

    @pytest.fixture
    def gate(self, copy):
        """Runs the gate, and gives how a proof of some crates after it calls the kit."""

        def run(*crates, status=0, **how):
            prove = copy.root / "tools/prove"
            done = copy.run("--gate", "rt", "ci", by=prove, **how)
            assert done.status == status, done
            copy.told()
            (copy.work / "kit/bin/rt").write_text(RT)
            return copy.run(*crates, by=prove).status == 0 and copy.told()

        return run

    def test_what_it_proved(self, copy, gate):
        assert gate("bearoff_cli", "beside") == []
        expect(copy.run("check", "x"), 0, "proved check x", "")

    def test_a_library_that_stood_before(self, copy, gate):
        """The gate puts that back, whatever it was made of."""
        (copy.root / "crates/low/out/rlib/low.rlib").mkdir(parents=True)
        assert gate("low") == ["ci: low"]

    @pytest.mark.parametrize("failing", ["other", "an edit that is none"])
    def test_what_failed(self, gate, failing):
        assert gate("other", status=1, failing=failing) == ["ci: other"]

    def test_a_source_that_changes_meanwhile(self, copy, gate):
        rt = copy.work / "kit/bin/rt"
        rt.write_text(RT.replace("crates/*; do", f'crates/*; do echo two >"{copy.low}"'))
        assert gate("bearoff_cli", status=1) == ["ci: low other bearoff_cli"]

    @pytest.mark.parametrize("words", ["", "low --gate rt ci"])
    def test_wrong_words(self, copy, words):
        done = copy.run(*words.split(), by=copy.root / "tools/prove")
        expect(done, 2, "", "usage: *either crates or --gate")


class TestAfterAProof:
    @pytest.fixture(autouse=True)
    def proved(self, copy):
        assert copy.prove().status == 0
        copy.told()

    def test_the_program(self, copy):
        expect(copy.run("check", "x"), 0, "proved check x", "")
        assert copy.told() == []

    def test_version(self, copy):
        """It is proved, of a commit with or without changes."""
        succeed("git", "init", "-q", copy.root)
        line = f"proved --version\nproved, {copy.work}/kit/START-HERE.md"
        expect(copy.run("--version"), 0, line, "")
        who = ["-c", "user.name=a", "-c", "user.email=a"]
        succeed("git", "-C", copy.root, "add", "tools")
        succeed("git", "-C", copy.root, *who, "commit", "-qm", "one")
        commit = succeed("git", "-C", copy.root, "describe", "--always").decode().strip()
        expect(copy.run("--version"), 0, f"{line}, {commit}", "")
        (copy.root / "tools/unproved").write_text(f"{AS_WRITTEN}# a change\n")
        expect(copy.run("--version"), 0, f"{line}, {commit}-dirty", "")
        expect(copy.run("--version", has_kit=False), 0, "proved --version\nproved", "")

    def test_by_a_link(self, copy):
        os.symlink(copy.launcher, copy.here / "link")
        expect(copy.run(by="./link"), 0, "proved", "")
        assert copy.told() == []

    @pytest.mark.parametrize("change", ["text", "old text", "name", "gone", "more", "row"])
    def test_a_changed_source(self, copy, change):
        """Whatever its time: it is run as it is written, and proved again."""
        if change in ("text", "old text"):
            copy.low.write_text("two\n")
        elif change == "name":
            copy.low.rename(copy.low.with_name("other.rt"))
        elif change == "gone":
            copy.low.unlink()
        elif change == "more":
            (copy.low.parent / "more.rt").touch()
        else:
            (copy.root / "crates.txt").write_text("low:\nother:\nbearoff_cli: low other clap\n")
        if change != "text":
            for path in [*copy.root.rglob("*.rt"), copy.root / "crates.txt"]:
                os.utime(path, (0, 0))
        expect(copy.run(), 0, "as written\na line", CHANGED)
        assert copy.told() == COMPILED
        assert copy.prove().status == 0
        assert copy.told() == ["ci: low other bearoff_cli"]

    def test_a_change_that_keeps_size_and_time(self, copy):
        """Also where the sum of the sources is kept, so that no file is read."""
        time.sleep(2.1)
        expect(copy.run(), 0, "proved", "")
        assert (copy.root / "out/sources.seen").exists(), "the sum of old files is not kept"
        was = copy.low.stat()
        copy.low.write_text("two\n")
        os.utime(copy.low, ns=(was.st_atime_ns, was.st_mtime_ns))
        expect(copy.run(), 0, "as written\na line", CHANGED)

    def test_times_alone(self, copy):
        """A source that is newer and says the same is no change."""
        copy.low.touch()
        expect(copy.run("mean"), 0, "proved mean", "")
        expect(copy.prove(), 0, "", "")
        assert copy.told() == []

    def test_a_wrong_body(self, copy):
        """An edit that the prover has to refuse is no source."""
        (copy.root / "crates/low/wrong_bodies").touch()
        expect(copy.run("mean"), 0, "proved mean", "")

    @pytest.mark.parametrize(
        "other", ["program", "program's sum", "sources' sum", "empty", "nothing"]
    )
    def test_what_was_not_proved(self, copy, other):
        """A program that was put in the place of the proved one, or whose proof was of other
        sources, is not run, and --prove makes the proved one again."""
        sums = copy.note.read_text().splitlines()
        if other == "program":
            copy.program.write_text("#!/bin/sh\necho unproved\n")
        elif other == "nothing":
            copy.note.unlink()
        else:
            sums = [sums[0], "0" * 64] if other == "program's sum" else ["0" * 64, sums[1]]
            copy.note.write_text("" if other == "empty" else "".join(f"{it}\n" for it in sums))
        expect(copy.run(), 0, "as written\na line", CHANGED)
        copy.told()
        assert copy.prove().status == 0
        assert copy.told() == ["ci: low other bearoff_cli"]
        expect(copy.run(), 0, "proved", "")

    def test_what_is_compiled_as_it_is_written(self, copy):
        """The program without a proof is no reason to leave the proof out."""
        copy.note.unlink()
        assert copy.run().status == 0
        shutil.copy(copy.root / "out/unproved/bearoff", copy.program)
        copy.told()
        assert copy.prove().status == 0
        assert copy.told() == ["ci: low other bearoff_cli"]


def test_the_first_command_of_the_readme(room, note, request):
    """With the kit, in a copy where nothing is proved; with --unproved the program is compiled."""
    assert shutil.which("rt"), "the Rattle kit's command rt is missing"
    copy_all(room)
    if request.config.getoption("--unproved"):
        succeed("cp", "--parents", "out/unproved/bearoff", "out/unproved/.program", room, cwd=ROOT)
    page = (ROOT / "README.md").read_text(encoding="utf-8")
    found = re.search(r"(?m)^    (printf .*\| \./bearoff)\n\n.*\n\n((?:    .*\n)+)", page)
    assert found, "the README has no first command, or no answer to it"
    answer = re.sub(r"(?m)^    ", "", found[2])
    for what in ("first command", "first command, once more"):
        began = time.time()
        done = subprocess.run(
            ["bash", "-c", found[1]], cwd=room, capture_output=True, text=True, timeout=900
        )
        note(f"the README's {what}, where nothing is proved, took {time.time() - began:.1f} s")
        assert (done.stdout, done.returncode) == (answer, 0), done.stderr
        said = re.sub(r"bearoff: compiling, \d+ s so far .*\n", "", done.stderr)
        assert fnmatch.fnmatchcase(said.rstrip("\n"), NOTE)
        assert said.count("\n") == 1
