"""Kills the built program before each of its system calls, and fails each of them, one in a run,
by strace: under a build over a good file, a build of a new one, both through a link too, an
upgrade in place, and a build of the whole board. After each run the file is the whole old or the
whole new one, or absent where there was none. After a kill there is at most one new file beside
it; after a failed call there is none, and the status and the line are those of the fault. Tries
also that the bytes are brought to the disk before the file gets its name, eight builds and checks
of one file at once, a whole build within each system call of another run, a run that a limit ends,
the kinds of file that a database can be written into, and several runs that write straight into
one."""

import collections
import concurrent.futures
import contextlib
import fcntl
import os
import re
import resource
import shutil
import signal
import stat
import subprocess
import tempfile
from pathlib import Path

import pytest

from running import KNOWN, expect, run, wait_until

# these wait for one another's times, and use all processors by themselves
pytestmark = pytest.mark.xdist_group("alone")

# what Linux never refuses to a program that runs, and what the end of a process is made of
NEVER_FAIL = {
    "brk",
    "execve",
    "exit_group",
    "exit",
    "arch_prctl",
    "set_tid_address",
    "set_robust_list",
    "rseq",
    "prlimit64",
    "getrandom",
    "rt_sigaction",
    "rt_sigprocmask",
    "sigaltstack",
    "close",
    "munmap",
    "mprotect",
    "access",
}

# the errors that a call is failed with: one that is a fault, and one that some systems give in
# place of an answer
ERRORS = {
    "openat": ["EMFILE", "EACCES"],
    "open": ["EMFILE", "EACCES"],
    "fsync": ["EIO", "EINVAL"],
    "write": ["ENOSPC"],
    "mmap": ["ENOMEM"],
    "rename": ["EBUSY"],
}

# for how long a run is held up while another one builds, in microseconds
HELD_UP = 700_000

LINES = [f"bearoff: {word}\n".encode() for word in ("open", "file", "write", "memory")]
BUILD = ["build", "--pips", "8"]
BUILT, UPGRADED = b"built pips 8 positions 64\n", b"upgraded pips 8 positions 64\n"
BOARD = b"built pips 90 positions 54264\n"
IS_ROOT = os.getuid() == 0

# a user who is not root, and the group of that user
NOBODY = (65534, 65534)
AS_NOBODY = {"user": NOBODY[0], "group": NOBODY[1], "extra_groups": []} if IS_ROOT else {}

# the words that write a file, which is named last: each command, and both kinds of file
WRITERS = (BUILD, ["build", "--board"], ["upgrade", "old"])

# a run that is killed or failed: its words, where the file is, what stands there before and after,
# the link to it
Scene = collections.namedtuple("Scene", "name words file old new link told")
SCENES = (
    Scene("build over a file", [*BUILD, "db"], "db", "six", "eight", None, BUILT),
    Scene("build of a new file", [*BUILD, "db"], "db", None, "eight", None, BUILT),
    Scene(
        "build over a file by a link", [*BUILD, "link"], "inner/db", "six", "eight", "link", BUILT
    ),
    Scene(
        "build of a new file by a link", [*BUILD, "link"], "inner/db", None, "eight", "link", BUILT
    ),
    Scene("upgrade in place", ["upgrade", "db", "db"], "db", "eight", "new_eight", None, UPGRADED),
    Scene("build of a board", ["build", "--board", "db"], "db", "six", "board", None, BOARD),
)
every_scene = pytest.mark.parametrize("scene", SCENES, ids=lambda scene: scene.name)


def bytes_of(path):
    return Path(path).read_bytes() if os.path.exists(path) else None


def put(path, content, mode=0o644):
    Path(path).write_bytes(content)
    os.chmod(path, mode)


def leftovers(folder="."):
    return [name for place, _, names in os.walk(folder) for name in names if name.endswith(".tmp")]


class Crashes:
    """A copy of the program, the databases that it writes, and the runs under strace."""

    def __init__(self, program, built, board, folder):
        self.work = folder
        self.program = os.path.join(folder, "bearoff")
        shutil.copyfile(program, self.program)
        os.chmod(self.program, 0o755)
        self.bytes_of = {None: None}
        for name, bound in (("three", 3), ("six", 6), ("eight", 8)):
            self.bytes_of[name] = built(bound).read_bytes()
            self.bytes_of[f"new_{name}"] = built(bound, is_new=True).read_bytes()
        self.bytes_of["board"] = board(90).read_bytes()

    def prepare(self, scene, place):
        os.makedirs(os.path.join(place, "inner"))
        if scene.old is not None:
            put(os.path.join(place, scene.file), self.bytes_of[scene.old])
        if scene.link:
            os.symlink(scene.file, os.path.join(place, scene.link))

    def traced(self, scene, folder, *how):
        """Runs a scene in a new folder under strace."""
        self.prepare(scene, folder)
        command = ["strace", "-f", "-qq", *how, self.program, *scene.words]
        pipes = {"stdin": subprocess.DEVNULL, "stdout": subprocess.PIPE, "stderr": subprocess.PIPE}
        with subprocess.Popen(command, cwd=folder, start_new_session=True, **pipes) as child:
            try:
                output, errors = child.communicate(timeout=60)
            except subprocess.TimeoutExpired:
                # the traced program is in the group that the new session began
                os.killpg(child.pid, signal.SIGKILL)
                output, errors = child.communicate()
        return subprocess.CompletedProcess(command, child.returncode, output, errors)

    def state(self, scene, place, what, most, wanted):
        """What is wrong with the files after a run: the file is one of some databases, and so many
        others may stay."""
        stands = bytes_of(os.path.join(place, scene.file))
        if stands not in [self.bytes_of[name] for name in wanted]:
            size = "absent" if stands is None else f"of {len(stands)} bytes"
            return f"{what}: the file is {size}, and not one of {', '.join(map(str, wanted))}"
        if scene.link and not os.path.islink(os.path.join(place, scene.link)):
            return f"{what}: the link is gone"
        if len(leftovers(place)) > most:
            return f"{what}: {leftovers(place)} stay"
        return None

    def calls_of_whole_run(self, scene):
        """The system calls of a run to its end, which has to be as it should be."""
        with tempfile.TemporaryDirectory(dir=self.work) as folder:
            trace, place = os.path.join(folder, "trace"), os.path.join(folder, "here")
            done = self.traced(scene, place, "-o", trace)
            wrong = self.state(scene, place, scene.name, 0, [scene.new])
            assert wrong is None, wrong
            assert (done.returncode, done.stdout, done.stderr) == (0, scene.told, b""), scene.name
            return calls_of(trace)

    def killed(self, scene, name, number):
        with tempfile.TemporaryDirectory(dir=self.work) as folder:
            place = os.path.join(folder, "here")
            inject = f"inject={name}:signal=KILL:when={number}"
            done = self.traced(scene, place, "-o", os.path.join(folder, "trace"), "-e", inject)
            what = f"{scene.name}, killed before {name} {number}"
            if done.returncode not in (-9, 137):
                return f"{what}: status {done.returncode}"
            return self.state(scene, place, what, 1, [scene.old, scene.new])

    def failed(self, scene, name, number, error, text, stands):
        with tempfile.TemporaryDirectory(dir=self.work) as folder:
            place = os.path.join(folder, "here")
            inject = f"inject={name}:error={error}:when={number}"
            done = self.traced(scene, place, "-o", os.path.join(folder, "trace"), "-e", inject)
            what = f"{scene.name}, {error} at {text}"
            came = f"{what}: status {done.returncode}, {done.stdout!r}, {done.stderr!r}"
            if done.returncode == 0:
                is_lost = name in ("write", "rename") or (name, error) == ("fsync", "EIO")
                if (done.stdout, done.stderr) != (scene.told, b"") or is_lost:
                    return came
                return self.state(scene, place, what, 0, [scene.new])
            wanted = [b"bearoff: write\n"] if name in ("write", "rename", "fsync") else LINES
            if done.returncode != 1 or done.stderr not in wanted or done.stdout != b"":
                return f"{came}, wanted status 1 and one of {wanted}"
            return self.state(scene, place, what, 0, stands)

    def held_up(self, words, folder, name, number):
        """A run that waits before a system call of its own, and has come there; it goes on by
        itself."""
        trace = os.path.join(folder, "held")
        inject = f"inject={name}:delay_enter={HELD_UP}:when={number}"
        child = subprocess.Popen(
            ["strace", "-f", "-qq", "-o", trace, "-e", inject, self.program, *words],
            cwd=os.path.join(folder, "here"),
            stdin=subprocess.DEVNULL,
            stdout=subprocess.PIPE,
            stderr=subprocess.PIPE,
        )

        def has_come():
            with contextlib.suppress(OSError):
                return sum(call == name for call, _, _ in calls_of(trace)) >= number
            return False

        wait_until(lambda: child.poll() is not None or has_come())
        return child

    def linked(self, path, name):
        """Puts the old database into a file with a second name, and tells a descriptor that has it
        open."""
        for old in (path, name):
            if os.path.lexists(old):
                os.remove(old)
        put(path, self.bytes_of["three"])
        os.link(path, name)
        return os.open(path, os.O_RDONLY)

    def is_kept(self, name, opened):
        """Whether the second name of the old file, and whoever had it open, still have the old
        database."""
        with open(opened, "rb") as file:
            return (
                bytes_of(name) == self.bytes_of["three"] and file.read() == self.bytes_of["three"]
            )

    def overtaken(self, scene, name, number, text):
        """A whole build into a path while another run waits before a system call."""
        with tempfile.TemporaryDirectory(dir=self.work) as folder:
            place = os.path.join(folder, "here")
            self.prepare(scene, place)
            file, second = os.path.join(place, scene.file), os.path.join(place, "second")
            if scene.old is not None:
                opened = self.linked(file, second)
            child = self.held_up(scene.words, folder, name, number)
            other = subprocess.run(
                [self.program, "build", "--pips", "6", scene.words[-1]],
                cwd=place,
                stdin=subprocess.DEVNULL,
                capture_output=True,
                timeout=60,
            )
            told, errors = child.communicate(timeout=60)
            what = f"{scene.name}, with a build of 6 pips within {text}"
            if (other.returncode, other.stdout, other.stderr) != (
                0,
                b"built pips 6 positions 30\n",
                b"",
            ):
                return (
                    f"{what}: the other one ends with status {other.returncode}, {other.stderr!r}"
                )
            if (
                child.returncode != 0
                or told.split(b" ")[0] != scene.told.split(b" ")[0]
                or errors != b""
            ):
                return f"{what}: status {child.returncode}, {told!r}, {errors!r}"
            if scene.old is not None and not self.is_kept(second, opened):
                return f"{what}: the old file was written into"
            return self.state(scene, place, what, 0, [scene.new, "six", "new_six", "new_three"])


def calls_of(trace):
    """The calls of a trace in their order: the name of each, its text, and how many of that name
    there were by then."""
    counts, calls = collections.Counter(), []
    with open(trace, encoding="latin-1") as file:
        for line in file:
            call = re.match(r"\d+\s+(\w+)\(", line)
            if call:
                counts[call[1]] += 1
                calls.append((call[1], line, counts[call[1]]))
    return calls


def first_own(calls):
    """The place of the first call that is the program's own: the loader opens libraries before it,
    and ends with munmap."""
    libraries = [place for place, (_, line, _) in enumerate(calls) if ".so" in line]
    if not libraries:
        return 1
    return (
        next(
            place
            for place, (name, _, _) in enumerate(calls)
            if place > libraries[-1] and name == "munmap"
        )
        + 1
    )


def text_of(line):
    return line.split(" ", 1)[1].strip()[:120]


def is_synced_first(calls):
    """Whether the new file is brought to the disk after its last write and before it gets its
    name, and the folder of that name after."""
    texts = [(name, line) for name, line, _ in calls]
    made = next(
        (p for p, (_, line) in enumerate(texts) if ".tmp" in line and "O_EXCL" in line), None
    )
    if made is None:
        return False
    number = re.search(r"= (\d+)", texts[made][1])[1]
    after = list(enumerate(texts))[made + 1 :]
    renamed, place = next(
        (p, re.search(', "(.*)"', line)[1])
        for p, (name, line) in after
        if name.startswith("rename")
    )
    written = max(
        p
        for p, (name, line) in after
        if p < renamed and name == "write" and f"write({number}, " in line
    )
    synced = [
        p
        for p, (name, line) in after
        if name == "fsync" and f"fsync({number})" in line and "= 0" in line
    ]
    behind = "".join(line for p, (_, line) in after if p > renamed)
    folder = re.escape(os.path.dirname(place) or ".")
    is_settled = re.search(rf'"{folder}/", .* = (\d+)\n(.*\n)*.* fsync\(\1\) += 0', behind)
    return (
        bool(synced)
        and written < synced[0] < renamed
        and bool(is_settled)
        and not re.search(r" write\((?!1, )", behind)
    )


def none_wrong(jobs):
    wrong = [job.result() for job in jobs if job.result()]
    assert not wrong, "\n".join(wrong)


@pytest.fixture(scope="module")
def crashes(program, built, board):
    # strace can't follow a script into the program
    with tempfile.TemporaryDirectory(prefix="bearoff-crashes-") as folder:
        # also for the user that is nobody
        os.chmod(folder, 0o755)
        yield Crashes(program, built, board, folder)


@every_scene
def test_synced_before_named(crashes, strace, scene):
    calls = crashes.calls_of_whole_run(scene)
    assert is_synced_first(
        calls
    ), "the bytes are not brought to the disk before the file gets its name:\n" + "".join(
        line for _, line, _ in calls
    )
    made = next(line for _, line, _ in calls if "O_EXCL" in line)
    assert (", 0600) " in made) == (scene.old is not None), f"others may open it at once: {made}"


@every_scene
def test_killed_before_each_call(crashes, strace, scene, note):
    calls = crashes.calls_of_whole_run(scene)
    with concurrent.futures.ThreadPoolExecutor(4) as pool:
        jobs = [
            pool.submit(crashes.killed, scene, name, number)
            for name, _, number in calls
            if name != "execve"
        ]
    none_wrong(jobs)
    note(
        f"{scene.name}: {len(calls)} system calls,"
        f" {len(calls) - first_own(calls)} of them the program's own;"
        f" {len(jobs)} runs were killed"
    )


@every_scene
def test_each_call_fails(crashes, strace, scene, note):
    calls = crashes.calls_of_whole_run(scene)
    renamed = next(
        (place for place, (name, _, _) in enumerate(calls) if name == "rename"), len(calls)
    )
    jobs = []
    with concurrent.futures.ThreadPoolExecutor(4) as pool:
        for place, (name, line, number) in enumerate(calls):
            if place < first_own(calls) or name in NEVER_FAIL:
                continue
            stands = [scene.old] if place <= renamed else [scene.new]
            for error in ERRORS.get(name, ["EIO"]):
                jobs.append(
                    pool.submit(crashes.failed, scene, name, number, error, text_of(line), stands)
                )
    none_wrong(jobs)
    note(f"{scene.name}: {len(jobs)} runs had a call that failed")


@every_scene
def test_overtaken_within_each_call(crashes, strace, scene, note):
    """A whole build within each system call of another run."""
    if scene.old is not None:
        scene = scene._replace(old="three")
    with tempfile.TemporaryDirectory(dir=crashes.work) as folder:
        trace = os.path.join(folder, "trace")
        crashes.traced(scene, os.path.join(folder, "here"), "-o", trace)
        calls = calls_of(trace)
    with concurrent.futures.ThreadPoolExecutor(12) as pool:
        jobs = [
            pool.submit(crashes.overtaken, scene, name, number, text_of(line))
            for name, line, number in calls[first_own(calls) :]
            if name not in NEVER_FAIL
        ]
    none_wrong(jobs)
    note(f"{scene.name}: {len(jobs)} runs were held up within a call while another one built")


def test_a_check_that_has_the_old_file_open(crashes, strace, room):
    place, file = room / "here", room / "here" / "db"
    place.mkdir()
    put(file, crashes.bytes_of["three"])
    subprocess.run(
        ["strace", "-f", "-o", room / "trace", crashes.program, "check", "db"],
        cwd=place,
        stdin=subprocess.DEVNULL,
        stdout=subprocess.DEVNULL,
    )
    calls = calls_of(room / "trace")
    reads = [number for name, line, number in calls[first_own(calls) :] if name == "read"]
    child = crashes.held_up(["check", "db"], room, "read", reads[0])
    for pips in ("6", "8"):
        run(crashes.program, "build", "--pips", pips, file)
    told, errors = child.communicate(timeout=60)
    assert (child.returncode, told, errors) == (0, b"ok pips 3 positions 7\n", b"")


def test_builds_and_checks_at_once(crashes, room, note):
    """Eight builds into one path at the same time, and checks meanwhile: the file is one of the
    two databases, and a second name of the old file keeps the old one."""
    checks, rounds = 0, 40
    begin = lambda pips: subprocess.Popen(
        [crashes.program, "build", "--pips", pips, "shared"],
        stdin=subprocess.DEVNULL,
        stdout=subprocess.PIPE,
        stderr=subprocess.STDOUT,
    )
    for _ in range(rounds):
        opened = crashes.linked("shared", "second")
        builds = [begin(pips) for pips in ("6", "8") * 4]
        while any(build.poll() is None for build in builds):
            got = run(crashes.program, "check", "shared")
            checks += 1
            assert got.status == 0 and got.output.startswith(
                b"ok pips "
            ), f"a check while others build: {got}"
        for build in builds:
            told = build.communicate()[0]
            assert build.returncode == 0 and told.startswith(
                b"built pips "
            ), f"status {build.returncode}, {told!r}"
        assert bytes_of("shared") in (crashes.bytes_of["six"], crashes.bytes_of["eight"])
        assert crashes.is_kept("second", opened), "the old file was written into"
        assert leftovers() == []
    note(f"{8 * rounds} builds into one path, eight at once, and {checks} checks meanwhile")


def test_a_limit_of_the_size_of_files(crashes, room):
    """A limit ends a run by a signal: the old file stays, and one new file with the run's
    number."""
    put("limited", crashes.bytes_of["six"])
    child = subprocess.Popen(
        [crashes.program, *BUILD, "limited"],
        stdin=subprocess.DEVNULL,
        stderr=subprocess.DEVNULL,
        preexec_fn=lambda: resource.setrlimit(resource.RLIMIT_FSIZE, (8192, 8192)),
    )
    child.wait(60)
    assert child.returncode == -signal.SIGXFSZ
    assert bytes_of("limited") == crashes.bytes_of["six"]
    assert leftovers() == [f"bearoff-{child.pid}.tmp"]


def test_names_that_are_taken(crashes, room):
    """A run whose names are taken by what killed runs with the same number left behind."""

    def take():
        for behind in [""] + [f"-{number}" for number in range(1, 300)]:
            put(f"bearoff-{os.getpid()}{behind}.tmp", b"")

    put("taken", crashes.bytes_of["six"])
    expect(run(crashes.program, *BUILD, "taken", preexec_fn=take), 0, BUILT)
    assert bytes_of("taken") == crashes.bytes_of["eight"] and len(leftovers()) == 300


class TestKinds:
    """The kinds of file that a database is written into."""

    @pytest.fixture(autouse=True)
    def here(self, crashes, room):
        self.six, self.eight = crashes.bytes_of["six"], crashes.bytes_of["eight"]
        self.user = AS_NOBODY
        self.build = lambda name, **more: run(crashes.program, *BUILD, name, **more)
        yield
        assert leftovers() == []

    def test_another_mode_and_a_hard_link(self):
        put("kept", self.six, 0o640)
        os.link("kept", "other")
        if IS_ROOT:
            os.chown("kept", 65534, 65533)
        before = os.stat("kept")
        expect(self.build("kept"), 0, BUILT)
        after = os.stat("kept")
        assert [(told.st_mode, told.st_uid, told.st_gid) for told in (before, after)] == 2 * [
            (before.st_mode, before.st_uid, before.st_gid)
        ]
        assert (bytes_of("kept"), bytes_of("other")) == (self.eight, self.six)

    @pytest.mark.skipif(not IS_ROOT, reason="the owner of a file is given by root")
    def test_the_owner_before_the_mode(self, crashes, strace):
        """Else the new file would be open for a moment to whom the old one is not."""
        put("theirs", self.six)
        os.chown("theirs", *NOBODY)
        run("strace", "-fqqo", "trace", crashes.program, *BUILD, "theirs")
        assert re.findall(r"(fch\w+)\(", Path("trace").read_text()) == ["fchown", "fchmod"]

    def test_names_of_each_length(self):
        for length in range(1, 256):
            expect(self.build("x" * length), 0, BUILT)
            os.remove("x" * length)

    def test_a_link_to_a_link(self):
        put("target", self.six)
        os.symlink("target", "first")
        os.symlink(os.path.abspath("first"), "second")
        expect(self.build("second"), 0, BUILT)
        assert (
            os.path.islink("second") and os.path.islink("first") and not os.path.islink("target")
        )
        assert bytes_of("target") == self.eight

    @pytest.mark.parametrize("name, to", [("nowhere", "nothing/there"), ("loop", "loop")])
    def test_a_link_that_leads_nowhere(self, name, to):
        os.symlink(to, name)
        expect(self.build(name), 1, "", "bearoff: open")
        assert os.path.islink(name)

    def test_a_link_to_a_name_that_is_no_text(self):
        """It can't be followed."""
        name = os.fsdecode(b"db-\xff")
        put(name, self.six)
        os.symlink(name, "link")
        expect(self.build("link"), 1, "", "bearoff: open")
        assert bytes_of(name) == self.six and os.path.islink("link")

    def test_a_pipe(self):
        os.mkfifo("pipe")
        with subprocess.Popen(["cat", "pipe"], stdout=subprocess.PIPE) as reader:
            done = self.build("pipe")
            content = reader.communicate(timeout=60)[0]
        expect(done, 0, BUILT)
        assert content == self.eight and stat.S_ISFIFO(os.stat("pipe").st_mode)

    def test_a_full_device(self, full):
        expect(self.build(full), 1, "", "bearoff: write")
        assert stat.S_ISCHR(os.stat(full).st_mode)

    def test_standard_output_that_is_a_pipe(self, crashes, apart):
        done = run(*apart, crashes.program, *BUILD, "/dev/stdout")
        expect(done, 0, self.eight + BUILT)

    def test_standard_output_that_is_a_file(self, crashes, apart):
        with open("appended", "ab") as file:
            subprocess.run(
                [*apart, crashes.program, *BUILD, "/dev/stdout"],
                stdin=subprocess.DEVNULL,
                stdout=file,
                timeout=60,
            )
        assert bytes_of("appended") == self.eight + BUILT

    @pytest.mark.parametrize("name", ["", "nothing/db", "target/db", "."])
    def test_no_file(self, name):
        put("target", self.six)
        expect(self.build(name), 1, "", "bearoff: open")

    def test_a_folder_that_cannot_be_written(self):
        os.mkdir("closed")
        put("closed/db", self.six, 0o666)
        os.chmod("closed", 0o555)
        expect(self.build("closed/db", **self.user), 0, BUILT)
        assert bytes_of("closed/db") == self.eight
        expect(self.build("closed/more", **self.user), 1, "", "bearoff: open")
        assert not os.path.exists("closed/more")

    @pytest.mark.skipif(not IS_ROOT, reason="the owner of a file is given by root")
    @pytest.mark.parametrize("words", WRITERS, ids=" ".join)
    def test_a_name_that_is_given_to_another_file(self, crashes, strace, words):
        """The owner of the folder gives the name of the new file to a file of root, while root
        writes: that one keeps its owner and its mode."""
        os.mkdir("theirs")
        put("old", self.six)
        put("theirs/db", self.six)
        put("theirs/kept", b"secret\n", 0o600)
        for name in ("theirs", "theirs/db"):
            os.chown(name, *NOBODY)
        inject = f"inject=chown,lchown,fchown,fchownat:delay_enter={4 * HELD_UP}"
        command = ["strace", "-f", "-qq", "-o", "trace", "-e", inject, crashes.program, *words]
        with subprocess.Popen(
            [*command, "theirs/db"], stdin=subprocess.DEVNULL, stdout=subprocess.DEVNULL
        ) as child:
            wait_until(lambda: leftovers("theirs"))
            os.link("theirs/kept", "theirs/name")
            os.rename("theirs/name", os.path.join("theirs", leftovers("theirs")[0]))
            child.wait(60)
        told = os.stat("theirs/kept")
        assert (told.st_uid, told.st_gid, stat.S_IMODE(told.st_mode)) == (0, 0, 0o600)

    def test_a_folder_that_cannot_be_read(self):
        """A folder that can be written and not read can't be synchronised."""
        os.mkdir("hidden")
        put("hidden/db", self.six)
        if IS_ROOT:
            for name in ("hidden", "hidden/db"):
                os.chown(name, 65534, 65534)
        os.chmod("hidden", 0o333)
        done = self.build("hidden/db", **self.user)
        os.chmod("hidden", 0o755)
        expect(done, 0, BUILT)
        assert bytes_of("hidden/db") == self.eight

    def test_a_folder_from_which_no_name_can_be_taken(self):
        os.mkdir("added")
        put("added/db", self.six)
        if subprocess.run(["chattr", "+a", "added"], capture_output=True).returncode != 0:
            pytest.skip("a folder from which no name can be taken can't be had here")
        try:
            done = self.build("added/db")
            stands, names = bytes_of("added/db"), os.listdir("added")
        finally:
            subprocess.run(["chattr", "-a", "added"], check=True)
        expect(done, 0, BUILT)
        assert (stands, names) == (self.eight, ["db"])

    def test_a_file_that_cannot_be_written(self):
        put("stays", self.six, 0o444)
        expect(self.build("stays", **self.user), 1, "", "bearoff: open")
        assert bytes_of("stays") == self.six


class TestStraight:
    """A file that a new one can't take the place of, so that the bytes go straight into it: what
    stands there is whole, whoever else writes into it."""

    @pytest.fixture(params=["in a folder that can't be written", "from another device"])
    def straight(self, request, crashes, built, room):
        """Starts the program, with a name of the file behind its words and maybe under a tracer,
        and puts bytes into the file; and the bytes that words write there."""
        file, user, before = room / "closed" / "db", AS_NOBODY, []
        if "device" in request.param:
            if not os.path.isdir("/dev/shm"):
                pytest.skip("there is no second device here")
            other = tempfile.TemporaryDirectory(dir="/dev/shm")
            request.addfinalizer(other.cleanup)
            file, user = Path(other.name, "db"), {}
            mount = 'mount --bind "$0" mounted && exec "$@"'
            before = ["unshare", "--mount", "sh", "-c", mount, file]
            put("mounted", b"")
            put(file, b"")
            is_another = os.stat(other.name).st_dev != os.stat(room).st_dev
            if not is_another or run(*before, "true").status != 0:
                pytest.skip("a file of another device can't be mounted here")
        else:
            file.parent.mkdir()
        put("old", crashes.bytes_of["six"])
        put("large", built(44).read_bytes())
        self.file = file
        self.name = "mounted" if before else file
        self.written = {
            "build --pips 8": (crashes.bytes_of["eight"], BUILT),
            "build --pips 44": (built(44).read_bytes(), b"built pips 44 positions 26314\n"),
            "build --pips 58": (built(58).read_bytes(), b"built pips 58 positions 46062\n"),
            "build --board": (crashes.bytes_of["board"], BOARD),
            "upgrade old": (crashes.bytes_of["new_six"], b"upgraded pips 6 positions 30\n"),
            "upgrade large": (built(44, True).read_bytes(), b"upgraded pips 44 positions 26314\n"),
        }
        self.start = lambda words, *tracer: subprocess.Popen(
            [*before, *tracer, crashes.program, *words.split(), self.name],
            stdin=subprocess.DEVNULL,
            stdout=subprocess.PIPE,
            stderr=subprocess.PIPE,
            **user,
        )
        self.old = crashes.bytes_of["three"]
        self.make_old()
        yield
        assert leftovers() == []

    def make_old(self):
        """Puts the old file there."""
        self.file.parent.chmod(0o755)
        put(self.file, self.old, 0o666)
        if self.name == self.file:
            self.file.parent.chmod(0o555)

    def ended(self, child):
        """What a run came to."""
        output, errors = child.communicate(timeout=60)
        return child.returncode, output, errors

    REFUSED = (1, b"", b"bearoff: open\n")

    def test_at_once(self, straight, note):
        """Eight builds, mixed: each says that it built the file, or is refused, and what stands is
        the whole file of one that says so. Over what isn't proved there are fewer rounds."""
        rounds, told = 5 if KNOWN or self.name == "mounted" else 20, 0
        begun = collections.deque([*self.written][:4] * 2)
        for _ in range(rounds):
            self.make_old()
            begun.rotate()
            came = [self.ended(child) for child in [self.start(words) for words in begun]]
            built = [it for it, end in zip(begun, came) if end == (0, self.written[it][1], b"")]
            assert [end for end in came if end[0] != 0] == [self.REFUSED] * (8 - len(built)), came
            stands = [it for it in self.written if self.written[it][0] == bytes_of(self.file)]
            assert {*stands} & {*built}, f"{stands or 'no whole file'} stands after {built}"
            told += len(built)
        note(f"{8 * rounds} builds straight into one file, eight at once: {told} said built")

    @pytest.mark.parametrize("second", ["build --pips 8", "build --board", "upgrade old"])
    @pytest.mark.parametrize("first", ["upgrade large", "build --pips 44", "build --board"])
    def test_a_second_run(self, straight, strace, first, second):
        """The first run is stopped behind its first write or, if it writes once, at an empty file.
        The second is refused, and what stands at the end is what the first one writes."""
        call = "write" if "upgrade" in first else "ftruncate"
        stop = ("-e", f"trace={call}", "-e", f"inject={call}:signal=SIGSTOP:when=1")
        child = self.start(first, "strace", "-D", "-qq", *stop)
        assert any(b"--- stopped by SIGSTOP ---" in line for line in child.stderr)
        stands = bytes_of(self.file)
        came, stood = self.ended(self.start(second)), bytes_of(self.file)
        child.send_signal(signal.SIGCONT)
        assert self.ended(child)[:2] == (0, self.written[first][1])
        assert stands != self.old
        assert len(stands) < len(self.written[first][0]), "it was not stopped on the way"
        assert (came, stood) == (self.REFUSED, stands)
        assert bytes_of(self.file) == self.written[first][0]

    @pytest.mark.parametrize("call, is_built", [("flock:error=ENOLCK", 1), ("fsync:error=EIO", 0)])
    def test_a_call_that_fails(self, straight, strace, call, is_built):
        """A file system without locks is no fault, and bytes that don't come to the disk are."""
        words, how = "build --pips 8", ("-qqqo", "/dev/null", "-e", f"inject={call}")
        ended = (0, BUILT, b"") if is_built else (1, b"", b"bearoff: write\n")
        assert self.ended(self.start(words, "strace", *how)) == ended
        assert bytes_of(self.file) == self.written[words][0]

    @pytest.mark.parametrize("words", [" ".join(words) for words in WRITERS])
    @pytest.mark.parametrize("lock", [fcntl.LOCK_EX, fcntl.LOCK_SH], ids=["alone", "shared"])
    def test_a_file_that_is_locked(self, straight, words, lock):
        """A run is refused at once where another program holds a lock, and goes on without one."""
        with open(self.file, "rb") as file:
            fcntl.flock(file, lock)
            assert self.ended(self.start(words)) == self.REFUSED
            assert bytes_of(self.file) == self.old
        assert self.ended(self.start(words)) == (0, self.written[words][1], b"")
        assert bytes_of(self.file) == self.written[words][0]
