"""What the tests share: the program that they run, databases that it has built, and a folder of
one's own."""

import contextlib
import os
import shutil
import stat
import subprocess
import tempfile
import threading
import time
from pathlib import Path

import pytest

from running import KNOWN, ROOT, WATCHED, expect_that, need, run, succeed

# what was compiled as it is written
UNPROVED = ROOT / "out/unproved"


def pytest_addoption(parser):
    parser.addoption(
        "--program", help="the program to be tested, in place of the one that was proved here"
    )
    parser.addoption(
        "--trials",
        help="the program of crates/failing_calls, in place of the one that was proved here",
    )
    parser.addoption(
        "--number-trials",
        help="the program of crates/number_trials, in place of the one that was proved here",
    )
    parser.addoption(
        "--board-trials",
        help="the program of crates/board_trials, in place of the one that was proved here",
    )
    parser.addoption("--by-hand", action="store_true", help="run what takes long, too")
    parser.addoption(
        "--unproved",
        action="store_true",
        help="test what tools/unproved made, and leave out what asks the prover",
    )


class Progress:
    """Says every thirty seconds which tests run and how many are left."""

    pause = 30

    def __init__(self, config):
        self.config, self.running, self.ended, self.most = config, {}, 0, 0
        self.is_over = threading.Event()

    def tell(self):
        while not self.is_over.wait(self.pause):
            now = time.time()
            works = [f"{name} for {int(now - it)} s" for name, it in [*self.running.items()]]
            reporter = self.config.pluginmanager.get_plugin("terminalreporter")
            if works and reporter:
                left = self.most - self.ended
                reporter.write_line(f"\n{left} of {self.most} tests are left: {'; '.join(works)}")

    def pytest_sessionstart(self):
        threading.Thread(target=self.tell, daemon=True).start()

    def pytest_sessionfinish(self):
        self.is_over.set()

    def pytest_collection_finish(self, session):
        self.most = self.most or len(session.items)

    @pytest.hookimpl(optionalhook=True)
    def pytest_xdist_node_collection_finished(self, ids):
        self.most = len(ids)

    def pytest_runtest_logstart(self, nodeid):
        self.running[nodeid.rpartition("/")[2]] = time.time()

    def pytest_runtest_logfinish(self, nodeid):
        self.running.pop(nodeid.rpartition("/")[2], None)
        self.ended += 1


def pytest_configure(config):
    if config.getoption("--unproved"):
        asked = [ROOT / "tools/unproved", "--ask"]
        if subprocess.run(asked, stdin=subprocess.DEVNULL).returncode != 0:
            pytest.exit("a source has changed: run make unproved", 2)
        KNOWN["BEAROFF_UNPROVED"] = "told"
        os.environ |= KNOWN
    if not hasattr(config, "workerinput"):
        config.pluginmanager.register(Progress(config))


def pytest_collection_modifyitems(config, items):
    """Leaves out what is run by hand, and what asks the prover where nothing is proved, and keeps
    the tests of one group, which run one after the other, together."""
    marks = {
        "by_hand": not config.getoption("--by-hand"),
        "proved": config.getoption("--unproved"),
        "gate": config.getoption("--unproved") and not config.getoption("--by-hand"),
    }
    for mark in [mark for mark, is_left_out in marks.items() if is_left_out]:
        left_out = [item for item in items if item.get_closest_marker(mark)]
        items[:] = [item for item in items if not item.get_closest_marker(mark)]
        config.hook.pytest_deselected(items=left_out)


def pytest_terminal_summary(terminalreporter):
    """Prints what tests have noted, as how many calls there were."""
    if terminalreporter.config.getoption("--unproved"):
        terminalreporter.section("NOTHING OF THIS WAS PROVED", red=True)
        terminalreporter.line("what was tested was compiled as it is written; tests of what is")
        terminalreporter.line("proved were left out (the mark `proved`): make test runs them, too")
    passed = terminalreporter.getreports("passed")
    notes = [
        text
        for report in passed
        for name, text in report.user_properties
        if name == "note" and report.when == "call"
    ]
    if notes:
        terminalreporter.section("noted")
    for text in notes:
        terminalreporter.line(text)


@pytest.fixture
def note(record_property):
    """Keeps a line for the end of the run."""
    return lambda text: record_property("note", text)


def given(path):
    """A program that an option names."""
    path = Path(path).resolve()
    if not os.access(path, os.X_OK):
        pytest.fail(f"{path} is no program", pytrace=False)
    return path


def program_of(request, crate, option):
    """The program of a crate: the one that an option names, or the one that was proved and built
    of the sources as they are."""
    if request.config.getoption(option):
        return given(request.config.getoption(option))
    if request.config.getoption("--unproved"):
        return given(UNPROVED / ("bearoff" if crate == "bearoff_cli" else crate))
    made = ROOT / "crates" / crate / "out" / crate
    if not os.access(made, os.X_OK):
        pytest.fail(f"{made} is not built: run make prove trials, or make check", pytrace=False)
    if run(ROOT / "tools/made", made).status != 0:
        pytest.fail(
            f"a source has changed since {made} was proved: run make prove trials", pytrace=False
        )
    return made


@pytest.fixture(scope="session")
def program(request):
    """The program."""
    path = program_of(request, "bearoff_cli", "--program")
    WATCHED.add(str(path))
    return path


@pytest.fixture(scope="session")
def trials(request):
    """The program of crates/failing_calls."""
    return program_of(request, "failing_calls", "--trials")


@pytest.fixture(scope="session")
def number_trials(request):
    """The program of crates/number_trials."""
    return program_of(request, "number_trials", "--number-trials")


@pytest.fixture(scope="session")
def board_trials(request):
    """The program of crates/board_trials."""
    return program_of(request, "board_trials", "--board-trials")


@pytest.fixture(scope="session")
def board(board_trials, store):
    """The board file of a bound, built once."""

    def file(bound):
        path = store / f"board_{bound}"
        if not path.exists():
            succeed(board_trials, "build", bound, f"{path}.part", timeout=300)
            os.rename(f"{path}.part", path)
        return path

    return file


@pytest.fixture(scope="session")
def store():
    """A folder for what tests share, with room for large files."""
    with tempfile.TemporaryDirectory(prefix="bearoff-tests-") as folder:
        os.chmod(folder, 0o755)
        yield Path(folder)


@pytest.fixture(scope="session")
def built(program, store):
    """The database of a bound, built once, and with `is_new` its upgrade."""

    def database(bound, is_new=False):
        file = store / (f"upgrade_{bound}" if is_new else f"built_{bound}")
        if not file.exists():
            words = ["upgrade", database(bound)] if is_new else ["build", "--pips", bound]
            succeed(program, *words, f"{file}.part", timeout=300)
            os.rename(f"{file}.part", file)
        return file

    return database


@pytest.fixture(scope="session")
def whole(program, store):
    """The board file that the program makes."""
    file = store / "whole"
    succeed(program, "build", "--board", file)
    return file


@pytest.fixture(scope="session")
def library(request, store):
    """A folder with both libraries for C, made of what was proved here."""
    need("cc", "c++")
    if request.config.getoption("--unproved"):
        shutil.copytree(
            UNPROVED / "library", store / "unproved", symlinks=True, dirs_exist_ok=True
        )
        return store / "unproved"
    folder = store / "library"
    if not folder.exists():
        done = run(ROOT / "packaging/library", f"{folder}.part", timeout=3600)
        expect_that(done.status == 0, done, "the libraries; make prove proves them first")
        os.rename(f"{folder}.part", folder)
    return folder


@pytest.fixture
def room():
    """A folder of one's own, which is the current one."""
    with tempfile.TemporaryDirectory(prefix="bearoff-test-") as folder:
        # also for the user that is nobody
        os.chmod(folder, 0o755)
        with contextlib.chdir(folder):
            yield Path(folder)


def can_be_put_in(folder):
    """Whether a program that is started here could put a file in the place of one in a folder."""
    return os.access(folder, os.W_OK)


@pytest.fixture
def full(tmp_path):
    """A device that is full, of one's own, so that whoever takes it for a plain file harms nothing
    else. Who may not make one gets the system's, if nobody here can put a file in its place."""
    node = tmp_path / "full"
    with contextlib.suppress(OSError):
        os.mknod(node, stat.S_IFCHR | 0o666, os.makedev(1, 7))
        os.close(os.open(node, os.O_WRONLY))
        return node
    if can_be_put_in("/dev"):
        pytest.skip("a device of one's own can't be had here")
    return Path("/dev/full")


@pytest.fixture(scope="session")
def apart(store):
    """The words that run a command with a folder of its own in the place of /dev, in which the
    standard streams have their names: none, where nobody here can put a file there."""
    if not can_be_put_in("/dev"):
        return []
    names = store / "dev"
    if not names.exists():
        names.mkdir()
        os.symlink("/proc/self/fd", names / "fd")
        for number, name in enumerate(("stdin", "stdout", "stderr")):
            os.symlink(f"/proc/self/fd/{number}", names / name)
    mount = 'mount --bind "$0" /dev && exec "$@"'
    words = ["unshare", "--mount", "sh", "-c", mount, str(names)]
    if run(*words, "true").status != 0:
        pytest.skip("names of the standard streams of one's own can't be had here")
    return words


@pytest.fixture
def files(room, built):
    """A folder of one's own with databases: one, three, six, eight, by their pips, and new, the
    upgrade of eight."""
    for name, bound in (("one", 1), ("three", 3), ("six", 6), ("eight", 8)):
        shutil.copy(built(bound), room / name)
    shutil.copy(built(8, is_new=True), room / "new")
    return room


@pytest.fixture
def ask(program):
    """Runs the program with words, as one text or as a list."""

    def asked(words, input=b"", **how):
        return run(
            program, *(words.split() if isinstance(words, str) else words), input=input, **how
        )

    return asked


@pytest.fixture
def strace():
    """System calls can be killed, failed and held up here, or the test is left out."""
    need("strace")
    tried = ["strace", "-f", "-o", "/dev/null", "-e", "inject=getcwd:error=EIO:when=1", "pwd"]
    if subprocess.run(tried, stdin=subprocess.DEVNULL, capture_output=True).returncode != 0:
        pytest.skip("strace can't fail a call here")
