"""The file that a command writes, of each command that writes one: where links lead to it, whose it
is and who may read it, and into what its bytes go straight, since no new file can take its
place."""

import contextlib
import os
import shutil
import stat
import tempfile
from pathlib import Path

import pytest

from running import expect, expect_same, run

IS_ROOT = os.getuid() == 0
by_root = pytest.mark.skipif(not IS_ROOT, reason="the owner of a file is given by root")

# a user who is not root, and the group of that user
NOBODY = 65534
AS_NOBODY = {"user": NOBODY, "group": NOBODY, "extra_groups": []} if IS_ROOT else {}

# what stands in the place of a file that is written
OLD = b"an older file"

# the words of each command, which the name of the file follows, and what it tells
WRITERS = {
    "build --pips 8": "built pips 8 positions 64",
    "build --board": "built pips 90 positions 54264",
    "upgrade eight": "upgraded pips 8 positions 64",
}


@pytest.fixture
def room(room):
    """A folder of one's own, in memory where there is room, so that no disk is waited for."""
    memory = Path("/dev/shm")
    is_large = memory.is_dir() and shutil.disk_usage(memory).free > 256 << 20
    with tempfile.TemporaryDirectory(dir=memory if is_large else room) as folder:
        os.chmod(folder, 0o755)
        with contextlib.chdir(folder):
            yield Path(folder)


@pytest.fixture
def shared_program(program):
    """The program where any user can start it: a checkout may stand in a folder of one's own."""
    with tempfile.TemporaryDirectory(prefix="bearoff-test-") as folder:
        os.chmod(folder, 0o755)
        yield shutil.copy(program, folder)


@pytest.fixture(params=WRITERS)
def writer(request, shared_program, built):
    """A command that writes a file, in a folder of one's own."""
    if request.param == "build --board":
        content = request.getfixturevalue("whole")
    else:
        content = built(8, is_new=request.param == "upgrade eight")
    # what is built stands elsewhere, maybe on another device
    shutil.copy(built(8), request.getfixturevalue("room") / "eight")
    return Writer(request.param, shared_program, content)


class Writer:
    """A command that writes a file, and what has to stand there then."""

    def __init__(self, words, program, content):
        self.words, self.content, self.told = words.split(), content, WRITERS[words]
        self.program = program

    def command(self, name):
        return [self.program, *self.words, name]

    def writes(self, name, file=None, before=(), **how):
        """The command writes its whole file by a name, and leaves no other."""
        __tracebackhide__ = True
        expect(run(*before, *self.command(name), **how), 0, self.told)
        expect_same(file or name, self.content, f"the file that '{name}' leads to")
        folders = {os.path.dirname(os.path.abspath(it)) for it in (name, file or name)}
        assert not [it for folder in folders for it in os.listdir(folder) if it[-4:] == ".tmp"]

    def replaces(self, name, file=None, **how):
        """The command puts a new file in the place of an old one, which keeps its bytes."""
        __tracebackhide__ = True
        file = Path(file or name)
        second = file.with_name("second")
        os.link(file, second)
        self.writes(name, file, **how)
        assert second.read_bytes() == OLD, f"the old file was written into by '{name}'"
        second.unlink()

    def writes_straight(self, name, file=None, **how):
        """The command writes into the file that is there."""
        __tracebackhide__ = True
        before = os.stat(file or name)
        self.writes(name, file, **how)
        after = os.stat(file or name)
        same = "st_dev st_ino st_mode st_uid st_gid".split()
        assert [getattr(after, it) for it in same] == [getattr(before, it) for it in same]


def put(path, content=OLD, mode=0o644):
    Path(path).write_bytes(content)
    os.chmod(path, mode)


def names():
    return sorted(os.path.join(place, name) for place, _, found in os.walk(".") for name in found)


class TestLinks:
    """A link leads where the system says that it does, and stays."""

    # links, each with its text, and the file to which the first one leads; HERE is the folder of
    # all
    LINKS = {
        "in another folder": (["sub/link to target"], "sub/target"),
        "above": (["sub/link to ../other/target"], "other/target"),
        "absolute": (["sub/link to HERE/other/target"], "other/target"),
        "three": (["a to b", "b to ./c", "c to target"], "target"),
        "from folder to folder": (
            [
                "sub/a to ../other/b",
                "other/b to c",
                "other/c to HERE/sub/d",
                "sub/d to ../sub/../other/target",
            ],
            "other/target",
        ),
        "in a folder that is a link": (["way/link to ../target"], "other/target"),
        "40": ([f"sub/{it} to {it + 1}" for it in range(39)] + ["sub/39 to target"], "sub/target"),
    }

    @pytest.mark.parametrize("links, file", LINKS.values(), ids=LINKS)
    def test_links(self, writer, links, file):
        """A file is made at the end of links, and a new one takes the place of an old one
        there."""
        for folder in ("sub", "other/deep"):
            os.makedirs(folder)
        os.symlink("other/deep", "way")
        texts = dict(link.replace("HERE", os.getcwd()).split(" to ") for link in links)
        for link, text in texts.items():
            os.symlink(text, link)
        stood = names()
        writer.writes([*texts][0], file)
        assert names() == sorted([*stood, f"./{file}"])
        put(file)
        writer.replaces([*texts][0], file)
        assert names() == sorted([*stood, f"./{file}"])
        assert {link: os.readlink(link) for link in texts} == texts

    @pytest.mark.parametrize(
        "links",
        [
            ["link to link"],
            ["link to sub/other", "sub/other to ../link"],
            ["link to nothing/there"],
            ["link to sub"],
            ["link to eight/db"],
        ],
        ids=lambda links: links[0],
    )
    def test_links_to_no_file(self, writer, links):
        os.mkdir("sub")
        for link in links:
            os.symlink(*reversed(link.split(" to ")))
        stood = names()
        expect(run(*writer.command("link")), 1, "", "bearoff: open")
        assert names() == stood and os.path.islink("link")

    def test_another_device(self, writer, room, tmp_path):
        """The new file is made in the folder of the file to which a link leads."""
        if os.stat(tmp_path).st_dev == os.stat(room).st_dev:
            pytest.skip("there is no second device here")
        shutil.copy("eight", tmp_path)
        with contextlib.chdir(tmp_path):
            file = room / "db"
            os.symlink(file, "link")
            for name in (file, "link"):
                writer.writes(name, file)
                put(file)
                writer.replaces(name, file)
                file.unlink()
            assert names() == ["./eight", "./link"]


class TestOwners:
    """The mode, the owner and the group."""

    @pytest.mark.parametrize("mask", [0o022, 0o077, 0o000], ids=oct)
    def test_a_new_file(self, writer, mask):
        writer.writes("made", umask=mask)
        told = os.stat("made")
        wanted = (stat.S_IFREG | 0o666 & ~mask, os.geteuid(), os.getegid())
        assert (told.st_mode, told.st_uid, told.st_gid) == wanted

    @by_root
    def test_a_new_file_of_another_user(self, writer):
        """In a folder that gives its files its group, too."""
        for name, bits, group in (("own", 0, NOBODY), ("shared", stat.S_ISGID, 65533)):
            os.mkdir(name)
            os.chown(name, -1, 65533)
            os.chmod(name, 0o777 | bits)
            writer.writes(f"{name}/made", umask=0o027, **AS_NOBODY)
            told = os.stat(f"{name}/made")
            wanted = (stat.S_IFREG | 0o640, NOBODY, group)
            assert (told.st_mode, told.st_uid, told.st_gid) == wanted

    @pytest.mark.parametrize("mode", [0o640, 0o666, 0o4755], ids=oct)
    def test_a_file_that_is_replaced(self, writer, mode):
        put("kept", mode=mode)
        writer.replaces("kept", umask=0o077)
        assert stat.S_IMODE(os.stat("kept").st_mode) == mode

    @by_root
    @pytest.mark.parametrize("bits", [0, stat.S_ISGID], ids=["own", "shared"])
    @pytest.mark.parametrize("owner", [(NOBODY, 65533), (0, 0)], ids=str)
    def test_a_file_of_another_user(self, writer, owner, bits):
        """In a folder that gives its files its group, too."""
        os.mkdir("folder")
        os.chown("folder", -1, 65532)
        os.chmod("folder", 0o755 | bits)
        put("folder/kept", mode=0o2640)
        os.chown("folder/kept", *owner)
        os.chmod("folder/kept", 0o2640)
        writer.replaces("folder/kept")
        told = os.stat("folder/kept")
        assert (told.st_uid, told.st_gid, stat.S_IMODE(told.st_mode)) == (*owner, 0o2640)

    @by_root
    def test_a_file_that_cannot_be_given(self, writer):
        """Who may write the file and may not give a new one to its owner writes straight."""
        os.mkdir("open")
        os.chmod("open", 0o777)
        put("open/db", mode=0o666)
        writer.writes_straight("open/db", **AS_NOBODY)


class TestStraight:
    """What a new file can't take the place of is written straight."""

    @pytest.mark.parametrize("kind", ["a name", "a link", "another's", "no name", "a short name"])
    def test_an_open_file(self, writer, apart, kind):
        """The name of an open file, also where the file has none other any more."""
        put("held")
        with open("held", "r+b") as held:
            number, before, name = held.fileno(), (), f"/proc/self/fd/{held.fileno()}"
            if kind == "a link":
                os.symlink(name, "link")
                name = "link"
            elif kind == "another's":
                name = f"/proc/{os.getpid()}/fd/{number}"
            elif kind == "no name":
                os.remove("held")
            elif kind == "a short name":
                before, name = apart, f"/dev/fd/{number}"  # behind the words of `apart`
            inode = os.fstat(number).st_ino
            expect(run(*before, *writer.command(name), pass_fds=[number]), 0, writer.told)
            expect_same(held.read(), writer.content, f"the open file that is {kind}")
            if kind != "no name":
                assert os.stat("held").st_ino == inode, "a new file took its place"
        if kind == "a link":
            assert os.readlink("link") == f"/proc/self/fd/{number}"

    def test_a_path_that_is_too_long_for_another_name(self, writer):
        name = "./" * 2046 + "db"
        expect(run(*writer.command(name)), 1, "", "bearoff: open")
        put("db")
        writer.writes_straight(name, "db")

    def test_a_folder_that_can_only_be_read(self, writer):
        """One of a file system that is mounted so, and a file in it that is mounted to be
        written."""
        for folder in ("shut", "free"):
            os.mkdir(folder)
            put(f"{folder}/db")
        mount = (
            "mount --bind shut shut && mount -o remount,bind,ro shut"
            ' && mount --bind free/db shut/db && exec "$@"'
        )
        before = ["unshare", "--mount", "sh", "-c", mount, "sh"]
        if run(*before, "true").status != 0:
            pytest.skip("a folder that can only be read can't be had here")
        writer.writes_straight("shut/db", "free/db", before=before)
        expect(run(*before, *writer.command("shut/made")), 1, "", "bearoff: open")
        assert names() == ["./eight", "./free/db", "./shut/db"]


# for how long a run is held up while its link is made to lead elsewhere, in microseconds
HELD_UP = 700_000


class TestSteps:
    """Single system calls, by strace."""

    def traced(self, writer, name, *how):
        """A run of a command under strace, and the lines of its trace."""
        done = run("strace", "-f", "-qq", "-o", "trace", *how, *writer.command(name))
        lines = Path("trace").read_text(encoding="latin-1").splitlines()
        return done, [line.split(None, 1)[1] for line in lines]

    @pytest.mark.parametrize("is_new", [True, False], ids=["new", "old"])
    def test_a_file_of_which_nothing_is_told(self, writer, strace, is_new):
        """Where the system doesn't tell what kind of file was written, its bytes are brought to
        the disk as ever."""

        def start():
            for name in ("db", "trace"):
                Path(name).unlink(missing_ok=True)
            if not is_new:
                put("db")

        start()
        _, calls = self.traced(writer, "db")
        synced = next(place for place, call in enumerate(calls) if call.startswith("fsync("))
        told = calls[synced - 1].partition("(")[0]
        assert "stat" in told, f"{calls[synced - 1]} stands before the first fsync"
        number = sum(call.startswith(f"{told}(") for call in calls[:synced])
        start()
        done, calls = self.traced(writer, "db", "-e", f"inject={told}:error=EIO:when={number}")
        expect(done, 0, writer.told)
        expect_same("db", writer.content, "the file")
        steps = [call.partition("(")[0] for call in calls if "INJECTED" in call or "sync(" in call]
        assert steps == [told, "fsync", "fsync"], steps

    def test_a_file_of_the_same_number(self, writer, strace):
        """A link is made to lead to a file of another device, which has the same number there,
        once the first one was opened: the new database stands where the link leads."""
        script = """
            for it in one two; do mkdir $it && mount -t tmpfs none $it || exit 9; done
            for it in one two; do printf 'an older file' >$it/db; done
            [ "$(stat -c %i one/db)" = "$(stat -c %i two/db)" ] || exit 9
            ln -s one/db link && ln -s two/db other
            strace -f -qq -o trace -e inject=readlink:delay_enter=$0:when=1 "$@" &
            until grep -sq 'readlink("link' trace; do sleep 0.01; done
            mv -T other link
            wait $!
            status=$?
            cp one/db one.db && cp two/db two.db
            exit $status"""
        done = run(
            "unshare", "--mount", "sh", "-c", script, HELD_UP, *writer.command("link"), timeout=60
        )
        if done.status == 9:
            pytest.skip("two files of the same number can't be had here")
        expect(done, 0, writer.told)
        expect_same("two.db", writer.content, "the file to which the link leads")
        assert Path("one.db").read_bytes() == OLD

    def test_another_file_under_the_name_of_the_new_one(self, writer, strace):
        """Whoever may change the folder gives the name of the new file to one of his own while its
        bytes go to the disk: that one takes no place."""
        put("db")
        script = """
            strace -f -qq -o trace -e inject=fsync:delay_enter=$0:when=1 "$@" &
            until grep -sq 'fsync(' trace; do sleep 0.01; done
            echo his >his
            mv his bearoff-*.tmp
            wait $!"""
        done = run("sh", "-c", script, HELD_UP, *writer.command("db"), timeout=60)
        expect(done, 1, "", "bearoff: write")
        assert Path("db").read_bytes() == OLD and names() == ["./db", "./eight", "./trace"]
