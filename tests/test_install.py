"""What packaging/install puts down and packaging/uninstall takes away: over a program that runs,
over other people's files, where a folder stands in a file's place, with odd characters in the
prefix, and with lists that lead elsewhere; and the same by `make`."""

import os
import re
import shutil
import subprocess
from pathlib import Path

import pytest

from running import ROOT, code_blocks, expect, expect_that, need, run, succeed

pytestmark = pytest.mark.proved

INSTALL, UNINSTALL = ROOT / "packaging/install", ROOT / "packaging/uninstall"
QUESTION, ANSWER = "mean 0,0,0,0,0,1", "mean 5/4 epc 245/24 10.208"
PRINTED = "1.250 rolls, 10.208 pips\n4/2 2/1"


@pytest.fixture(scope="module", autouse=True)
def proved(program):
    """The program is there, so that none of these has to prove it."""
    need("cc")


@pytest.fixture(scope="module")
def listed():
    return sorted(succeed(INSTALL, "--list").decode().splitlines())


LISTED = re.findall(r"(?m)^(?:\d+|link) (\S+) ", (ROOT / "packaging/place").read_text())
LISTED = sorted(name.replace("$lib", "lib") for name in [*LISTED, "share/bearoff/installed"])


def files_of(folder):
    """The files below a folder."""
    found = [
        os.path.relpath(os.path.join(place, name), folder)
        for place, folders, names in os.walk(folder)
        for name in [*names, *(it for it in folders if os.path.islink(f"{place}/{it}"))]
    ]
    return sorted(found)


def install(prefix, **environment):
    return run(INSTALL, prefix, env={**os.environ, **environment})


def installed(prefix, **environment):
    done = install(prefix, **environment)
    expect_that(done.status == 0, done, "an installation")


def expect_refused(done, status, said):
    """Nothing is written, and one line on standard error has some words."""
    errors = done.errors.decode()
    is_line = errors.count("\n") == 1 and said in errors
    is_so = (done.status, done.output) == (status, b"") and is_line
    expect_that(is_so, done, f"status {status}, and one line with '{said}'")


def test_the_list_is_known_beforehand(listed):
    assert LISTED == listed


class TestAPrefixWithASpace:
    """With a space, under a strict mask, beside a program that runs, and back."""

    @pytest.fixture
    def prefix(self, room):
        prefix = room / "a prefix"
        succeed("sh", "-c", 'umask 077 && "$0" "$1"', INSTALL, prefix)
        return prefix

    def test_files(self, prefix, listed):
        assert files_of(prefix) == listed

    def test_modes(self, prefix):
        """Folders and files that everybody can read."""
        for place, _, names in os.walk(prefix):
            assert os.stat(place).st_mode & 0o777 == 0o755, place
            for name in names:
                mode = os.stat(os.path.join(place, name)).st_mode & 0o777
                assert mode in (0o644, 0o755), name

    def test_over_a_program_that_runs(self, prefix):
        with subprocess.Popen(
            [prefix / "bin/bearoff"], stdin=subprocess.PIPE, stdout=subprocess.PIPE
        ) as child:
            installed(prefix)
            output, _ = child.communicate(f"{QUESTION}\n".encode(), timeout=60)
        assert (child.returncode, output.decode()) == (0, ANSWER + "\n")

    def test_program(self, prefix):
        expect(run(prefix / "bin/bearoff", input=QUESTION), 0, ANSWER)

    def test_uninstall(self, prefix):
        (prefix / "bin/another").touch()
        succeed(UNINSTALL, prefix)
        assert files_of(prefix) == ["bin/another"]
        assert not (prefix / "share/bearoff").exists(), "uninstall leaves the list's folder"


def test_destdir(room, listed):
    stage = room / "stage"
    done = run(
        "sh",
        "-c",
        'umask 077 && "$0" /usr/local',
        INSTALL,
        env={**os.environ, "DESTDIR": str(stage)},
    )
    expect_that(done.status == 0, done, "an installation")
    assert files_of(stage / "usr/local") == listed
    lines = (stage / "usr/local/lib/pkgconfig/bearoff.pc").read_text().splitlines()
    assert "prefix=/usr/local" in lines
    succeed(UNINSTALL, "/usr/local", env={**os.environ, "DESTDIR": str(stage)})
    assert files_of(stage) == []


class TestMake:
    """`make install`, `make uninstall` and `make release` do the same: names of folders come to
    them as they were typed, and neither make nor a shell reads them."""

    ODD = 'it\'s a $HOME of "x" $(shell touch made) `touch made`; touch made #%'

    def make(self, *words, **more):
        settings = ("PREFIX", "DESTDIR", "DIR", "MAKEFLAGS", "MAKELEVEL", "MAKEOVERRIDES")
        environment = {name: value for name, value in os.environ.items() if name not in settings}
        return run("make", "-s", "-C", ROOT, *words, env={**environment, **more})

    def nothing_else(self, room, *names):
        assert sorted(os.listdir(room)) == sorted(names)
        assert not (ROOT / "made").exists()

    @pytest.mark.parametrize("name", ["stage", ODD])
    @pytest.mark.parametrize("by", ["word", "environment"])
    def test_destdir(self, room, listed, name, by):
        stage = room / name
        words = [f"DESTDIR={stage}", "PREFIX=/usr"] if by == "word" else []
        more = {"DESTDIR": str(stage), "PREFIX": "/usr"} if by == "environment" else {}
        for target, files in (("install", listed), ("uninstall", [])):
            done = self.make(*words, target, **more)
            expect_that(done.status == 0, done, f"make {target}")
            assert files_of(stage / "usr") == files
        self.nothing_else(room, name)

    @pytest.mark.parametrize("target", ["install", "uninstall", "help"])
    def test_prefix(self, room, target):
        prefix = f"{room}/{self.ODD}"
        done = self.make(target, f"PREFIX={prefix}")
        said = {
            "install": "place: pkg-config can tell a compiler no folder whose name has",
            "uninstall": f"uninstall: nothing was installed here: there is no {prefix}/share/",
            "help": f"make install            into PREFIX ({prefix}), below DESTDIR",
        }[target]
        is_so = said in (done.errors + done.output).decode()
        expect_that(is_so and (done.status == 0) == (target == "help"), done, said)
        self.nothing_else(room)

    def test_release(self, room):
        (room / self.ODD / "a file").mkdir(parents=True)
        done = self.make("release", f"DIR={room}/{self.ODD}")
        said = f"release: {room}/{self.ODD} is not empty"
        expect_that(done.status != 0 and said in done.errors.decode(), done, said)
        self.nothing_else(room, self.ODD)


OVER_PROVED = """#!/bin/sh
# what stands meanwhile in the folders of LOOK, by its kind, its rights and its name
find $LOOK -mindepth 1 -maxdepth 1 -printf '%y %m %f\\n' >looked
while [ "$1" != --log ]; do shift; done
echo said >"$2"
while [ "$1" != -o ]; do shift; done
[ -n "$FAILS" ] || echo made >"$2"
"""


class TestArchive:
    """What packaging/archive makes meanwhile stands in folders that nobody else can enter."""

    @pytest.fixture
    def archive(self, room):
        for folder in ("packaging", "tools", "tmp", "to"):
            (room / folder).mkdir()
        for name in ("packaging/archive", "tools/made", "tools/sources"):
            shutil.copy(ROOT / name, room / name)
        (room / "tools/over_proved").write_text(OVER_PROVED)
        (room / "tools/over_proved").chmod(0o755)

        (room / "crates.txt").touch()
        (room / "kit/bin").mkdir(parents=True)
        (room / "kit/KIT-ID").write_text("another toolchain\n")
        (room / "kit/bin/rt").touch(0o755)

        def made(**more):
            more = {name: text for name, text in more.items() if text}
            environment = {**os.environ, "TMPDIR": f"{room}/tmp", "LOOK": "tmp to", **more}
            return run(room / "packaging/archive", "to/lib.a", env=environment)

        return made

    def test_made(self, room, archive):
        expect(archive(), 0)
        assert (room / "to/lib.a").read_text() == "made\n"
        kinds = [line[:5] for line in (room / "looked").read_text().splitlines()]
        assert kinds == ["d 700", "d 700"]
        assert sorted(os.listdir("to")) == ["lib.a", "lib.a.made"] and os.listdir("tmp") == []

    @pytest.mark.parametrize("change", ["nothing", "library", "note", "source", "toolchain"])
    def test_once_more(self, room, archive, change):
        """It is made again unless it is the one that was made of these sources by this toolchain,
        however old or new it is."""
        expect(archive(), 0)
        (room / "looked").unlink()
        if change == "library":
            (room / "to/lib.a").write_text("another\n")
        elif change == "note":
            (room / "to/lib.a.made").unlink()
        elif change == "source":
            (room / "crates.txt").write_text("low:\n")
        for path in (room / "crates.txt", room / "to/lib.a"):
            path.touch()
        expect(archive(PATH=f"{room}/kit/bin:{os.environ['PATH']}" * (change == "toolchain")), 0)
        assert (room / "looked").exists() == (change != "nothing")
        assert (room / "to/lib.a").read_text() == "made\n"

    def test_not_made(self, room, archive):
        (room / "to/lib.a").write_text("older\n")
        done = archive(FAILS="yes")
        log = re.search(r"what the build said is in (.*)", done.errors.decode())
        expect_that(done.status == 1 and log, done, "status 1, and where the log is")
        assert Path(log[1]).read_text() == "said\n"
        assert (room / "to/lib.a").read_text() == "older\n" and os.listdir("to") == ["lib.a"]


def test_folders_of_their_own():
    """No script has a second name beside that of a file which mktemp made, and none a known name
    in the folder that everybody writes."""
    wrong = []
    for path in succeed("git", "-C", ROOT, "ls-files").decode().splitlines():
        if path.startswith(("docs/", "crates/")) or not (ROOT / path).is_file():
            continue
        text = (ROOT / path).read_bytes().decode("utf-8", "replace")
        is_script = text.startswith("#!") and "sh" in text.split("\n")[0]
        for name in re.findall(r"(\w+)=\$\(mktemp\)", text) if is_script else []:
            if re.search(rf"\${name}[.\w]|\${{{name}}}[.\w]", text):
                wrong.append(f"{path}: a name beside ${name}")
        # a path that begins there, and is more than that folder
        if (is_script or path.endswith(".py")) and re.search(r"[\"'= ]/tmp/\w", text):
            wrong.append(f"{path}: a known name")
    assert wrong == []


@pytest.mark.parametrize("script", [INSTALL, UNINSTALL], ids=["install", "uninstall"])
def test_usage(script):
    assert succeed(script, "--help").startswith(b"usage:")
    assert run(script).status == 2


class TestTakenPlaces:
    """A folder in the place of each file, and a file in that of a folder: nothing is installed."""

    @pytest.mark.parametrize("file", LISTED)
    def test_a_folder(self, room, file):
        (room / "taken" / file).mkdir(parents=True)
        expect_refused(run(INSTALL, room / "taken"), 1, f"{room}/taken/{file} is a folder")
        assert files_of("taken") == []

    @pytest.mark.parametrize("file", LISTED)
    def test_a_file(self, room, file):
        over = Path("taken") / os.path.dirname(file)
        over.parent.mkdir(parents=True, exist_ok=True)
        over.touch()
        expect_refused(run(INSTALL, room / "taken"), 1, f"{room}/{over} is no folder")
        assert files_of("taken") == [os.path.dirname(file)]

    def test_a_folder_with_the_programs_name(self, room):
        (room / "taken/bearoff").mkdir(parents=True)
        done = run(INSTALL, "--program", room / "taken")
        expect_refused(done, 1, f"{room}/taken/bearoff is a folder")
        assert files_of("taken") == []

    def test_the_program_alone(self, room):
        succeed(INSTALL, "--program", room / "alone")
        assert files_of("alone") == ["bearoff"]
        expect(run("alone/bearoff", input=QUESTION), 0, ANSWER)

    def test_other_peoples_files(self, room):
        """They stay where nothing was installed."""
        for file in LISTED:
            (room / "foreign" / file).parent.mkdir(parents=True, exist_ok=True)
            (room / "foreign" / file).write_text("theirs\n")
        shutil.rmtree(room / "foreign/share/bearoff")
        before = files_of("foreign")
        expect_refused(run(UNINSTALL, room / "foreign"), 1, "nothing was installed here")
        assert files_of("foreign") == before


class TestLists:
    """A list that leads elsewhere is not followed; one of an older version is gone through too,
    and one that is cut."""

    @pytest.mark.parametrize(
        "name",
        "../outside|@/outside|bin/../../outside|bin/..|.|..|/||bin//bearoff|./bin/bearoff".split(
            "|"
        ),
    )
    def test_elsewhere(self, room, listed, name):
        name = name.replace("@", str(room))
        (room / "outside").write_text("theirs\n")
        prefix = room / "a prefix"
        installed(prefix)
        with open(prefix / "share/bearoff/installed", "a", encoding="utf-8") as file:
            file.write(f"{name}\n")
        expect_refused(run(UNINSTALL, prefix), 1, f"names '{name}'")
        assert (room / "outside").exists() and files_of(prefix) == listed

    def test_an_older_one(self, room):
        (room / "share/bearoff").mkdir(parents=True)
        (room / "share/another").write_text("theirs\n")
        (room / "share/old file").write_text("ours\n")
        (room / "share/bearoff/installed").write_text("bin/bearoff\nshare/old file")
        installed(room)
        succeed(UNINSTALL, room)
        assert files_of(room) == ["share/another"]

    def test_one_that_is_cut(self, room):
        (room / "share/bearoff").mkdir(parents=True)
        (room / "share/another").write_text("theirs\n")
        (room / "share/bearoff/installed").write_text("bin/bearoff\nshare/another")
        succeed(UNINSTALL, room)
        assert files_of(room) == []


class TestOddPrefixes:
    """The guide's line, behind eval, takes a prefix with an odd character, or it is refused."""

    @pytest.mark.parametrize(
        "name",
        r"a b| ab|a\b|ab\|a*b|a?b|a[b]c|a!b|a%b|a@b|a^b|a=b|a+b|a~b|~ab|-ab|aäb|@LIB@|@PREFIX@".split(
            "|"
        ),
    )
    def test_taken(self, room, built, name):
        need("pkg-config")
        page = (ROOT / "docs/embedding.md").read_text(encoding="utf-8")
        line = re.search(r"(?m)^    (cc example\.c .*)$", page)[1]
        text = code_blocks("docs/embedding.md", "c")[0]
        Path("example.c").write_text(text, encoding="utf-8")
        os.symlink(built(44), "race.db")
        installed(room / "odd" / name)
        environment = {**os.environ, "PKG_CONFIG_PATH": f"{room}/odd/{name}/lib/pkgconfig"}
        succeed("bash", "-c", f'eval "{line}"', env=environment)
        expect(run("./a.out"), 0, PRINTED)

    @pytest.mark.parametrize(
        "name",
        ["ab ", "ab\t", "a${b}", "a #b", *(f"a{it}b" for it in "\t\n\r\x01\"'$`#(){};&|<>,:")],
    )
    def test_refused(self, room, name):
        said = "pkg-config can tell a compiler no folder whose name has"
        expect_refused(run(INSTALL, room / "odd" / name), 1, said)
        assert not (room / "odd").exists()
