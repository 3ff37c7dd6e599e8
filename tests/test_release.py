"""A release, made twice, in two folders, with the same bytes; then used as someone without a kit
would: the archive's program in a root that has nothing else, a C program against the archive's
libraries and one against the package's, the wheel as pip installs it, and the package for
JavaScript under node and as npm installs it."""

import filecmp
import os
import re
import shutil
import tarfile
import time
import zipfile
from pathlib import Path

import pytest

from running import ROOT, code_blocks, expect, need, run, succeed

# a release compiles over the libraries that the prover reads
pytestmark = [pytest.mark.proved, pytest.mark.xdist_group("prover")]

VERSION = (ROOT / "VERSION").read_text(encoding="utf-8").strip()
PACKAGES = ("bearoff", "libbearoff1", "libbearoff-dev")
QUESTION, ANSWER = "mean 0,0,0,0,0,1", "mean 5/4 epc 245/24 10.208"
PRINTED = "1.250 rolls, 10.208 pips\n4/2 2/1"


class Release:
    """A release and another one, and what was unpacked of the first."""

    def __init__(self, work):
        self.one, self.two = work / "one", work / "another folder" / "two"
        self.archive = self.one / f"bearoff-{VERSION}-x86_64-linux.tar.gz"
        self.packages = {name: self.one / f"{name}_{VERSION}_amd64.deb" for name in PACKAGES}
        self.javascript = self.one / f"bearoff-{VERSION}.tgz"
        self.tree = work / f"bearoff-{VERSION}-x86_64-linux"
        self.unpacked, self.database = work / "package", work / "race.db"
        (work / "another folder").mkdir()
        began = time.time()
        self.make(self.one)
        self.took = [time.time() - began]
        # the second one makes the library for C anew too
        began = time.time()
        self.make(self.two, ARCHIVE=str(work / "libbearoff.a"))
        self.took.append(time.time() - began)
        with tarfile.open(self.archive) as archive:
            archive.extractall(work)
        for package in self.packages.values():
            succeed("dpkg-deb", "-x", package, self.unpacked)
        succeed(self.tree / "bin/bearoff", "build", "--pips", 44, self.database)

    @staticmethod
    def make(folder, **more):
        environment = {**os.environ, **more}
        succeed(ROOT / "packaging/release", folder, timeout=3600, env=environment)


@pytest.fixture(scope="module")
def release(store, program):
    need("cc", "readelf", "wasm-opt", "esbuild", "pako", "git", "node")
    (store / "release").mkdir()
    return Release(store / "release")


def test_two_runs_are_the_same(release, note):
    compared = filecmp.dircmp(release.one, release.two, ignore=[])
    names = compared.common_files
    assert (compared.left_only, compared.right_only, compared.common_dirs) == ([], [], [])
    _, different, errors = filecmp.cmpfiles(release.one, release.two, names, shallow=False)
    assert (different, errors) == ([], [])
    note("release: made in {:.0f} s, made again in {:.0f} s".format(*release.took))


def test_sums(release):
    succeed("sha256sum", "--quiet", "-c", "SHA256SUMS", cwd=release.one)
    listed = (release.one / "SHA256SUMS").read_text(encoding="utf-8").splitlines()
    assert len(os.listdir(release.one)) == len(listed) + 1, "SHA256SUMS leaves a file out"


def test_no_file_names_a_folder_of_this_machine(release):
    told = [path.name for path in release.one.iterdir() if str(ROOT).encode() in path.read_bytes()]
    assert told == []


def test_without_words():
    assert run(ROOT / "packaging/release").status == 2


def test_a_folder_that_is_not_empty(release):
    assert run(ROOT / "packaging/release", release.one).status == 1


def test_the_archives_program_in_an_empty_root(release, room):
    shutil.copy(release.tree / "bin/bearoff", room)
    alone = ["chroot"] if os.getuid() == 0 else ["unshare", "--map-root-user", "chroot"]
    expect(run(*alone, room, "/bearoff", input=QUESTION), 0, ANSWER)


def test_the_archive_has_no_owners(release):
    with tarfile.open(release.archive) as archive:
        owners = {(part.uid, part.gid, part.uname, part.gname) for part in archive}
    assert owners == {(0, 0, "", "")}


def test_the_version_of_the_archives_program(release):
    expect(run(release.tree / "bin/bearoff", "--version"), 0, f"bearoff {VERSION}")


def test_the_files_of_the_archive(release):
    listed = succeed(ROOT / "packaging/place", "--list").decode().splitlines()
    rust = ["rust/Cargo.toml", "rust/build.rs", "rust/src/lib.rs", "rust/tests/answers.rs"]
    reference = [f"reference/{name}.md" for name in ("clauses", "definitions", "edits", "lemmas")]
    for name in [*listed, "CHANGELOG.md", "PROVENANCE.md", *rust, *reference]:
        file = release.tree / name
        assert file.exists() and file.stat().st_size > 0, f"the archive has no {name}"


@pytest.mark.parametrize("name", PACKAGES)
def test_the_version_of_a_package(release, name):
    expect(run("dpkg-deb", "-f", release.packages[name], "Version"), 0, VERSION)


def test_the_packages_program(release):
    expect(run(release.unpacked / "usr/bin/bearoff", input=QUESTION), 0, ANSWER)


@pytest.mark.parametrize("name", PACKAGES)
def test_the_sums_in_a_package(release, room, name):
    """Each file of the package has its sum there."""
    succeed("dpkg-deb", "-e", release.packages[name], room / "control")
    succeed("dpkg-deb", "-x", release.packages[name], room / "alone")
    succeed("md5sum", "--quiet", "-c", room / "control/md5sums", cwd=room / "alone")
    lines = (room / "control/md5sums").read_text(encoding="utf-8").splitlines()
    there = [
        str(path.relative_to(room / "alone"))
        for path in (room / "alone").rglob("*")
        if path.is_file() and not path.is_symlink()
    ]
    assert sorted(line[34:] for line in lines) == sorted(there)


def test_lintian(release):
    """The one error that may stay is that there is no licence."""
    need("lintian")
    words = ["--allow-root", "--fail-on", "none", "--tag-display-limit", "0"]
    told = run("lintian", *words, *release.packages.values(), timeout=600)
    lines = sorted((told.output + told.errors).decode().splitlines())
    assert lines == sorted(f"E: {name}: no-copyright-file" for name in PACKAGES)


def test_twine(release):
    need("twine")
    succeed("twine", "check", "--strict", *release.one.glob("*.whl"), timeout=300)


def test_mandoc():
    need("mandoc")
    succeed("mandoc", "-T", "lint", ROOT / "c/bearoff.1")


@pytest.mark.parametrize("which", ["archive", "package"])
def test_a_c_program(release, room, which):
    """The guide's line, by the file for pkg-config: what the header and the library say, and an
    answer."""
    need("pkg-config")
    Path("example.c").write_text(code_blocks("docs/embedding.md", "c")[0], encoding="utf-8")
    os.symlink(release.database, "race.db")
    page = (ROOT / "docs/embedding.md").read_text(encoding="utf-8")
    line = re.search(r"(?m)^    (cc example\.c .*)$", page)[1]
    environment = dict(os.environ)
    if which == "archive":
        environment["PKG_CONFIG_PATH"] = f"{release.tree}/lib/pkgconfig"
    else:
        folder = release.unpacked / "usr/lib/x86_64-linux-gnu/pkgconfig"
        environment |= {
            "PKG_CONFIG_PATH": str(folder),
            "PKG_CONFIG_SYSROOT_DIR": str(release.unpacked),
        }
    succeed("bash", "-c", line, env=environment)
    expect(run("./a.out"), 0, PRINTED)


class TestWheel:
    @pytest.fixture(scope="class")
    def site(self, release, tmp_path_factory):
        need("pip")
        folder = tmp_path_factory.mktemp("site")
        wheel = next(release.one.glob("*.whl"))
        words = "/usr/bin/python3 -m pip install -q --no-index --no-deps --target".split()
        succeed(*words, folder, wheel, timeout=300)
        yield folder
        shutil.rmtree(folder)

    def test_program(self, site):
        expect(run(site / "bin/bearoff", input=QUESTION), 0, ANSWER)

    def test_types(self, site):
        assert (site / "bearoff/py.typed").exists()

    def test_module(self, release, site, room):
        text = code_blocks("docs/embedding.md", "python")[0]
        Path("example.py").write_text(text, encoding="utf-8")
        os.symlink(release.database, "race.db")
        environment = {
            name: value for name, value in os.environ.items() if name != "BEAROFF_LIBRARY"
        } | {"PYTHONPATH": str(site)}
        expect(run("/usr/bin/python3", "example.py", env=environment), 0, PRINTED)

    def test_version(self, site):
        script = "import importlib.metadata as m; print(m.version('bearoff'))"
        words = ["/usr/bin/python3", "-c", script]
        expect(run(*words, env={**os.environ, "PYTHONPATH": str(site)}), 0, VERSION)


class TestJavaScript:
    """The package, as npm would put it down, and as npm does, where it is there."""

    @pytest.fixture
    def here(self, release, room):
        text = "".join(code_blocks("docs/embedding.md", "js"))
        Path("example.mjs").write_text(text, encoding="utf-8")
        os.symlink(release.database, "race.db")
        with tarfile.open(release.javascript) as archive:
            archive.extractall("unpacked")
        return room

    def test_example(self, here):
        os.mkdir("node_modules")
        os.rename("unpacked/package", "node_modules/bearoff")
        expect(run("node", "example.mjs"), 0, PRINTED)

    def test_npm(self, release, here):
        need("npm")
        Path("package.json").write_text("{}\n", encoding="utf-8")
        words = ["npm", "install", "--offline", "--no-audit", "--no-fund", "--silent"]
        succeed(*words, release.javascript, env={**os.environ, "HOME": str(here)}, timeout=300)
        expect(run("diff", "-r", "unpacked/package", "node_modules/bearoff"), 0)
        expect(run("node", "example.mjs"), 0, PRINTED)


def test_licences_of_others(release):
    """Each thing that is shipped has them; the program, into which it is linked, that of the C
    library too."""
    name = "THIRD-PARTY-LICENCES.txt"
    ours = (ROOT / "packaging/third-party-licences.txt").read_bytes()
    whole = (release.one / name).read_bytes()
    assert whole.startswith(ours) and b"GNU LESSER GENERAL PUBLIC LICENSE" in whole
    places = [release.unpacked / "usr/share/doc" / it / name for it in PACKAGES]
    assert {it.read_bytes() for it in [release.tree / name, *places]} == {whole}
    with zipfile.ZipFile(next(release.one.glob("*.whl"))) as wheel:
        assert wheel.read(f"bearoff-{VERSION}.dist-info/licenses/{name}") == whole
    with tarfile.open(release.javascript) as package:
        assert package.extractfile(f"package/{name}").read() == ours
    assert ours in (release.one / "bearoff.html").read_bytes()
