"""What tools/unproved makes says that it is not proved, and nothing takes it for what is proved:
not the installation, the releases, the wheel, the page, the package for JavaScript or the
launcher."""

import os
import re
import shutil
import subprocess
import sys

import pytest

from running import ROOT, at_terminal, copy_all, expect_same, expect_that, need, run, succeed

MARK = "BEAROFF_UNPROVED"
MODULES = ("wide.wasm", "narrow.wasm")
# an environment in which what is not proved says so, and in which no library is named
SAYING = {it: os.environ[it] for it in os.environ if not it.startswith("BEAROFF_")}


@pytest.fixture
def parts(room):
    """A program and both libraries, of which one has the mark."""
    (room / "library").mkdir()
    for name in ("bearoff", "library/libbearoff.a", "library/libbearoff.so.1"):
        (room / name).write_bytes(b"\x7fELF\0")
    return room


@pytest.mark.parametrize("marked", ["bearoff", "library/libbearoff.a", "library/libbearoff.so.1"])
def test_it_is_not_installed(parts, marked):
    (parts / marked).write_bytes(b"\x7fELF\0" + MARK.encode() + b"\0")
    words = [parts / "bearoff", parts / "library", parts / "top", "/usr"]
    done = run(ROOT / "packaging/place", *words)
    is_so = done.status == 1 and b"is not proved" in done.errors and not (parts / "top").exists()
    expect_that(is_so, done, "a refusal")


@pytest.mark.parametrize("marked", ["bearoff", "library/libbearoff.so.1"])
def test_a_wheel_has_none_of_it(parts, marked):
    (parts / marked).write_bytes(MARK.encode())
    version = (ROOT / "VERSION").read_text(encoding="utf-8").strip()
    licences = ROOT / "packaging/third-party-licences.txt"
    words = [ROOT / "python", version, "bearoff", "library/libbearoff.so.1", licences, parts]
    done = run(sys.executable, "-I", ROOT / "packaging/wheel.py", *words)
    expect_that(done.status == 1 and b"not proved" in done.errors, done, "a refusal")
    assert not [name for name in os.listdir(parts) if name.endswith(".whl")]


@pytest.mark.parametrize("marked", [None, *MODULES])
def test_the_page_and_the_package_say_so(room, marked):
    for name in MODULES:
        (room / name).write_bytes(b"\0asm" + (MARK.encode() if name == marked else b""))
    words = [ROOT / "web", room, ROOT / "VERSION", room / "page"]
    succeed("/usr/bin/python3", "-I", ROOT / "packaging/page.py", *words)
    text = (room / "page").read_text(encoding="utf-8")
    assert ("<title>Bearing off, NOT PROVED</title>" in text) == bool(marked)
    assert ('class="promise">Proved numbers' in text) == (not marked)
    succeed(ROOT / "packaging/js", room, room / "js")
    told = (room / "js/package/package.json").read_text(encoding="utf-8")
    assert ('\n  "private": true,\n' in told) == bool(marked)


@pytest.fixture
def made(request):
    """Gives what was compiled as it is written, by its name: where that is not tested, to ask for
    the library would prove it first."""
    if not request.config.getoption("--unproved"):
        pytest.skip("nothing is compiled as it is written, but with --unproved")
    return request.getfixturevalue


def test_the_program_says_so(made):
    program = made("program")
    done = run(program, "--version", env=SAYING)
    is_so = done.status == 0 and re.fullmatch(rb"bearoff: .* \(NOT PROVED\)\n", done.errors)
    expect_that(is_so, done, "a line that says so")
    assert run(program, "--version").errors == b""


def test_python_in_a_checkout(made, room):
    """It loads the library that `make unproved` compiled, or names that command."""
    shutil.copytree(ROOT / "python/bearoff", room / "python/bearoff")
    words = [sys.executable, "-c", "import bearoff; bearoff.Database.build(0)"]
    done = run(*words, cwd=room / "python", env=SAYING)
    expect_that(done.status == 1 and b"`make unproved`" in done.errors, done, "no library")
    shutil.copytree(made("library"), room / "out/unproved/library")
    done = run(*words, cwd=room / "python", env=SAYING)
    expect_that(done.status == 0 and b"NOT PROVED" in done.errors, done, "a line that says so")


def test_rust_in_a_checkout(made, room):
    """It links the same library, with a warning, and a line when it runs."""
    need("cargo")
    shutil.copytree(ROOT / "rust", room / "rust", ignore=shutil.ignore_patterns("target"))
    shutil.copytree(made("library"), room / "out/unproved/library")
    words = ["cargo", "test", "--offline", "--test", "answers", "no-test-of-this-name"]
    done = run(*words, cwd=room / "rust", env=SAYING | {"CARGO_HOME": str(room)}, timeout=900)
    expect_that(done.errors.count(b"NOT PROVED") == 2, done, "a warning and a line that say so")


def test_how_long_it_takes(room):
    """At a terminal it is on one line, which is cleared at the end."""
    (room / "rt").write_text("#!/bin/sh\nsleep 2\nexit 1\n")
    (room / "rt").chmod(0o755)
    how = {"stderr": subprocess.STDOUT, "env": SAYING | {"PATH": f"{room}:{os.environ['PATH']}"}}
    _, told, _, _ = at_terminal([ROOT / "tools/unproved", "--quiet", "program"], b"", **how)
    line = rb"bearoff: compiling, \d+ s so far \(about a minute\)\r"
    assert re.match(rb"(%b)+\x1b\[K" % line, told)


@pytest.mark.by_hand
def test_the_functions_that_are_called(room):
    """tools/reached lists them, and each module is the same as with the kit's whole libraries."""
    copy_all(room)
    succeed(room / "tools/unproved", "--reached", timeout=3600)
    expect_same(room / "tools/reached", ROOT / "tools/reached", "tools/unproved --reached")


def test_the_launcher_takes_none_of_it(made, room):
    """Where nothing is proved, also beside what was compiled here, the launcher proves first."""
    shutil.copytree(ROOT / "out/unproved", room / "out/unproved", symlinks=True)
    shutil.copy(ROOT / "bearoff", room)
    (room / "crates/bearoff_cli").mkdir(parents=True)
    (room / "crates.txt").touch()
    done = run(room / "bearoff", env={"PATH": "/usr/bin:/bin"})
    expect_that(done.status == 1 and b"is not built" in done.errors, done, "no program")
