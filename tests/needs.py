#!/usr/bin/env -S python3 -I
"""What the tests and the packaging need beyond the kit, and the one step that installs it from
Debian's packages: tests/needs.py [NAME..] installs what is missing of these, or of all. Each row
has a name, the packages, and how to see that it is there. What is optional may be missing: then
the tests of it are skipped, and say so. What it gets is said as it goes, every thirty seconds too,
and apt's own reason where it can't be had."""

import argparse
import collections
import fcntl
import os
import re
import shutil
import subprocess
import sys
import tempfile
import time

PAUSE = 30
"""The seconds after which a line says what it waits for."""

Need = collections.namedtuple("Need", "name packages is_there is_optional", defaults=(False,))


def has(*commands):
    """Whether one of some commands is there; games lie outside the usual path."""
    path = os.environ.get("PATH", os.defpath) + ":/usr/games"
    return lambda: any(shutil.which(command, path=path) for command in commands)


def has_module(*modules):
    """Whether Debian's Python has modules."""
    words = ["/usr/bin/python3", "-c", f"import {', '.join(modules)}"]
    return (
        lambda: os.path.exists(words[0])
        and subprocess.run(words, capture_output=True).returncode == 0
    )


def has_static_library():
    """Whether the C compiler has the C library to link with statically."""
    if not shutil.which("cc"):
        return False
    done = subprocess.run(["cc", "-print-file-name=libc.a"], capture_output=True, text=True)
    return os.path.isabs(done.stdout.strip())


def has_debug_library():
    return os.path.isdir("/usr/lib/debug/.build-id")


NEEDS = (
    # the runner
    Need("pytest", ["python3-pytest"], has_module("pytest")),
    Need("xdist", ["python3-pytest-xdist"], has_module("xdist")),
    Need("git", ["git"], has("git")),
    Need("make", ["make"], has("make")),
    Need("black", ["black"], has("black"), True),
    Need("clang-format", ["clang-format"], has("clang-format"), True),
    # the library, its callers and releases
    Need("cc", ["gcc", "libc6-dev"], has_static_library),
    Need("c++", ["g++"], has("c++")),
    Need("readelf", ["binutils"], has("readelf")),
    Need("pkg-config", ["pkg-config"], has("pkg-config")),
    Need("pip", ["python3-pip"], has_module("pip")),
    Need("mypy", ["mypy"], has_module("mypy")),
    Need("valgrind", ["valgrind", "libc6-dbg"], lambda: has("valgrind")() and has_debug_library()),
    Need("cmake", ["cmake"], has("cmake"), True),
    Need("cargo", ["cargo"], has("cargo"), True),
    Need("lintian", ["lintian"], has("lintian"), True),
    Need("twine", ["twine"], has("twine"), True),
    Need("mandoc", ["mandoc"], has("mandoc"), True),
    Need("strace", ["strace"], has("strace"), True),
    Need("pandas", ["python3-pandas"], has_module("numpy", "pandas"), True),
    Need("gnubg", ["gnubg"], has("gnubg"), True),
    # the second opinion
    Need("coqc", ["coq", "ocaml"], lambda: has("coqc")() and has("ocamlopt")(), True),
    # the page, and the package for JavaScript
    Need("wasm-opt", ["binaryen"], has("wasm-opt")),
    Need("esbuild", ["esbuild"], has("esbuild")),
    Need("pako", ["node-pako"], lambda: os.path.isdir("/usr/share/nodejs/pako")),
    Need("node", ["nodejs"], has("node")),
    Need("tsc", ["node-typescript"], has("tsc")),
    Need("jsdom", ["node-jsdom"], lambda: os.path.isdir("/usr/share/nodejs/jsdom")),
    Need("npm", ["npm"], has("npm"), True),
    Need("chromium", ["chromium"], has("chromium", "chromium-browser", "google-chrome"), True),
    Need("firefox", ["firefox-esr"], has("firefox-esr", "firefox"), True),
)
BY_NAME = {need.name: need for need in NEEDS}


WHY_NOT = {}
"""By its name, why a need can't be had."""


def say(text):
    print(f"needs: {text}", file=sys.stderr, flush=True)


def apt(*words, what):
    """Runs apt-get, and gives its own reason where it fails."""
    before = [] if os.getuid() == 0 else ["sudo", "-n"]
    command = [*before, "env", "DEBIAN_FRONTEND=noninteractive", "apt-get", "-qq"]
    if not shutil.which(command[0]) or not shutil.which("apt-get"):
        return "there is no apt-get, or no right to run it"
    began = time.time()
    with tempfile.TemporaryFile("w+", errors="replace") as said:
        how = {"stdin": subprocess.DEVNULL, "stdout": said, "stderr": said}
        with subprocess.Popen([*command, "-o", "DPkg::Lock::Timeout=600", *words], **how) as run:
            while run.poll() is None:
                try:
                    run.wait(PAUSE)
                except subprocess.TimeoutExpired:
                    say(f"{what}, for {int(time.time() - began)} s")
        said.seek(0)
        lines = said.read().split("\n")
    reasons = [line[3:] for line in lines if re.match("E: ", line)] or lines[-2:]
    return "; ".join(reasons) if run.returncode else ""


def install(names):
    """Installs what is missing of these, and tells what then is missing still."""
    missing = [BY_NAME[name] for name in names if not BY_NAME[name].is_there()]
    if not missing:
        return []
    with open(__file__, "rb") as lock:
        # two tests that run side by side don't install at once
        fcntl.flock(lock, fcntl.LOCK_EX)
        missing = [need for need in missing if not need.is_there()]
        if missing:
            say(f"{len(missing)} are missing: {' '.join(need.name for need in missing)}")
            apt("update", what="reading Debian's list of packages")
        if len(missing) > 1:
            # all in one step, which spares apt most of its work; where one of them can't be had it
            # installs none, and each is then tried by itself
            packages = [package for need in missing for package in need.packages]
            words = ("install", "-y", "--no-install-recommends", *packages)
            apt(*words, what=f"installing {' '.join(packages)}")
            missing = [need for need in missing if not need.is_there()]
        for place, need in enumerate(missing):
            what = f"{place + 1} of {len(missing)}: installing {' '.join(need.packages)}"
            say(what)
            words = ("install", "-y", "--no-install-recommends", *need.packages)
            WHY_NOT[need.name] = apt(*words, what=what)
    return [need.name for need in missing if not need.is_there()]


def main():
    parser = argparse.ArgumentParser(description="Installs what the tests and the packaging need.")
    parser.add_argument("names", nargs="*", metavar="NAME", help=", ".join(BY_NAME))
    names = parser.parse_args().names
    for name in names:
        if name not in BY_NAME:
            parser.error(f"nothing here needs {name}")
    is_wrong = False
    for name in install(names or BY_NAME):
        need = BY_NAME[name]
        left_out = "what it is for is left out" if need.is_optional else "and it is needed"
        why = WHY_NOT.get(name) or "it is installed, and not found"
        say(f"{' '.join(need.packages)} can't be installed, {left_out}: {why}")
        is_wrong = is_wrong or not need.is_optional
    return 1 if is_wrong else 0


if __name__ == "__main__":
    sys.exit(main())
