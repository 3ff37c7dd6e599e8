"""The Python, and the C of tests, are laid out as `make format` lays them out; no line of the crates
is too long; no test names a device of the machine to a program; no sum that may only fall has
risen; a make beside another one does no harm; and what others wrote has its licence."""

import re
import subprocess
from pathlib import Path

import pytest

from running import ROOT, copy_all, expect_same, expect_that, need, run, succeed

# others break some lines elsewhere
VERSIONS = {"black": " 23.", "clang-format": " 14."}


@pytest.mark.parametrize("since", ["HEAD~1", pytest.param("", marks=pytest.mark.gate)])
def test_layout(room, since):
    """In a copy `make format` changes nothing, of all or of what has changed since a commit."""
    need("git", "make", *VERSIONS)
    for tool, version in VERSIONS.items():
        if version not in succeed(tool, "--version").decode("utf-8"):
            pytest.skip(f"this {tool} is not of version{version}")
    names = copy_all(room)
    if since:
        changed = run("git", "diff", "--name-only", since, cwd=ROOT).output.decode("utf-8").split()
        same = {name for name in names if name.endswith(".py")} - {*changed}
        names = [name for name in names if name not in same]
        succeed("git", "rm", "--quiet", "-f", *same)
    succeed("make", "format")
    for name in names:
        expect_same(name, ROOT / name, f"{name}: run make format")


def test_sums_at_once(room):
    """Twenty at once say the same of the sources, whether or not a file is read."""
    copy_all(room)
    told = [subprocess.Popen([room / "tools/sources"], stdout=subprocess.PIPE) for _ in range(20)]
    assert {it.communicate()[0] for it in told} == {succeed(ROOT / "tools/sources")}


def test_columns():
    """Sources, definitions and proofs end their lines before column 100, and imports before 120."""
    long = [
        f"{path.relative_to(ROOT)}:{number}: {len(line)} columns"
        for path in sorted((ROOT / "crates").rglob("*"))
        if path.suffix in (".rt", ".antt") and "out" not in path.relative_to(ROOT).parts
        for number, line in enumerate(path.read_text(encoding="utf-8").splitlines(), 1)
        if len(line) > (120 if re.match(r"\s*(unfoldable )?(pub |ghost )?use ", line) else 100)
    ]
    assert not long, "\n".join(long)


def test_ceilings(room):
    """Each sum is at most its ceiling; in a copy, one line more of the page is one too many."""
    succeed(ROOT / "tools/counts", "--sums")
    copy_all(room)
    succeed(room / "tools/counts", "--lower")
    with open(room / "web/question/why.js", "a", encoding="utf-8") as page:
        page.write("\n")
    done = run(room / "tools/counts", "--sums")
    said = b"lines of the page: 1 OVER ITS CEILING\n"
    expect_that(done.status == 1 and done.output.count(b"OVER") == 1, done, "a refusal")
    expect_that(said in done.output, done, said)
    done = run(room / "tools/counts", "--lower")
    expect_that(done.status == 1 and said in done.output, done, "a ceiling that nothing raises")


def test_licences_of_others():
    """What is shipped has the copyright of each library of the toolchain that is compiled into it,
    and of what Debian has that is in the page."""
    told = (ROOT / "packaging/third-party-licences.txt").read_text(encoding="utf-8")
    kit = Path(succeed("rt", "doc").decode().strip()).parent / "rattle"
    rows = dict(re.findall(r"(?m)^(\w+)[^:\n]*:(.*)", (ROOT / "crates.txt").read_text()))
    names, wanted = ["bearoff_cli", "bearoff_c"], set()
    for name in names:
        texts = [path.read_text() for path in sorted((kit / name).glob("src/**/*.rt"))]
        uses = rows[name].split() if name in rows else re.findall(r"\buse (\w+)::", "".join(texts))
        names += {it for it in uses if it in rows or (kit / it / "README.md").exists()} - {*names}
        for licence in (kit / name).glob("LICENSE*"):
            wanted |= {f"  {name} ", *re.findall(r"Copyright \(c\).*", licence.read_text())}
    need("pako")
    with open("/usr/share/doc/node-pako/copyright", encoding="utf-8") as file:
        upstream = file.read().split("Files: debian")[0]
    wanted |= set(re.findall(r"\d{4}-\d{4} (?!.*Tupitsin)(.*)", upstream)) | {"  pako "}
    assert len(wanted) > 12 and not {it for it in wanted if it not in told}, wanted


def test_devices():
    """A program that took a device for a plain file would put another file in its place: the
    fixture `full` is a device of one's own, and behind the words of `apart` the names of the
    standard streams are one's own. Nothing is put in the place of where output goes that nobody
    reads, nor of a folder."""
    named = [
        f"{path.relative_to(ROOT)}:{number}: {line.strip()}"
        for path in sorted((ROOT / "tests").rglob("*"))
        if path.suffix in (".py", ".c", ".mjs") and path.name != "conftest.py"
        for number, line in enumerate(path.read_text(encoding="utf-8").splitlines(), 1)
        if re.search(r"/dev/(?!null|shm)\w", line) and "apart" not in line
    ]
    assert not named, "\n".join(named)
