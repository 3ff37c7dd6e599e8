"""Each small source of refused_cases over the real crates. None may compile, and each has to be
refused with the words that it expects: a case that compiles, or that fails for another
reason, fails. (The gate of the kit can't hold these: it calls an edit that doesn't compile a bad
edit.)"""

import os
import re
import shutil

import pytest

from running import HERE, ROOT, expect_that, run

CASES = sorted(path.name for path in (HERE / "refused_cases").iterdir())


@pytest.fixture(scope="module")
def crates(tmp_path_factory):
    """A copy of what the kit reads, with what it has left in out/."""
    copy = tmp_path_factory.mktemp("crates")
    shutil.copytree(ROOT / "crates", copy / "crates")
    shutil.copy(ROOT / "HANDLES", copy)
    yield copy
    shutil.rmtree(copy)


def test_there_are_cases():
    assert len(CASES) >= 2


@pytest.mark.proved
@pytest.mark.xdist_group("refused sources")
@pytest.mark.parametrize("case", CASES)
def test_refused(crates, case):
    assert shutil.which("rt"), "the Rattle kit's command rt is missing"
    folder, here = crates / "crates" / "refused_case", HERE / "refused_cases" / case
    uses, expected = re.findall("// (?:uses|expected): (.*)", here.read_text(encoding="utf-8"))
    shutil.rmtree(folder, ignore_errors=True)
    os.makedirs(folder / "src")
    shutil.copy(here, folder / "src/lib.rt")
    row = f"refused_case: {uses}\n"
    (crates / "crates.txt").write_text((ROOT / "crates.txt").read_text(encoding="utf-8") + row)
    done = run("rt", "check", cwd=folder, timeout=1800)
    is_so = done.status != 0 and expected in (done.output + done.errors).decode(errors="replace")
    expect_that(is_so, done, f"a refusal with the words '{expected}'")
