"""What the proofs of the program and of the library for C take on trust beyond the definitions, as
the prover lists it: the functions in C whose contracts they assume. The lists in docs/promises.md
have to be these."""

import re

import pytest

from running import ROOT, expect_that, run

PAGE = "docs/promises.md"
START = {
    "bearoff_cli": "The proof of the program assumes",
    "bearoff_c": "The proof of the library for C assumes",
}


def assumed(crate):
    """The functions in C on whose contracts the verdict on a crate can rest."""
    done = run(ROOT / "tools/over_proved", crate, "check", "--list-axioms", timeout=3600)
    said = (done.output + done.errors).decode(errors="replace")
    expect_that(done.status == 0 and "logic=proved" in said, done, f"{crate} to be proved")
    return sorted(re.findall(r"^  (\S+)\s+reached$", said, re.MULTILINE))


def told(crate):
    """What the page of the promises names in the paragraph about a crate."""
    lines = (ROOT / PAGE).read_text(encoding="utf-8").split("\n")
    paragraphs = [line for line in lines if line.startswith(START[crate])]
    assert len(paragraphs) == 1, f"{PAGE} begins {len(paragraphs)} lines with '{START[crate]}'"
    return sorted(re.findall(r"`((?:\w+::)+\w+)`", paragraphs[0]))


# both commands lock the folders of the crates below them
@pytest.mark.proved
@pytest.mark.xdist_group("prover")
@pytest.mark.parametrize("crate", START)
def test_the_page_lists_what_is_assumed(crate, note):
    functions = assumed(crate)
    assert told(crate) == functions, f"{PAGE} (first) has another list than the prover"
    note(f"{crate}: {len(functions)} functions in C: {', '.join(functions) or 'none'}")
