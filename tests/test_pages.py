"""Compares the pages of docs/ with the sources, and fails where one says what the sources don't
have:

- tools/reference makes four pages of the sources: definitions.md names each public definition once, in the section of its crate, with a
  comment; lemmas.md each law and each lemma module, with the modules that it cites; clauses.md
  each public function that has a contract; edits.md each edit; and what has no comment is refused;
- each link of a page leads to a file, and to a heading where it names one; each file of tests/,
  packaging/, tools/, bench/ and docs/ that a page, a comment or a script names is there; each page
  is named in README.md;
- a clause that stands after a link to a function, as
  [`check`](../crates/certificate/src/checked.rt) `exactly`, is a clause of that function's
  contract in that file;
- an edit that stands after its crates, as `retrograde`: `writes_the_header_alone`, is in
  must-fail/ or wrong_bodies of each;
- each name in the pages by hand, as `IsRight` or `Checked::mean`, stands somewhere in the sources;
- docs/definitions.md names the files and the number of lines that `IsRight` rests on;
- docs/contributing.md draws each crate in the layer that crates.txt gives it, and its two ways go
  through crates that are there;
- README.md has at most 700 words, no sentence of more than eight words stands twice in it and the
  pages by hand, and no figure on two of them;
- README.md, docs/tour.md and docs/second-opinion.md quote the sources: each block of code stands
  word for word in the file that the last link to a source above the block leads to;
- the version in VERSION is that of the program, the header, the manual page, the packages for
  Python and JavaScript and the newest section of CHANGELOG.md, and the page and the file for
  pkg-config have the mark where it is filled in;
- the completions for bash, zsh and fish have the commands of the built program, and of each its
  options;
- docs/file-format.md has the sizes, digests, offsets and bytes of files that the program writes,
  docs/using.md its commands and the replies that it gives, and docs/embedding.md the functions of
  the header for C;
- what a page by hand makes by `make`, or measures by `bench/run`, is there to be made or measured.
"""

import functools
import hashlib
import fnmatch
import os
import re
import shutil
import subprocess
import sys
import tempfile

import pytest

from running import ROOT

# what a comparison has found
wrong = []


def none_wrong(compare, *words):
    """Fails with all that a comparison has found."""
    __tracebackhide__ = True
    wrong.clear()
    compare(*words)
    if wrong:
        pytest.fail("\n".join(wrong), pytrace=False)


@functools.cache
def read(path):
    return (ROOT / path).read_text(encoding="utf-8")


def files(folder, ending):
    for place, folders, names in os.walk(ROOT / folder):
        folders[:] = sorted(name for name in folders if name != "out")
        for name in sorted(names):
            if name.endswith(ending):
                yield os.path.relpath(os.path.join(place, name), ROOT)


def crates():
    lines = [line for line in read("crates.txt").split("\n") if line and not line.startswith("#")]
    return [line.split(":")[0].split()[0] for line in lines]


def definitions_of(crate):
    """The public names of a crate's specs, each with the comment that stands above it."""
    found = {}
    heads = r"(?m)^((?:-- .*\n)*)(?:abbrev |unfoldable )?pub (?:record |data )?([^\s:({]+)"
    for path in files(f"crates/{crate}/specs", ".antt"):
        for comment, name in re.findall(heads, read(path)):
            if name not in ("mod", "use"):
                found.setdefault(name, re.sub(r"\s*(?:^|\n)-- ", " ", comment).strip())
    return found


def laws():
    found = {}
    for crate in crates():
        for path in files(f"crates/{crate}/src", ".rt"):
            for name in re.findall(r"\bfn (law_\w+)", read(path)):
                found[name] = path
    return found


def section(page, crate):
    """The lines of a made page about a crate."""
    found = re.search(rf"(?ms)^## `{crate}`\n(.*?)(?=^## |\Z)", read(page))
    return found.group(1).split("\n") if found else []


def rows_of(page, crate):
    """The rows of the tables about a crate: the name in the first column, and the others."""
    for line in section(page, crate):
        if line.startswith("| ") and re.search(r"[`\[]", line.split(" | ")[0]):
            first, *others = re.split(r" \| ?", line[2:].removesuffix(" |"))
            yield re.sub(r"^\[?`?|`?(?:\]\(.*\))?$", "", first), others


def compare_definitions(page, crate):
    here, rows = definitions_of(crate), list(rows_of(page, crate))
    compare_names(page, f"definition of {crate}", [name for name, *_ in rows], here)
    for name, (comment, *_) in rows:
        above = re.sub(r"^\.\. ", "… ", here.get(name, comment)).replace("|", "\\|")
        if comment != above or not comment:
            wrong.append(f"{page}: above {name} of {crate} stands: {above}")


def compare_names(page, kind, told, there):
    for name in sorted(set(there) - set(told)):
        wrong.append(f"{page}: the {kind} `{name}` is missing")
    for name in sorted(set(told) - set(there)):
        wrong.append(f"{page}: there is no {kind} `{name}`")
    for name in sorted({name for name in told if told.count(name) > 1}):
        wrong.append(f"{page}: the {kind} `{name}` stands there {told.count(name)} times")


def contract(text, function):
    """The lines between a function's name and its body, of each function of that name."""
    found = []
    lines = text.split("\n")
    for place, line in enumerate(lines):
        head = re.match(
            r"( *)(?:pub(?:\(crate\))? )?(?:const )?(?:extern \"C\" )?fn "
            + re.escape(function)
            + r"\b",
            line,
        )
        if head:
            end = place
            while end < len(lines) and not re.match(head.group(1) + r"(\{|[^ ].*\{$)", lines[end]):
                end += 1
            found.append("\n".join(lines[place:end]))
    return found


def headings(page):
    """What a link can name of a page: its headings, as they are read of it on the web."""
    titles = re.findall(r"(?m)^#+ (.*)$", re.sub(r"(?ms)^```.*?^```$", "", read(page)))
    plain = [re.sub(r"\[([^\]]*)\]\([^)]*\)", r"\1", title) for title in titles]
    return {re.sub(r"[^\w -]", "", title).replace(" ", "-").lower() for title in plain}


def compare_links(page):
    """Each link leads to a file; the words in backticks after a link to a function are its
    clauses."""
    for line in read(page).split("\n"):
        parts = re.split(r"\[([^\]]*)\]\(([^)]*)\)", line)
        for label, target, rest in zip(parts[1::3], parts[2::3], parts[3::3]):
            if re.match(r"https?:", target):
                continue
            file, _, place = target.partition("#")
            path = os.path.normpath(os.path.join(os.path.dirname(page), file)) if file else page
            if not (ROOT / path).exists():
                wrong.append(f"{page}: {target} is not there")
                continue
            if place and path.endswith(".md") and place not in headings(path):
                wrong.append(f"{page}: {path} has no heading {place}")
            name = re.fullmatch(r"`(?:\w+::)*(\w+)`", label)
            if not path.endswith(".rt") or not name:
                continue
            contracts = contract(read(path), name.group(1))
            if not contracts:
                wrong.append(f"{page}: {path} has no function {name.group(1)}")
            for clause in re.findall(r"`(\w+)`", re.split(r"[|:;.]", rest)[0]):
                if not any(
                    re.search(rf"(?:ensures|requires)\*? {clause} \{{", text) for text in contracts
                ):
                    wrong.append(f"{page}: {name.group(1)} of {path} has no clause {clause}")


def edits_of(crate):
    """The names of the edits of a crate."""
    folder = ROOT / "crates" / crate
    names = [path.stem for path in folder.glob("must-fail/*.edit")]
    if (folder / "wrong_bodies").exists():
        names += re.findall(r"(?m)^name: (\w+)$", (folder / "wrong_bodies").read_text())
    return names


def compare_edits(page):
    """Each mutant that a row of the page names is an edit of the crates that stand before
    it."""
    names = r"`\w+`(?:, `\w+`)*"
    for line in read(page).split("\n"):
        if not line.startswith("| "):
            continue
        for those, edits in re.findall(rf"({names}): ({names})", line):
            for crate in set(re.findall(r"\w+", those)) & set(crates()):
                for edit in re.findall(r"\w+", edits):
                    if edit not in edits_of(crate):
                        wrong.append(f"{page}: {crate} has no edit {edit}")


def compare_quotes(page):
    """Each block of contracts or definitions stands word for word in the source that was linked
    last."""
    parts, source, count = re.split(r"(?m)^```(\w*)\n(.*?)^```$", read(page), flags=re.S), None, 0
    for prose, kind, block in zip(parts[0::3], parts[1::3], parts[2::3]):
        for target in re.findall(r"\]\(([^)]*\.(?:antt|rt|v))\)", prose):
            source = os.path.normpath(os.path.join(os.path.dirname(page), target))
        if kind not in ("antt", "rt", "rust", "coq"):
            continue
        count += 1
        if source is None or "\n" + block not in "\n" + read(source):
            wrong.append(
                f"{page}: {source} has no lines '{block.split(chr(10))[0]}' as they are quoted"
            )
    if count == 0:
        wrong.append(f"{page}: it quotes no source")


def cited(text, crate):
    """The lemma modules that a text of proofs cites, by their crate."""
    used = re.findall(r"(?m)^use Rattle\.(\w+)\.proofs\.(\w+)(?:\.(\w+))?", text)
    found = set()
    for other, folder, name in used:
        if other in crates() and folder[0].isupper():
            whole = f"{folder}.{name}" if name and name[0].isupper() else folder
            found.add(whole if other == crate else f"{other}.{whole}")
    return found


def compare_lemmas(page, crate):
    """The rows about a crate: a law or a lemma module in the first column, the words of its first
    lines in the second, and what it cites in the last; a law may be a set of lemmas in a module.
    """
    there, begins = {}, {}
    for path in files(f"crates/{crate}/proofs", ".antt"):
        law = re.search(r"/(law_\w+)/Answers\.antt$", path)
        name = re.match(rf"crates/{crate}/proofs/([A-Z]\w*(?:/[A-Z]\w*)?)\.antt$", path)
        lines = re.match(r"(?:-- .*\n)*", read(path)).group(0)
        if law or (name and lines and not re.search(r"(?m)^pub mod ", read(path))):
            place = law.group(1) if law else name.group(1).replace("/", ".")
            there[place] = cited(read(path), crate)
            begins[place] = re.sub(r"\s*(?:^|\n)-- ", " ", lines).strip()
        of_law = r"\n\n((?:-- .*\n)+)pub ruleset (law_\w+) = \(([^)]*)\)"
        for lines, place, lemmas in re.findall(of_law, read(path)):
            names = "|".join(re.findall(r"[^\s,]+", lemmas))
            uses = re.findall(rf"(?m)^use .*[{{ ](?:{names})[,}}].*$", read(path))
            there[place] = cited("\n".join(uses), crate)
            begins[place] = re.sub(r"\s*(?:^|\n)-- ", " ", lines).strip()
    rows = list(rows_of(page, crate))
    compare_names(page, f"law or module of {crate}", [name for name, *_ in rows], there)
    for name, (about, rests) in rows:
        if about != begins.get(name, about):
            wrong.append(f"{page}: {name} of {crate} says of itself: {begins[name]}")
        for other in sorted(there.get(name, set()) ^ set(re.findall(r"`([^`]+)`", rests))):
            wrong.append(f"{page}: {name} of {crate} and {other}: only one of the two has it")


def public_functions(crate):
    """The functions of a crate that are public, or a public trait's, and have a contract."""
    found = []
    for path in files(f"crates/{crate}/src", ".rt"):
        text, heads = read(path), r"(?m)^( *)pub (?:const )?(?:extern \"C\" )?fn (\w+)"
        for head in re.finditer(heads, text):
            rest = text[head.start() :]
            body = re.search(rf"(?m)^{head.group(1)}(\{{|\S.*\{{\}}?$)", rest)
            if re.search(r"(?m)^ *(ensures|requires)\b", rest[: body.start()]):
                found.append((path, head.group(2)))
        for trait in re.findall(r"(?ms)^pub trait .*?^\}", text):
            for name, rest in re.findall(r"(?ms)^    fn (\w+)(.*?)(?:;$|^    \{)", trait):
                if re.search(r"(?m)^ *(ensures|requires)\b", rest):
                    found.append((path, name))
    return found


def compare_clauses(page, crate):
    """Each function has its heading, with a link to its file, and below it each of its clauses."""
    lines = "\n".join(section(page, crate))
    told = re.findall(r"(?m)^### \[`(?:\w+::)?(\w+)`\]\(\.\./\.\./([^)]*)\)$", lines)
    blocks = re.findall(r"(?ms)^```rt\n(.*?)^```$", lines)
    there = public_functions(crate)
    for name, path in sorted({(name, path) for path, name in there} ^ set(told)):
        wrong.append(f"{page}: {name} of {path}: only one of the two has it")
    if len(told) != len(there) or len(blocks) != len(told):
        wrong.append(f"{page}: {crate} has {len(there)} functions, and not {len(told)}")
    shown = re.sub(r"\s+", " ", " ".join(blocks))
    for path, name in there:
        clauses = [
            re.findall(r"(?:ensures|requires)\*? ?\w* \{.*", text)
            for text in contract(read(path), name)
        ]
        if not any(all(each.strip() in shown for each in some) for some in clauses):
            wrong.append(f"{page}: a clause of {name} of {path} is missing")


def compare_layers(page):
    """The picture of the crates: each in the layer above the highest that it rests on; and the
    names of the two ways."""
    rests = {
        line.split(":")[0].split()[0]: set(line.split(":")[1].split()) & set(crates())
        for line in read("crates.txt").split("\n")
        if ":" in line and not line.startswith("#")
    }

    def layer(crate):
        return 1 + max((layer(below) for below in rests[crate]), default=-1)

    drawn = {}
    for number_of, row in re.findall(r"(?m)^layer (\d+)   (.*)$", read(page)):
        for crate in re.split(r"   ", row)[0].split():
            if crate in drawn:
                wrong.append(f"{page}: {crate} is drawn twice")
            drawn[crate] = int(number_of)
    for crate in sorted(set(drawn) | set(rests)):
        if drawn.get(crate) != (layer(crate) if crate in rests else None):
            wrong.append(
                f"{page}: {crate} is drawn in layer {drawn.get(crate)}, and crates.txt has it in"
                f" {layer(crate) if crate in rests else 'none'}"
            )
    ways = re.findall(r"(?m)^(?:a record: |a line:   |          ) (.* -> .*)$", read(page))
    if len(ways) != 4:
        wrong.append(f"{page}: there are not two ways of two lines through the crates")
    for name in re.split(r" -> |, ", " -> ".join(ways)):
        if name not in [*rests, "the file", "standard input", "standard output"]:
            wrong.append(f"{page}: a way leads through {name}, which is no crate")


def compare_sentences(pages):
    """No sentence of more than eight words stands twice, outside code; a cell of a table is read
    as one of its own."""
    told = {}
    for page in pages:
        prose = re.sub(r"(?ms)^```.*?^```$|^    .*?$", "", read(page))
        for line in re.sub(
            r"\[([^\]]*)\]\([^)]*\)", r"\1", re.sub(r"(?<=[^\n|])\n(?=[^\n|#-])", " ", prose)
        ).split("\n"):
            for cell in line.strip("| -").split(" | "):
                for sentence in re.split(r"(?<=[.:;?!])\s+", cell):
                    words = re.findall(r"[\w'^/-]+", sentence)
                    if len(words) > 8:
                        told.setdefault(" ".join(words).lower(), []).append(page)
    for sentence, places in told.items():
        if len(places) > 1:
            wrong.append(f"{', '.join(places)}: '{sentence}' stands there {len(places)} times")
    words = len(read("README.md").split())
    if words > 700:
        wrong.append(f"README.md: it has {words} words")


# facts of the subject and of the files, which any page may name
FACTS = {
    "26314",
    "46062",
    "54264",  # positions of at most 44, 58 and 90 pips
}
UNITS = "ms|ns|s|seconds?|minutes?|hours?|KB|MB|GB|MiB|bytes|%"


def figures(page):
    """The numbers of a page of four digits or more, and those with a unit, outside code."""
    text = re.sub(r"(?ms)^```.*?^```$|^    .*?$", "", read(page))
    text = re.sub(r"\]\([^)]*\)|`[^`]*`", " ", text)
    found = rf"(?<![\w.,/^-])(\d[\d,]*(?:\.\d+)?)(?: ?({UNITS})(?!\w))?"
    for value, unit in re.findall(found, text):
        value = value.replace(",", "")
        if unit or len(value.split(".")[0]) > 3:
            yield f"{value} {unit.removesuffix('s') if len(unit) > 2 else unit}".strip()


def compare_figures(pages):
    """What a figure says stands on one page, to which the others link."""
    told = {}
    for page in pages:
        for figure in figures(page):
            told.setdefault(figure, set()).add(page)
    for figure, places in sorted(told.items()):
        if len(places) > 1 and figure not in FACTS:
            wrong.append(f"{', '.join(sorted(places))}: {figure} stands on each of them")


@functools.cache
def source_words():
    """Every name that the sources have, and those of tests, and of what makes and measures."""
    folders = (
        "crates c python js rust web tests packaging tools bench completions second_opinion .ci"
    )
    paths = [path for folder in folders.split() for path in files(folder, "")]
    paths = [it for it in paths if not re.search(r"__pycache__|node_modules|\.(png|wasm)$", it)]
    found = set()
    for path in [*paths, "Makefile", "bearoff", "crates.txt", "CHANGELOG.md", "VERSION"]:
        text = (ROOT / path).read_text(encoding="utf-8", errors="ignore")
        found |= set(re.findall(r"\w+", path)) | set(re.findall(r"\w+", text))
    return found


def compare_cited(page):
    """Each name in the words of a page stands somewhere in the sources."""
    text = re.sub(r"(?ms)^```.*?^```$", "", read(page))
    for name in sorted(set(re.findall(r"`([A-Za-z_][\w:]*)`", text)) - OTHERS):
        # what the prover trusts of its own library tests/test_trusted.py compares
        is_trusted = re.match(r"(?:libc|os::c)::", name)
        if not is_trusted and not set(re.findall(r"\w+", name)) <= source_words():
            wrong.append(f"{page}: nothing in the sources is named {name}")


def compare_commands(page):
    """What make makes is a target of the Makefile, and what is measured a part of bench/run."""
    targets = set(re.findall(r"(?m)^([a-z-]+):", read("Makefile")))
    sections = set(re.findall(r"(?m)^    ([a-z]+)\) measure_", read("bench/run")))
    text = read(page)
    for name in sorted(set(re.findall(r"(?:`|^    |&& )make ([a-z-]+)", text, re.M)) - targets):
        wrong.append(f"{page}: make makes no {name}")
    for name in sorted(set(re.findall(r"(?:`|^    )bench/run ([a-z]+)", text, re.M)) - sections):
        wrong.append(f"{page}: bench/run measures no {name}")


def compare_replies(page, program, database):
    """What the page says that a line is answered with is what the program answers over a
    database."""
    text = read(page)
    pairs = [[cell.strip("`") for cell in row] for row in table(page, "Line", "Reply")]
    pairs += re.findall(r"`((?:mean|dist|play|loss|moves|rank) [^`]*)` gives `([^`]*)`", text)
    waste = table(page, "Position", "Pips", "Line", "Effective pip count", "Wastage")
    asked = [line for line, _ in pairs] + [row[2].strip("`") for row in waste]
    done = subprocess.run(
        [program, "query", database],
        input="\n".join(asked) + "\n",
        text=True,
        capture_output=True,
        check=True,
    )
    replies = done.stdout.splitlines()
    if len(replies) != len(asked) or not len(pairs) > 6 or not waste:
        wrong.append(f"{page}: {len(asked)} lines have {len(replies)} replies")
    for (line, told), reply in zip(pairs, replies):
        if told != reply:
            wrong.append(f"{page}: {line} is answered with {reply}, and not {told}")
    for (about, pips, line, epc, wastage), reply in zip(waste, replies[len(pairs) :]):
        counts = map(int, line.strip("`").split()[1].split(","))
        summed = sum(point * count for point, count in enumerate(counts, 1))
        thousandths = int(reply.split()[-1].replace(".", ""))
        wanted = [str(summed), reply.split()[-1], f"{(thousandths - 1000 * summed) / 1000:.3f}"]
        if [pips, epc, wastage] != wanted:
            wrong.append(f"{page}: {about}: {', '.join(wanted)} is what the program says")


def compare_functions(page):
    """The functions of the header for C are those that the page lists."""
    there = set(re.findall(r"(?m)^(?:uint32_t|bool) (bearoff_\w+)\(", read("c/bearoff.h")))
    told = re.findall(r"`(bearoff_\w+)`", read(page))
    for name in sorted(there ^ set(told)):
        wrong.append(f"{page}: {name} stands in the list or in bearoff.h alone")


def compare_rows(page, program):
    """Each command of the program has a row."""
    rows = " ".join(row[0] for row in table(page, "Command", "What it does", "What it prints"))
    told = re.findall(r"`bearoff (\w+)", rows)
    compare_names(page, "command", sorted(set(told)), set(helped(program)[0]) - {"help"})


def compare_headline(page):
    """The files that the definition of a right file rests on, and how many lines they have besides
    comments and imports."""
    folder, todo, found = "crates/race_model/specs", ["RightFiles"], {}
    while todo:
        name = todo.pop()
        if name not in found:
            text = found[name] = read(f"{folder}/{name}.antt")
            todo += re.findall(r"(?m)^use Rattle\.race_model\.specs\.(\w+)", text)
    part = re.search(r"(?ms)^## What the main theorem rests on\n(.*?)^## ", read(page))
    if not part:
        wrong.append(f"{page}: it has no part 'What the main theorem rests on'")
        return
    told = re.findall(r"(?m)^\d+\. \[(\w+)\.antt\]", part.group(1))
    compare_names(page, "file below IsRight", told, found)
    lines = [
        line
        for text in found.values()
        for line in text.split("\n")
        if line.strip() and not line.lstrip().startswith(("--", "use "))
    ]
    stated = re.search(r"(\w+) files, (\d+) lines", part.group(1))
    counted = (
        ["no", *"one two three four five six seven eight nine ten eleven twelve".split()][
            len(found)
        ],
        str(len(lines)),
    )
    if not stated or stated.groups() != counted:
        wrong.append(f"{page}: {' files, '.join(counted)} lines are what IsRight rests on")


def table(page, *head):
    """The rows of the table of a page that has this head, each a list of its columns."""
    rows, inside = [], False
    for line in read(page).split("\n"):
        columns = [column.strip() for column in line.strip("| ").split(" | ")]
        if inside and not line.startswith("|"):
            return rows
        if inside and "---" not in line:
            rows.append(columns)
        inside = inside or (line.startswith("|") and columns == list(head))
    if not rows:
        wrong.append(f"{page}: there is no table of {', '.join(head)}")
    return rows


def number(text):
    return int(text.replace(",", ""))


def positions_of(pips):
    """How many positions of a pip count there are, counted anew: at most 15 checkers on six
    points."""
    ways = {(0, 0): 1}
    for point in range(1, 7):
        ways = {
            (all_checkers, all_pips): sum(
                ways.get((all_checkers - here, all_pips - point * here), 0)
                for here in range(all_checkers + 1)
            )
            for all_checkers in range(16)
            for all_pips in range(pips + 1)
        }
    return sum(ways[checkers, pips] for checkers in range(16))


def written(program):
    """The files that the program writes, by version and bound; the smallest of version 2 are
    upgrades."""
    found = {}
    with tempfile.TemporaryDirectory() as work:
        old, new = os.path.join(work, "old"), os.path.join(work, "new")
        for bound in (0, 1, 2, 3, 8, 44, 58):
            commands = [["build", "--pips", str(bound), old]] + (
                [["upgrade", old, new]] if bound <= 44 else []
            )
            for words in commands:
                subprocess.run([program, *words], check=True, stdout=subprocess.DEVNULL)
            for version, path in ((1, old), (2, new)) if bound <= 44 else ((2, old),):
                with open(path, "rb") as file:
                    found[version, bound] = file.read()
    return found


def stated_bytes(words, page):
    """What a cell says of bytes: some in hexadecimal, or so many zeros."""
    zeros = re.fullmatch(r"(\d+) zero bytes", words)
    if zeros:
        return bytes(int(zeros.group(1)))
    if not re.fullmatch(r"`[0-9a-f]+`( `[0-9a-f]+`)*", words):
        wrong.append(f"{page}: '{words}' are no bytes")
    return bytes.fromhex("".join(re.findall(r"[0-9a-f]+", words)))


def compare_file_format(page, program):
    """What the page says of whole files, of the length of a record, and of the bytes of one."""
    built = written(program)

    def expect(is_so, what):
        if not is_so:
            wrong.append(f"{page}: {what} is not what a built file has")

    for version, bound, size, digest in table(page, "Version", "Bound", "Bytes", "SHA-256"):
        file = built.get((int(version), int(bound)), b"")
        expect(len(file) == number(size), f"the size of version {version}, bound {bound}")
        expect(
            hashlib.sha256(file).hexdigest() == digest.strip("`"),
            f"the digest of version {version}, bound {bound}",
        )

    # the built board files are compared by tests/test_boards.py
    boards = read("tests/test_boards.py")
    for bound, size, digest in table(page, "Bound of a board file", "Bytes", "SHA-256"):
        row = f"    {bound}: ({number(size)}, \"{digest.strip('`')}\"),\n"
        expect(row in boards, f"the size or the digest of the board file of {bound} pips")

    # in version 2 the records of one pip count have one length, so two files whose bounds differ
    # by one tell it
    most_rolls = {0: 0}
    for pips in range(1, 59):
        most_rolls[pips] = -(-(2 * pips + min(pips, 15) + 1) // 6)
    starts = {0: 32}
    for pips in range(59):
        starts[pips + 1] = starts[pips] + positions_of(pips) * (58 + 16 * most_rolls[pips])
    for bound in (0, 1, 2, 3, 8, 44, 58):
        expect(
            len(built[2, bound]) == starts[bound + 1], f"the length of the records to {bound} pips"
        )
    for pips, most, length in table(page, "Pips", "`K`", "Bytes of a record"):
        for each in re.findall(r"\d+", pips):
            expect(most_rolls[int(each)] == int(most), f"K({each})")
            expect(58 + 16 * most_rolls[int(each)] == int(length), f"the record of {each} pips")

    text = re.sub(r"\s+", " ", read(page))
    places = re.search(
        r"of `0,2,0,0,0,0`.*?Its rank is (\d+), so .*? at offset 32 \+ 426 \* (\d+) = (\d+)\.",
        text,
    )
    compact = re.search(
        r"In version 2 the record has (\d+) bytes, .*? It starts at offset (\d+)\.", text
    )
    shares = re.findall(r"\) / 36 = (\d+)/(\d+) \* W = (\d+)", text)
    if not places or not compact or len(shares) != 3:
        wrong.append(f"{page}: the record byte by byte is not told as it was")
        return
    rank, again, offset = map(int, places.groups())
    length, start = map(int, compact.groups())
    asked = subprocess.run([program], input=b"rank 0,2,0,0,0,0\n", capture_output=True, check=True)
    expect(asked.stdout == b"rank %d\n" % rank and again == rank, "the rank of 0,2,0,0,0,0")
    expect(offset == 32 + 426 * rank, "the offset of 0,2,0,0,0,0 in version 1")
    expect(
        start == starts[4] + (rank - 7) * length and length == 58 + 16 * most_rolls[4],
        "its record in version 2",
    )
    record, told = built[1, 8][offset : offset + 426], b""
    for place, words, _ in table(page, "Offset in the record", "Bytes", "What"):
        expect(int(place) == len(told), f"the offset {place} in the record")
        told += stated_bytes(words, page)
    expect(told == record, "the record of 0,2,0,0,0,0")
    short = built[2, 8][start : start + length]
    expect(
        short == record[:58] + record[74 : 58 + 16 * (1 + most_rolls[4])],
        "the record of 0,2,0,0,0,0 in version 2",
    )
    whole = 36**22
    expect(f"36^22 is {whole}." in text, "36^22")
    fields = [int.from_bytes(record[first : first + 16], "big") for first in (0, 74, 90)]
    for (above, below, value), field in zip(shares, fields):
        expect(
            int(value) == field and field * int(below) == whole * int(above),
            f"{above}/{below} of the whole",
        )


def compare_version(version):
    """Each place that says the version says that of the file VERSION."""
    if not re.fullmatch(r"\d+\.\d+\.\d+", version):
        wrong.append(f"VERSION: '{version}' is no version")
    for path, said in (
        ("crates/command_line/src/commands.rt", r'\.version\("([^"]*)"\)'),
        ("c/bearoff.h", r'#define BEAROFF_VERSION "([^"]*)"'),
        ("c/bearoff.1", r'\.TH BEAROFF 1 [0-9-]+ "bearoff ([^"]*)"'),
        ("python/pyproject.toml", r'(?m)^version = "([^"]*)"$'),
        ("python/bearoff/_library.py", r'(?m)^__version__ = "([^"]*)"$'),
        ("js/package.json", r'(?m)^  "version": "([^"]*)",$'),
    ):
        found = re.findall(said, read(path))
        if found != [version]:
            wrong.append(
                f"{path}: the version is {', '.join(found) or 'missing'}, and not {version}"
            )
    for said in (
        r"\*(?:major|minor|patch) = (\d+);",
        r"ensures (?:major|minor|patch) \{ \w+\.new ≡ (\d+) \}",
    ):
        found = ".".join(re.findall(said, read("crates/bearoff_c/src/calls/library.rt")))
        if found != version:
            wrong.append(
                f"crates/bearoff_c/src/calls/library.rt: the version is {found}, and not {version}"
            )
    newest = re.search(r"(?m)^## \[(\d[^\]]*)\]", read("CHANGELOG.md"))
    if not newest or newest.group(1) != version:
        wrong.append(f"CHANGELOG.md: the newest section is not that of {version}")
    for path, mark in ("web/index.html", "<!--VERSION-->"), (
        "c/bearoff.pc.in",
        "Version: @VERSION@\n",
    ):
        if read(path).count(mark) != 1:
            wrong.append(f"{path}: {mark.strip()} stands there not once")


def helped(program, *words):
    """What the program's help lists: the commands, and the long options."""
    text = subprocess.run(
        [program, *words, "--help"], capture_output=True, text=True, check=True
    ).stdout
    commands = re.search(r"(?m)^Commands:\n((?:  .*\n)+)", text)
    return re.findall(r"(?m)^  (\w+)", commands.group(1)) if commands else [], set(
        re.findall(r"(?m)^ +(?:-\w, +)?--(\w+)", text)
    )


def options_of(program, name):
    """The long options of a command: those of its help, and where that speaks of `--board` those
    of its help over a board file."""
    text = subprocess.run(
        [program, name, "--help"], capture_output=True, text=True, check=True
    ).stdout
    boards = helped(program, name, "--board")[1] if "--board" in text else set()
    return helped(program, name)[1] | boards


def completed():
    """What the three files complete, by shell: the options of each command, and of the program
    itself under ''."""
    found = {}
    bash = read("completions/bearoff.bash")
    found["bash"] = {
        name: set(re.findall(r"--(\w+)", options))
        for names, options in re.findall(r"(?m)^ +([a-z| ]+)\) words='([^']*)'", bash)
        for name in names.split(" | ")
    }
    first = re.search(r"COMP_CWORD\" -eq 1 \]; then\n +words='([^']*)'", bash).group(1).split()
    found["bash"][""] = {word[2:] for word in first if word.startswith("--")}
    zsh = read("completions/_bearoff")
    help_of_zsh = set(re.findall(r"--(\w+)\}", re.search(r"help=\((.*)\)\n", zsh).group(1)))
    options = lambda text: set(re.findall(r"--(\w+)", text)) | (
        help_of_zsh if "$help" in text else set()
    )
    found["zsh"] = {
        name: options(text)
        for name, text in re.findall(r"(?m)^ +(\w+)\) _(?:arguments|describe) (.*) ;;$", zsh)
        if name != "command"
    }
    found["zsh"][""] = options(re.search(r"_arguments -C (.*)", zsh).group(1))
    fish = [
        line
        for line in read("completions/bearoff.fish").split("\n")
        if line.startswith("complete -c bearoff")
    ]
    names = [
        name for line in fish for name in re.findall(r"__fish_use_subcommand -f -a (\w+) -d", line)
    ]
    long_of = lambda line: set(re.findall(r" -l (\w+)", line))
    everywhere = set().union(*(long_of(line) for line in fish if " -n " not in line))
    found["fish"] = {name: everywhere if name != "help" else set() for name in ["", *names]}
    for line in fish:
        if "__fish_use_subcommand" in line:
            found["fish"][""] = found["fish"][""] | long_of(line)
        for name in re.findall(r"__fish_seen_subcommand_from (\w+)'", line):
            found["fish"].setdefault(name, set())
            found["fish"][name] = found["fish"][name] | long_of(line)
    listed = {
        "bash": [word for word in first if not word.startswith("-")],
        "zsh": re.findall(r"(?m)^ +'(\w+):", zsh),
        "fish": names,
    }
    return found, listed


def compare_completions(program):
    """The commands of the help, each with its options, are those that the three shells
    complete."""
    commands, options = helped(program)
    wanted = {
        "": options,
        **{name: options_of(program, name) if name != "help" else set() for name in commands},
    }
    found, listed = completed()
    for shell, given in found.items():
        if sorted(listed[shell]) != sorted(commands):
            wrong.append(
                f"completions: {shell} completes {', '.join(listed[shell])},"
                f" and the commands are {', '.join(commands)}"
            )
        for name in sorted({*wanted, *given}):
            if given.get(name) != wanted.get(name):
                wrong.append(
                    f"completions: {shell} completes other options of '{name}' than its help has:"
                    f" {sorted(given.get(name) or [])} and {sorted(wanted.get(name) or [])}"
                )


def compare_named_files(path):
    """Each file of a folder of ours that is named is there."""
    names = re.findall(
        r"(?<![\w./-])(?:\.\./)?((?:tests|packaging|tools|bench|docs)/[\w./-]*\w)", read(path)
    )
    for name in sorted(set(names)):
        if not (ROOT / name).exists():
            wrong.append(f"{path}: there is no {name}")


PAGES = ["README.md", *files("docs", ".md")]
# a program and an error of the system, and how lemmas are named
OTHERS = {"paste", "EINTR", "X_of_Y"}
NAMING = [
    *PAGES,
    "bearoff",
    "Makefile",
    ".ci/run",
    "js/README.md",
    *(
        path
        for folder in "tests packaging tools bench python js web c second_opinion".split()
        for path in files(folder, ("", ".py", ".js", ".mjs", ".c", ".h"))
        if "__pycache__" not in path and "node_modules" not in path
    ),
    *(path for crate in crates() for path in files(f"crates/{crate}/src", ".rt")),
]


@pytest.fixture(scope="module")
def made():
    """A folder with the pages that are made of the sources as they are, from which their links
    lead."""
    os.makedirs(ROOT / "out", exist_ok=True)
    with tempfile.TemporaryDirectory(dir=ROOT / "out", prefix="ref-") as folder:
        words = [sys.executable, "-I", ROOT / "tools/reference", folder]
        done = subprocess.run(words, capture_output=True, text=True)
        if done.returncode:
            pytest.fail(done.stderr, pytrace=False)
        yield os.path.relpath(folder, ROOT)


def test_links_of_the_reference(made):
    assert sorted(os.listdir(ROOT / made)) == [
        "clauses.md",
        "definitions.md",
        "edits.md",
        "lemmas.md",
    ]
    for name in os.listdir(ROOT / made):
        none_wrong(compare_links, f"{made}/{name}")


@pytest.mark.parametrize(
    "place, text, said",
    [
        ("specs/Sums.antt", "-- Sums.\n\npub sum : List ℕ → ℕ\n", "sum has no comment"),
        ("specs/Sums.antt", "-- Sums.\n\n-- lost\n\npub sum : List ℕ → ℕ\n", "sum has no"),
        ("specs/Sums.antt", "use A\n\n-- a sum\npub sum : List ℕ → ℕ\n", "does not begin"),
        ("proofs/Sums.antt", "use A\n\nsum-nil : A\n", "does not begin with a comment"),
    ],
)
def test_no_comment_is_refused(tmp_path, place, text, said):
    (tmp_path / "tools").mkdir()
    shutil.copy(ROOT / "tools/reference", tmp_path / "tools")
    (tmp_path / "crates.txt").write_text("one:\n", encoding="utf-8")
    (tmp_path / "crates/one" / place).parent.mkdir(parents=True)
    (tmp_path / "crates/one" / place).write_text(text, encoding="utf-8")
    words = [sys.executable, "-I", tmp_path / "tools/reference"]
    done = subprocess.run(words, capture_output=True, text=True)
    assert (done.returncode, (tmp_path / "out").exists()) == (1, False)
    assert said in done.stderr and done.stderr.count("\n") == 1, done.stderr


@pytest.mark.parametrize("crate", crates())
def test_definitions(made, crate):
    none_wrong(compare_definitions, f"{made}/definitions.md", crate)


@pytest.mark.parametrize("crate", crates())
def test_lemmas(made, crate):
    none_wrong(compare_lemmas, f"{made}/lemmas.md", crate)


@pytest.mark.parametrize("crate", crates())
def test_clauses(made, crate):
    none_wrong(compare_clauses, f"{made}/clauses.md", crate)


def test_laws_have_rows(made):
    page = f"{made}/lemmas.md"
    told = re.findall(r"(?m)^\| \[`(law_\w+)`\]", read(page))
    none_wrong(compare_names, page, "law", told, laws())


def test_edits_have_rows(made):
    there = [f"{crate}/{edit}" for crate in crates() for edit in edits_of(crate)]
    row = r"(?m)^\| \[?([\w ]+)(?:\]\([^)]*\))? \| \[[^\]]*\]\(\.\./\.\./crates/(\w+)/"
    rows = re.findall(row, read(f"{made}/edits.md"))
    told = [f"{crate}/{edit.replace(' ', '_')}" for edit, crate in rows]
    none_wrong(compare_names, f"{made}/edits.md", "edit", told, there)


def test_headline():
    none_wrong(compare_headline, "docs/definitions.md")


def test_each_page_is_named():
    linked = re.findall(r"\]\((docs/[^)#]*\.md)\)", read("README.md"))
    assert set(PAGES) - {"README.md"} <= set(linked), "README.md names not each page"


@pytest.mark.parametrize("page", PAGES)
def test_cited(page):
    none_wrong(compare_cited, page)


@pytest.mark.parametrize("page", PAGES)
def test_commands(page):
    none_wrong(compare_commands, page)


def test_figures():
    none_wrong(compare_figures, PAGES)


def test_layers():
    none_wrong(compare_layers, "docs/contributing.md")


@pytest.mark.parametrize("page", PAGES)
def test_edits(page):
    none_wrong(compare_edits, page)


@pytest.mark.parametrize("page", ["README.md", "docs/tour.md", "docs/second-opinion.md"])
def test_quotes(page):
    none_wrong(compare_quotes, page)


@pytest.mark.parametrize("page", PAGES)
def test_links(page):
    none_wrong(compare_links, page)


@pytest.mark.parametrize("path", NAMING)
def test_named_files(path):
    none_wrong(compare_named_files, path)


def test_sentences():
    none_wrong(compare_sentences, PAGES)


def test_version():
    none_wrong(compare_version, read("VERSION").strip())


def test_version_of_the_program(program):
    told = subprocess.run(
        [program, "--version"], capture_output=True, text=True, check=True
    ).stdout
    assert told.split("\n")[0] == f"bearoff {read('VERSION').strip()}"


def test_file_format(program):
    none_wrong(compare_file_format, "docs/file-format.md", program)


def test_functions():
    none_wrong(compare_functions, "docs/embedding.md")


def test_rows(program):
    none_wrong(compare_rows, "docs/using.md", program)


def test_replies(program, built):
    none_wrong(compare_replies, "docs/using.md", program, built(44))


def test_completions(program):
    none_wrong(compare_completions, program)


def test_files_of_a_release_in_new_roots():
    """What packaging/release_roots takes by a pattern is what the page of releases has: one file,
    or both packages of the library."""
    page = (ROOT / "docs/releases.md").read_text(encoding="utf-8")
    rows = re.findall(r"(?m)^\| (`.*?`) \|", page)
    names = [name for row in rows for name in re.findall(r"`([^`]*)`", row)]
    script = (ROOT / "packaging/release_roots").read_text(encoding="utf-8")
    patterns = re.findall(r"release/([\w.*-]*\*[\w.*-]*)", script)
    assert len(patterns) == 4
    for pattern in patterns:
        taken = fnmatch.filter(names, pattern)
        assert len(taken) == (2 if pattern == "libbearoff*.deb" else 1), (pattern, taken)
