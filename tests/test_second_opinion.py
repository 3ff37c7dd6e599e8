"""The second opinion, which Coq proves in second_opinion/ of the definitions that the contracts
have. Its theorems rest on no axiom; Coq runs its check over files that the program wrote; the
checker that Coq extracts says of each file what the program says; what is planted, in a definition
or in a file, is refused; and the page docs/second-opinion.md says so."""

import concurrent.futures
import itertools
import os
import re
import shutil
import subprocess

import pytest

from running import ROOT, SLOWER, expect, need, run, succeed

SOURCES = ROOT / "second_opinion"
SPECS = ROOT / "crates/race_model/specs"
CLOSED = "Closed under the global context\n"

# what proves and what is proved with one another; and a prover is asked
pytestmark = [pytest.mark.xdist_group("second_opinion"), pytest.mark.proved]


def need_coq():
    """There is Coq, of the version for which the proofs are written."""
    need("coqc")
    if "version 8.16." not in succeed("coqc", "--version").decode("utf-8"):
        pytest.skip("this Coq is not of version 8.16")


@pytest.fixture(scope="module")
def proof(tmp_path_factory):
    """A folder in which all is proved, with the checker; and what Coq said."""
    need_coq()
    folder = tmp_path_factory.mktemp("second_opinion")
    return folder, succeed(SOURCES / "prove", folder, timeout=900).decode("utf-8")


@pytest.fixture(scope="module")
def coqchk(proof):
    """The check of what was proved, which takes minutes and runs beside the other tests."""
    words = "coqchk -silent -o -R . SecondOpinion SecondOpinion.Theorems".split()
    process = subprocess.Popen(
        words, cwd=proof[0], stdout=subprocess.PIPE, stderr=subprocess.STDOUT
    )
    yield process
    process.kill()
    process.communicate()


def lines_of(path, comment):
    """The lines of a source without comments."""
    text = re.sub(comment, "", path.read_text(encoding="utf-8"))
    return sum(1 for line in text.split("\n") if line.strip())


def test_the_page():
    """The page says how much there is to read, which files there are, and which lemmas fail."""
    page = (ROOT / "docs/second-opinion.md").read_text(encoding="utf-8")
    stated = re.search(r"Prelude\.v\), (\d+) lines .*?translate\.py\), (\d+) lines", page)
    assert stated and [int(number) for number in stated.groups()] == [
        lines_of(SOURCES / "Prelude.v", r"(?s)\(\*.*?\*\)"),
        lines_of(SOURCES / "translate.py", r'(?m)^ *#.*$|"""(?s:.*?)"""'),
    ]
    rows = re.search(r"(?s)\n\| Change \| Lemma that fails \|\n(.*)", page)[1]
    assert re.findall(r"(?m)^\| (.*) \| `(\w+)` \|$", rows) == [
        (what, lemma) for what, (_, _, _, lemma) in PLANTED_DEFINITIONS.items()
    ]
    for path in SOURCES.iterdir():
        assert f"](../second_opinion/{path.name})" in page or path.name == "prove"


@pytest.fixture(scope="module")
def checker(proof):
    return proof[0] / "check"


@pytest.fixture(scope="module")
def small_board(whole, tmp_path_factory):
    """The board file of 8 pips: its 64 records begin the whole one."""
    data = bytearray(whole.read_bytes()[:6232])
    data[10:16] = (8).to_bytes(2, "big") + (64).to_bytes(4, "big")
    path = tmp_path_factory.mktemp("boards") / "board_8"
    path.write_bytes(data)
    return path


def test_no_axiom(proof, coqchk):
    """Coq lists no axiom under any theorem of Theorems.v, and no source has one."""
    wanted = (SOURCES / "Theorems.v").read_text(encoding="utf-8").count("Print Assumptions")
    said = [line for line in proof[1].splitlines() if not line.startswith("second opinion: ")]
    assert said == [CLOSED.strip()] * wanted
    for path in SOURCES.glob("*.v"):
        found = re.findall(
            r"\b(?:Axiom|Parameter|Conjecture|Admitted|admit|Admit)\b",
            re.sub(r"(?s)\(\*.*?\*\)", "", path.read_text(encoding="utf-8")),
        )
        assert not found, f"{path.name}: {found}"


def proved_by_coq(folder, path):
    """Has Coq prove that a file is right, and tells what it said."""
    text = succeed(SOURCES / "export.py", path)
    lines = re.findall(rb'(?m)^"([0-9a-f]*)"%hex;?$', text)
    assert bytes.fromhex(b"".join(lines).decode("ascii")) == path.read_bytes()
    (folder / "File.v").write_bytes(text)
    return run("coqc", "-q", "-R", ".", "SecondOpinion", "File.v", cwd=folder, timeout=600)


def test_coq_checks_files(proof, built, small_board):
    """The three versions of 8 pips."""
    for path in (built(8), built(8, is_new=True), small_board):
        expect(proved_by_coq(proof[0], path), output=CLOSED)


@pytest.mark.by_hand
def test_coq_checks_a_larger_file(proof, built):
    expect(proved_by_coq(proof[0], built(15)), output=CLOSED)


def accepts(checker, path):
    """What the checker says of a file."""
    done = run(checker, path, timeout=900)
    expect(done, done.status, {0: "right", 3: "refused"}[done.status])
    return done.status == 0


def test_the_checker_accepts(checker, built, small_board):
    for path in (built(0), built(8), built(8, is_new=True), small_board, built(20)):
        assert accepts(checker, path)


@pytest.mark.by_hand
def test_the_checker_accepts_the_largest(checker, built, whole, note):
    for path in (built(44), built(44, is_new=True), built(58), whole):
        assert accepts(checker, path)


# a file of version 1 of 8 pips, as numbers in it

RECORD = 426
ROLLS = [(high, low) for high in range(1, 7) for low in range(1, high + 1)]
WEIGHTS = [1 if high == low else 2 for high, low in ROLLS]
POSITIONS = sorted(
    (counts for counts in itertools.product(range(9), repeat=6)
     if sum(point * count for point, count in enumerate(counts, 1)) <= 8),
    key=lambda counts: (sum(point * count for point, count in enumerate(counts, 1)), counts),
)  # fmt: skip


class Table:
    """The bytes of such a file, to be read and changed."""

    def __init__(self, data):
        self.data = bytearray(data)

    def get(self, rank, offset, size):
        first = 32 + RECORD * rank + offset
        return int.from_bytes(self.data[first : first + size], "big")

    def put(self, rank, offset, size, value):
        first = 32 + RECORD * rank + offset
        self.data[first : first + size] = value.to_bytes(size, "big")

    def mean(self, rank):
        return self.get(rank, 0, 16)

    def play(self, rank, roll):
        return self.get(rank, 16 + 2 * roll, 2)

    def share(self, rank, k):
        return self.get(rank, 58 + 16 * k, 16)

    def put_play(self, rank, roll, to):
        """Another play, with the mean and the shares that follow from it."""
        self.put(rank, 16 + 2 * roll, 2, to)
        ranks = [self.play(rank, each) for each in range(21)]
        added = lambda number: sum(w * number(r) for w, r in zip(WEIGHTS, ranks)) // 36
        self.put(rank, 0, 16, 36**22 + added(self.mean))
        for k in range(22):
            self.put(rank, 58 + 16 * (k + 1), 16, added(lambda r: self.share(r, k)))


@pytest.fixture(scope="module")
def choices(program, built):
    """Of each of the last positions and each roll the ranks that it can lead to, with the loss."""
    lines = [
        (rank, roll)
        for rank, counts in enumerate(POSITIONS)
        for roll in range(21)
        if sum(point * count for point, count in enumerate(counts, 1)) == 8
    ]
    asked = "\n".join(
        f"moves {','.join(map(str, POSITIONS[rank]))} {ROLLS[roll][0]}{ROLLS[roll][1]}"
        for rank, roll in lines
    )
    replies = succeed(program, "query", built(8), input=asked).decode("ascii").splitlines()
    assert len(replies) == len(lines)
    found = {}
    for line, reply in zip(lines, replies):
        pairs = [pair.split(":") for pair in reply.split()[1:]]
        found[line] = {
            POSITIONS.index(tuple(map(int, to.split(",")))): loss == "0/1" for to, loss in pairs
        }
    return found


def a_play(table, choices, is_as_good):
    """A roll of a position, and another play of it that is as good as the recorded one, or
    worse."""
    return next(
        (rank, roll, to)
        for (rank, roll), results in choices.items()
        for to, is_good in results.items()
        if to != table.play(rank, roll) and is_good == is_as_good
    )


def flip(place):
    """The last bit of a byte of the header is turned."""

    def planted(table, choices):
        table.data[place] ^= 1

    return planted


def one_more(rank, offset, size):
    def planted(table, choices):
        table.put(rank, offset, size, table.get(rank, offset, size) + 1)

    return planted


def another_play(is_as_good):
    def planted(table, choices):
        table.put_play(*a_play(table, choices, is_as_good))

    return planted


def a_worse_play_alone(table, choices):
    rank, roll, to = a_play(table, choices, False)
    table.put(rank, 16 + 2 * roll, 2, to)


def no_result(table, choices):
    table.put(63, 16, 2, 62)


def no_rank(table, choices):
    table.put(63, 16, 2, 64)


def a_byte_more(table, choices):
    table.data += b"\0"


def a_record_less(table, choices):
    del table.data[-RECORD:]


PLANTED_FILES = {
    "nothing": (True, lambda table, choices: None),
    "another play that is as good": (True, another_play(True)),
    "a worse play, and the numbers that follow from it": (False, another_play(False)),
    "a worse play alone": (False, a_worse_play_alone),
    "a play to no result of the roll": (False, no_result),
    "a play to no rank": (False, no_rank),
    "a mean that is 1 more": (False, one_more(40, 0, 16)),
    "the mean of the finished position": (False, one_more(0, 0, 16)),
    "a share that is 1 more": (False, one_more(63, 58 + 16 * 2, 16)),
    "a share of 22 rolls": (False, one_more(63, 58 + 16 * 22, 16)),
    "a share of no roll": (False, one_more(63, 58, 16)),
    "the magic": (False, flip(0)),
    "the version": (False, flip(9)),
    "the bound": (False, flip(11)),
    "the count": (False, flip(15)),
    "the bytes of a record": (False, flip(19)),
    "the reserved bytes": (False, flip(31)),
    "a byte more": (False, a_byte_more),
    "a record less": (False, a_record_less),
}


@pytest.mark.parametrize("what", PLANTED_FILES)
def test_planted_files(checker, program, built, choices, tmp_path, what):
    """The checker and the program say the same of a file."""
    is_right, plant = PLANTED_FILES[what]
    table = Table(built(8).read_bytes())
    plant(table, choices)
    path = tmp_path / "planted"
    path.write_bytes(table.data)
    assert (what != "nothing") == (table.data != built(8).read_bytes())
    assert accepts(checker, path) == is_right
    assert run(program, "check", path).status == (0 if is_right else 3)


def test_coq_refuses(proof, built, choices, tmp_path):
    """Coq itself has no proof for a file with a worse play."""
    table = Table(built(8).read_bytes())
    another_play(False)(table, choices)
    (tmp_path / "worse").write_bytes(table.data)
    done = proved_by_coq(proof[0], tmp_path / "worse")
    assert done.status == 1 and b"file_is_right" not in done.output


# what is planted in a definition: the file, what stands there once, what stands there then, and
# where a proof of Coq fails
PLANTED_DEFINITIONS = {
    "each checker counts one pip": (
        "Positions", "= p * c + pips_from", "= 1 * c + pips_from", "pips_same"
    ),
    "the rolls begin with index 1": ("Dice", "+ low - 1", "+ low", "roll_index_same"),
    "a checker is borne off from any lower point": (
        "Plays", "→ IsHighest x s →", "→ 0 < count x s →", "Step_same"
    ),
    "only the greater die first": (
        "Plays", "(v.second ∷ v.first ∷ [])", "(v.first ∷ v.second ∷ [])", "Legal_same"
    ),
    "a strategy may stop early": (
        "Strategies", "Fits stop x = IsFinished x", "Fits stop x = Unit {0}", "Fits_lift"
    ),
    "a throw after the end counts": ("Strategies", "rolls stop w = 0", "rolls stop w = 1", "rolls_lift"),
    "a right mean need not be the least": (
        "Strategies", "→ t ≤ total_over m s", "→ 0 ≤ total_over m s", "Least_same"
    ),
    "a game may take a roll more": ("Horizon", "+ 1 + 5) / 6", "+ 7 + 5) / 6", "most_rolls_same"),
    "more pips come first": (
        "Ranks", "nat_lt (pips y) (pips x) ||", "nat_lt (pips x) (pips y) ||", "is_before_same"
    ),
    "a file of version 2 has at most 57 pips": (
        "Versions", "greatest_bound compact = 58", "greatest_bound compact = 57", "greatest_same"
    ),
    "a share is not asked": ("Books", "→ k ≤ suc f.further →", "→ suc k ≤ f.further →", "Right_same"),
    "the plays stand a byte later": ("Files", "(16 + 2 * roll)", "(17 + 2 * roll)", "database_play"),
    "a count is of a sequence more": ("BoardFiles", "36 ^ (33 - k)", "36 ^ (34 - k)", "book_same"),
    "a lower part may be as large as one of the upper": (
        "WrittenNumbers", "(rank x))).lower < 36", "(rank x))).lower ≤ 36", "right_by_checker"
    ),
    "numbers need not be written in the one way": (
        "RightFiles", "→ kind.written f x", "→ Unit {0}", "right_by_checker"
    ),
}  # fmt: skip


def planted_in(folder, name, old, new):
    """The sources with a definition that is turned: the folder of Coq's, and that of ours."""
    coq, ours = folder / "second_opinion", folder / "crates/race_model/specs"
    shutil.copytree(SOURCES, coq)
    shutil.copytree(SPECS, ours)
    text = (ours / name).read_text(encoding="utf-8")
    assert text.count(old) == 1
    (ours / name).write_text(text.replace(old, new), encoding="utf-8")
    return coq, ours


@pytest.mark.parametrize("what", PLANTED_DEFINITIONS)
def test_planted_definitions(tmp_path, what):
    """Coq's text is made anew, and a proof fails of it: that of the lemma that is named. Coq goes
    over the proofs of the files that compare, and takes those between them as they are stated."""
    need_coq()
    name, old, new, lemma = PLANTED_DEFINITIONS[what]
    coq, ours = planted_in(tmp_path, f"{name}.antt", old, new)
    assert failing(coq, succeed(coq / "translate.py", ours)) == lemma


def failing(coq, specs):
    """The lemma whose proof fails, of sources with this text of the definitions; None if none does."""
    (coq / "Specs.v").write_bytes(specs)
    names = re.search(r"for name in ([^;]*);", (coq / "prove").read_text(encoding="utf-8"))[1]
    steps = [
        (each, how)
        for each in names.replace("\\", "").split()
        for how in (["-vok", "-vos"] if each[:4] in ("Same", "Theo") else ["-vos"])
    ]
    for each, how in steps:
        words = ("coqc", how, "-q", "-R", ".", "SecondOpinion", f"{each}.v")
        done = run(*words, cwd=coq, timeout=900)
        if done.status:
            place = re.search(rb'File "\./(\w+\.v)", line (\d+)', done.errors)
            assert done.status == 1 and place, done
            failed = (coq / place[1].decode("ascii")).read_text(encoding="utf-8")
            above = "\n".join(failed.split("\n")[: int(place[2])])
            return re.findall(r"(?m)^(?:Lemma|Theorem|Definition) (\w+)", above)[-1]
    return None


# what each value of a definition is turned to, by its type in Coq; a proposition to what it denies,
# and to what always holds
ONE = "{| Throw_first := one; Throw_second := one |}"
TURNED = {
    "nat": "S X", "bool": "negb X", "list nat": "1 :: X", "Board": "1 :: X", "Throw": ONE,
    "list (list nat)": "[] :: X", "list (list Throw)": "[] :: X", "list Die": "one :: X",
    "list Throw": f"{ONE} :: X", "Strategy": "turn (fun _ => finished) (fun _ => X)",
    "Version": "match X with full => compact | compact => full end",
    "Layout": "{| Layout_number := S (Layout_number X); Layout_greatest := Layout_greatest X;"
    " Layout_stated := Layout_stated X; Layout_place := Layout_place X |}",
    "Parts": "{| Parts_upper := S (Parts_upper X); Parts_lower := Parts_lower X |}",
    "Book": "{| Book_further := S (Book_further X); Book_bound := Book_bound X; Book_means :="
    " Book_means X; Book_plays := Book_plays X; Book_shares := Book_shares X |}",
    "Kind": "{| Kind_layout := Kind_layout X; Kind_written := fun _ _ => False; Kind_book :="
    " Kind_book X |}",
}  # fmt: skip


def turned(specs):
    """Coq's text of the definitions with one of them turned: a value, a field or a premise."""
    blocks = re.split(r"(?m)^(?=Definition|Fixpoint|Inductive|Record|\(\*\*)", specs)
    for i, block in enumerate(blocks):
        whole = lambda new: "".join([*blocks[:i], new, *blocks[i + 1 :]])
        head = re.match(
            r"(?:Definition|Fixpoint) (\w+)((?: \(.*?\))*)(?: \{.*?\})? : (.*) :=\n", block
        )
        if head and head[3] != "Set":
            name, given, kind = head.groups()
            value = f"({name}_own {' '.join(re.findall(r' .(' + chr(92) + r'w+) :', given))})"
            *arguments, result = kind.split(" -> ")
            names = " ".join(f"z{k}" for k, _ in enumerate(arguments))
            value = f"({value} {names})"
            for new in ["~ X", "True"] if result == "Prop" else [TURNED[result]]:
                new = f"fun {names} => {new}" if names else new
                yield name, whole(
                    re.sub(rf"\b{name}\b", f"{name}_own", block)
                    + f"Definition {name}{given} : {kind} := {new.replace('X', value)}.\n"
                )
        elif re.match(r"Record \w+.* : Prop :=|Inductive .* : Prop :=", block):
            row = r"(?m)^(?:  |\| )(\w+) : (.*?)( \}\.|;|\.|)$"
            for found in re.finditer(row, block):
                parts = re.split(r" -> (?![^()]*\))", found[2])
                for k in range(len(parts) - (block[0] == "I")):
                    new = " -> ".join([*parts[:k], "True", *parts[k + 1 :]])
                    new = "True" if block[0] == "R" else new
                    yield found[1], whole(block[: found.start(2)] + new + block[found.end(2) :])


@pytest.mark.by_hand
def test_each_definition(tmp_path):
    """Each of the definitions is turned, and a proof fails."""
    need_coq()
    specs = succeed(SOURCES / "translate.py", SPECS).decode("utf-8")
    found = list(turned(specs))
    assert len({name for name, _ in found}) > 130

    def lemma(row):
        coq = tmp_path / f"{row}"
        shutil.copytree(SOURCES, coq)
        failed = failing(coq, found[row][1].encode())
        shutil.rmtree(coq)
        return failed

    with concurrent.futures.ThreadPoolExecutor(os.cpu_count()) as pool:
        failed = pool.map(lemma, range(len(found)))
        assert not [name for (name, _), it in zip(found, failed) if it is None]


# what the script can't read: the file, what stands there once, what stands there then, and what
# the script names
UNREAD = {
    "a sign": ("Positions", "≡ 6", "≅ 6", "length x ≅ 6"),
    "another kind of definition": ("Ranks", "unfoldable pub boards", "opaque boards", "opaque boards"),
    "a word of the kit": ("Dice", "min, max,", "min, max, pred,", "use Rattle.std.specs.Prelude"),
    "a word by another name": ("Plays", "{Die, number,", "{Die, weight as number,", "weight as number"),
    "a field": ("BoardFiles", "{ number = 3;", "{ numeral = 3;", "numeral"),
    "a choice": ("Horizon", "most_rolls zero = 0", "most_rolls zero = case 0", "case 0"),
    "an arrow": ("Strategies", "s ≡ t)", "s ≡ (((t)))) → Unit {0}", "(((t)))) → True"),
}  # fmt: skip


@pytest.mark.parametrize("what", UNREAD)
def test_what_is_not_read(tmp_path, what):
    """The script names the file and what it can't read, and fails."""
    name, old, new, named = UNREAD[what]
    coq, ours = planted_in(tmp_path, f"{name}.antt", old, new)
    done = run(coq / "translate.py", ours)
    said = done.errors.decode("utf-8")
    assert done.status == 1 and said.startswith(f"{name}.antt: can't be read: "), done
    assert named in said


def test_coqchk(coqchk):
    """Another program of Coq goes over what was proved, with the library, and finds no axiom."""
    said, _ = coqchk.communicate(timeout=1500 * SLOWER)
    assert coqchk.returncode == 0, said.decode("utf-8")
    assert b"* Axioms: <none>" in said, said.decode("utf-8")
