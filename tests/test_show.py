"""What `show` prints of positions, in decimals and as JSON, beside the replies to queries."""

import json
import random
import subprocess
from fractions import Fraction
from math import sqrt

import pytest

from running import expect, run

XGID = "XGID=-ABC--D------------a-b--c-:0:0:1:21:0:0:0:0:10"
SHOWN = """                    on roll       other player
position            1,2,3,0,0,4   3,0,0,2,0,1
pips                38            17
EPC                 49.704        28.871
wastage             11.704        11.871
expected rolls      6.086         3.535
standard deviation  0.921         0.621
in 2 rolls          0.0 %         5.6 %
in 3 rolls          0.7 %         36.7 %
in 4 rolls          4.3 %         56.5 %
in 5 rolls          18.1 %        1.3 %
in 6 rolls          42.5 %        0.0 %
in 7 rolls          31.4 %        0.0 %
in 8 rolls          2.9 %         0.0 %
in 9 rolls          0.1 %         0.0 %
plays of 21         cost in rolls
 2/off 1/off        0.000         0,1,3,0,0,4
 2/off 6/5          0.040         1,1,3,0,1,3
"""
TWO = """                    on roll
position            0,0,0,2,0,0
pips                8
EPC                 13.964
wastage             5.964
expected rolls      1.710
standard deviation  0.487
in 1 roll           30.6 %
in 2 rolls          67.9 %
in 3 rolls          1.5 %
"""
PLAYS = """plays of 21         cost in rolls
 4/2 2/1            0.000         1,0,0,1,0,0
 4/2 4/3            0.111         0,1,1,0,0,0
"""
NO_TEXT = "error: neither an XGID, a GNU Backgammon ID nor six counts, as 0,0,0,2,0,0\n"
CASE = "error: an XGID begins with XGID= in capitals, and its case tells whose checkers they are\n"
NONE = "bearoff: unanswered (positions: XGID, ID or six counts)"


def thousandths(number):
    """A number in thousandths as text, rounded half up."""
    rounded = (2000 * number.numerator + number.denominator) // (2 * number.denominator)
    return f"{rounded // 1000}.{rounded % 1000:03}"


def fractions_of(shown):
    """The exact number of each pair of one and its decimals, which have to be those of it."""
    exact = Fraction(shown["exact"])
    assert shown["exact"] == f"{exact.numerator}/{exact.denominator}"
    assert f"{shown['decimal']:.3f}" == thousandths(exact)
    return exact


def test_an_xgid(program):
    done = run(program, "show", XGID)
    assert (done.status, done.errors) == (0, b"") and done.output.decode().startswith(SHOWN)


@pytest.mark.parametrize(
    "words, output",
    [
        (["0,0,0,2,0,0"], TWO),
        ([" 0,0,0,2,0,0 ", "21"], TWO + PLAYS),
        (["0,0,0,2,0,0", "1-2"], TWO + PLAYS),
        (["eight", "0,0,0,2,0,0", "12"], TWO + PLAYS),
        (["0,0,0,2,0,0", "0,0,0,2,0,0"], f"{TWO}\n{TWO}"),
        (["0,0,0,2,0,0", "nonsense"], f"{TWO}\n{NO_TEXT}"),
        (["--", "0,0,0,2,0,0"], TWO),
    ],
)
def test_words(files, program, words, output):
    expect(run(program, "show", *words), 0, output + "\n")


@pytest.mark.parametrize("kind", ["database", "board file"])
def test_all_numbers(program, built, whole, kind):
    """Each number of 60 positions beside what queries reply: the dice of a word or of no word."""
    file = {"database": built(44), "board file": whole}[kind]
    most = 44 if kind == "database" else 90
    drawn = random.Random(20261130)
    texts = []
    while len(texts) < 60:
        counts = [drawn.choice((0, 0, 1, 2, 3, 5)) for _ in range(6)]
        pips = sum(point * count for point, count in enumerate(counts, 1))
        if 0 < sum(counts) <= 15 and pips <= most:
            texts.append(",".join(map(str, counts)))
    dice = [f"{high}{low}" for high in range(1, 7) for low in range(1, high + 1)]
    for roll in drawn.sample(dice, 3):
        asked = "".join(f"mean {it}\ndist {it}\nmoves {it} {roll}\n" for it in texts)
        replies = run(program, "query", file, input=asked.encode()).output.decode().split("\n")
        done = run(program, "show", "--json", file, "-", roll, input="\n".join(texts).encode())
        assert (done.status, done.errors) == (0, b"")
        lines = done.output.decode().split("\n")
        assert lines.pop() == "" and len(lines) == len(texts)
        for place, (text, line) in enumerate(zip(texts, lines)):
            shown = json.loads(line)
            compare(text, shown["on_roll"], replies[3 * place : 3 * place + 2])
            assert shown["roll"] == roll and "other" not in shown
            moves = [it.rsplit(":", 1) for it in replies[3 * place + 2].split(" ")[1:]]
            assert [[it["to"], str(it["cost"]["exact"])] for it in shown["plays"]] == moves
            for it in shown["plays"]:
                fractions_of(it["cost"])


def compare(text, side, replies):
    """What is shown of a position beside the replies to `mean` and `dist`."""
    _, mean, _, epc, _ = replies[0].split(" ")
    pips = sum(point * int(count) for point, count in enumerate(text.split(","), 1))
    assert (side["position"], side["pips"]) == (text, pips)
    assert fractions_of(side["rolls"]) == Fraction(mean)
    assert fractions_of(side["epc"]) == Fraction(epc)
    assert f"{side['wastage']:.3f}" == thousandths(Fraction(epc) - pips)
    shares = {int(rolls): fractions_of(share) for rolls, share in side["shares"].items()}
    told = (it.split(":") for it in replies[1].split(" ")[1:])
    assert shares == {int(rolls): Fraction(share) for rolls, share in told}
    variance = sum(share * (rolls - Fraction(mean)) ** 2 for rolls, share in shares.items())
    assert abs(side["standard_deviation"] - sqrt(variance)) < 0.000502


def test_the_dice_of_an_xgid(program):
    """The dice and the other player come from the text, and a word takes the place of the dice."""
    shown = json.loads(run(program, "show", "--json", XGID).output)
    assert shown["roll"] == "21" and shown["other"]["position"] == "3,0,0,2,0,1"
    assert shown["plays"][0]["moves"] == "2/off 1/off"
    other = json.loads(run(program, "show", "--json", XGID, "6-6").output)
    assert other["roll"] == "66" and other["plays"][0]["moves"] == "6/off 6/off 6/off 6/off"
    assert b"\n 6/off 6/off 6/off 6/off 0.000" in run(program, "show", XGID, "66").output


@pytest.mark.parametrize(
    "words, status, output, error",
    [
        (["nonsense"], 1, NO_TEXT, NONE),
        ([XGID.lower()], 1, CASE, NONE),
        (["21"], 1, NO_TEXT, NONE),
        (["16,0,0,0,0,0"], 1, "error: a player has more than 15 checkers\n", NONE),
        (["nothing", "0,0,0,2,0,0"], 1, None, "bearoff: open"),
        (["bad", "0,0,0,2,0,0"], 3, None, "bearoff: refused spread rank 2 k 22"),
        (
            ["eight", "0,0,0,0,0,2"],
            1,
            "error: more pips than the file, which has positions of up to 8\n",
            NONE,
        ),
    ],
)
def test_what_has_no_answer(files, program, words, status, output, error):
    data = bytearray(open("eight", "rb").read())
    data[16 + 3 * 426 + 15] ^= 1
    open("bad", "wb").write(data)
    done = run(program, "show", *words)
    assert (done.status, done.output.decode()) == (status, "" if output is None else output + "\n")
    assert done.errors.decode() == error + "\n"


@pytest.mark.parametrize("form, error", [([], NO_TEXT + "\n"), (["--json"], '{"error":"neither')])
def test_an_input(program, form, error):
    """Each line has its answer in its place, an empty one and one that is no UTF-8 text, too."""
    lines = [b"0,0,0,2,0,0", b"", b"\xff", b"0,0,0,2,0,0"]
    done = run(program, "show", *form, "-", input=b"\n".join(lines))
    answers = [run(program, "show", *form, "0,0,0,2,0,0").output.decode()] * 2
    assert done.status == 0 and done.output.decode().startswith(answers[0] + error)
    assert done.output.decode().endswith(answers[1])
    assert run(program, "show", "-", input=b"").status == 1


def test_an_input_that_is_too_long(program):
    expect(run(program, "show", "-", input=b"\n" * 20_000_001), 1, "", "bearoff: turns")


def test_ten_thousand(program, note):
    """Ten thousand XGIDs, each on its line."""
    text = "\n".join([XGID] * 10_000).encode()
    done = run(program, "show", "--json", "-", input=text, timeout=120)
    assert done.status == 0 and len(set(done.output.split(b"\n"))) == 2
    assert done.output.count(b"\n") == 10_000


def test_a_full_output(program, full):
    with open(full, "wb") as output:
        done = subprocess.run([program, "show", XGID], stdout=output, stderr=subprocess.PIPE)
    assert (done.returncode, done.stderr) == (1, b"bearoff: write\n")
