"""Compares the lessons of the page with the program.

Each number in a lesson that has three decimals or is a fraction has to be one of the step's own:
the mean, the effective pip count or the wastage of its position, a number of the program's replies
to the lines that stand behind `from:` in the step, or one that an earlier step of the lesson had.
Any other number in digits has to be a pip count of such a position, or what the ace-stack rule
says of it; and so many checkers, or so many on a point, have to be there. A difference stands
behind `from:`, as in `51.943 - 49.679 > 2` or `158/81 - 1/1 = 77/81`, and has to hold of such
numbers. A roll that is asked has to have more than one play. The page, docs/page.md, has to
name the lessons in their order. What a third checker costs at most is compared too, and what a rule
of thumb estimates where a step names one."""

import itertools
import re
import subprocess
from fractions import Fraction

import pytest

from running import ROOT

TEXT = (ROOT / "web/lessons.txt").read_text(encoding="utf-8")


@pytest.fixture(scope="module")
def replies(program, board):
    """What the program replies to lines about the whole board, which it checks once."""
    words, pipe = [program, "query", "--board", board(90)], subprocess.PIPE
    with subprocess.Popen(words, stdin=pipe, stdout=pipe, encoding="ascii") as asked:

        def told(lines):
            asked.stdin.write("".join(f"{line}\n" for line in lines))
            asked.stdin.flush()
            return [asked.stdout.readline().rstrip("\n") for _ in lines]

        yield told


def nearest(number):
    """In thousandths, a half up, as a decimal."""
    whole = (2000 * number.numerator + number.denominator) // (2 * number.denominator)
    return f"{whole // 1000}.{whole % 1000:03}"


def numbers(replies, position):
    """The mean and the effective pip count of a position, exactly, and all its numbers as they may
    be told."""
    _, mean, _, exact, told = replies([f"mean {position}"])[0].split()
    pips = sum(point * int(count) for point, count in enumerate(position.split(","), 1))
    assert nearest(Fraction(exact)) == told, f"{position}: {told} isn't {exact}"
    return Fraction(exact), {
        mean,
        exact,
        nearest(Fraction(mean)),
        told,
        nearest(Fraction(exact) - pips),
    }


def steps_of(text):
    """Each lesson's title and its steps: the position, the roll, the lines of `from:`, and the
    words."""
    lessons = []
    for line in text.splitlines():
        word, _, value = line.partition(": ")
        if word == "lesson":
            lessons.append((value, []))
        elif word == "step":
            lessons[-1][1].append({"at": value, "from": [], "words": ""})
        elif word == "from":
            lessons[-1][1][-1]["from"].append(value)
        elif word in ("roll", "rule", "estimate"):
            lessons[-1][1][-1][word] = value
        elif line:
            lessons[-1][1][-1]["words"] += f" {line}"
    return lessons


# what is no number of a position: a position, a move, a roll, the rule's own words
PASSED_OVER = re.compile(r"(\d+,){5}\d+|\b[1-6]/(off|[1-5])\b|\b[1-6]-[1-6]\b|7n \+ 1|\b8\.5\b")
COUNTS = "no one two three four five six seven eight nine ten eleven twelve".split()
COUNTS += ["thirteen", "fourteen", "fifteen"]
POINTS = ["ace", *COUNTS[2:7]]
CHECKERS = re.compile(
    rf"(?<!over )\b({'|'.join(COUNTS)}) (?:checkers\b|on the ({'|'.join(POINTS)}) point)",
    re.IGNORECASE,
)
COMPARED = re.compile(r"([\d./]+) - ([\d./]+) ([>=]) ([\d./]+)")


def rule_of(count):
    """What the ace-stack rule says of so many checkers."""
    return 7 * ((count + 1) // 2) + 1


def estimates_of(board):
    """What the rules of thumb say of a board: pips and eight, the pips with Tom Keith's additions
    and 8.5, and seven for each roll without a double, and one."""
    pips = sum(point * count for point, count in enumerate(board, 1))
    ace, deuce, three, *high = board
    added = 2 * max(0, ace - 1) + max(0, deuce - 1) + max(0, three - 3) + high.count(0)
    return {str(pips + 8), f"{pips + added + 8.5:.1f}", str(rule_of(sum(board)))}


def faults_of(words, known, boards, estimated=()):
    """What a step says that is not so, where its numbers are known, its boards were shown or named,
    and the numbers of some are estimated."""
    left = PASSED_OVER.sub(lambda passed: passed[0] if passed[0] in known else " ", words)
    whole = {str(sum(point * count for point, count in enumerate(board, 1))) for board in boards}
    whole |= {str(rule_of(board[0])) for board in boards if board[0] == sum(board)}
    whole |= set().union(*map(estimates_of, estimated))
    for number in re.findall(r"\d+(?:/\d+|\.\d+)?", left):
        if number not in known | whole:
            yield f"{number} is none of the program's"
    for count, point in CHECKERS.findall(words):
        number = COUNTS.index(count.lower())
        have = [board[POINTS.index(point.lower())] if point else sum(board) for board in boards]
        if number not in have:
            yield f"no position has {count} {point or 'checkers'}"


LESSONS = steps_of(TEXT)


@pytest.mark.parametrize("title, steps", LESSONS, ids=[title for title, _ in LESSONS])
def test_lesson(replies, title, steps):
    known, boards, wrong = {"49/6"}, [], []
    for number, step in enumerate(steps, 1):
        said = []
        words = f"{step['words']} {step['from']}"
        named = [step["at"], *re.findall(r"\d+(?:,\d+){5}", words)]
        boards += [list(map(int, position.split(","))) for position in named]
        known |= numbers(replies, step["at"])[1]
        lines = [line for line in step["from"] if not COMPARED.fullmatch(line)]
        for line, reply in zip(lines, replies(lines)):
            if reply.startswith("error"):
                said.append(f"{line}: {reply}")
            told = re.findall(r"\d+/\d+|\d+\.\d{3}", reply)
            known |= {*told, *(nearest(Fraction(one)) for one in told if "/" in one)}
        for line in step["from"]:
            if line in lines:
                continue
            one, other, sign, least = COMPARED.fullmatch(line).groups()
            more, least_of = Fraction(one) - Fraction(other), Fraction(least)
            is_so = more > least_of if sign == ">" else more == least_of
            if not {one, other} <= known or not is_so:
                said.append(f"{line} doesn't hold")
            elif sign == "=":
                known.add(least)
        said += faults_of(step["words"], known, boards, boards[-1:] if "rule" in step else ())
        if "roll" in step:
            plays = replies([f"moves {step['at']} {step['roll']}"])[0].split()
            if len(plays) < 3:
                said.append(f"{step['roll']} has nothing to decide")
        wrong += [f"step {number}: {fault}" for fault in said]
    assert not wrong, "\n".join(wrong)


def test_a_third_checker(replies):
    """What a checker that joins any two costs: the mean with it, less that without it."""
    joined = [
        ((*pair, third), pair)
        for pair in itertools.combinations_with_replacement(range(6), 2)
        for third in range(6)
    ]
    asked = [
        ",".join(str(points.count(point)) for point in range(6))
        for both in joined
        for points in both
    ]
    lines = [f"mean {position}" for position in asked]
    means = [Fraction(reply.split()[1]) for reply in replies(lines)]
    dearest = max(three - two for three, two in zip(means[::2], means[1::2]))
    said = rf"\b{dearest} of a roll\. No third checker costs more"
    assert re.search(said, " ".join(TEXT.split())), f"a third checker costs at most {dearest}"


def test_the_page_names_the_lessons():
    page = (ROOT / "docs/page.md").read_text(encoding="utf-8")
    named = re.findall(r'(?m)^\d+\. .*bearoff\.html#lesson=\d+">([^<]*)</a>', page)
    assert named == [title for title, _ in LESSONS]
