"""Compares the numbers of the whole board with Python's integers: crates/number_trials computes
what lines ask, and each reply has to be what comes out here: to ten thousand random lines of each
kind, by hand a million, and to all edges."""

import itertools
import math
import random

import pytest

from running import ROOT, run

PART = 36**11
WHOLE = 36**33
MOST = 33 * WHOLE
WEIGHTS = [1, 2, 1, 2, 2, 1, 2, 2, 2, 1, 2, 2, 2, 2, 1, 2, 2, 2, 2, 2, 1]

# a number near whose multiples something changes: a part, a whole, and the most of each kind
EDGES = sorted(
    max(0, number + step)
    for number in (0, PART, 36 * PART, 36**22, WHOLE, 32 * WHOLE, MOST, 36 * MOST)
    for step in (-PART, -36, -1, 0, 1, 36, PART)
)


def parts(number):
    return number // PART, number % PART


def any_number(chance, most):
    """A number of up to so much, of any length, and now and then an edge or a round one."""
    kind = chance.random()
    if kind < 0.1:
        return min(chance.choice(EDGES), most)
    number = chance.randrange(most + 1)
    if kind < 0.3:
        return number >> chance.randrange(most.bit_length() + 1)
    if kind < 0.5:
        return number - number % chance.choice([36, 36**2, PART, 36**22])
    return number


def any_parts(chance, most):
    """Two parts, of which now and then one is out of its range."""
    upper, lower = parts(any_number(chance, most))
    kind = chance.random()
    if kind < 0.02:
        lower = chance.choice([PART, PART + 1, 2**64 - 1])
    elif kind < 0.04:
        upper = chance.choice([most // PART, most // PART + 1, 2**128 - 1])
    return upper, lower


def told(parts, most):
    """The number that two parts stand for, where they are in range."""
    upper, lower = parts
    number = upper * PART + lower
    return number if lower < PART and number <= most else None


def wide(number):
    return number // 10**36, number // 10**18 % 10**18, number % 10**18


def weighted(choices, numbers):
    return sum(weight * numbers[choices // 3**index % 3] for index, weight in enumerate(WEIGHTS))


def rounded(numerator, denominator):
    """In thousandths, to the nearest, and a half upward."""
    return (2000 * numerator + denominator) // (2 * denominator)


def lowest(numerator, denominator):
    common = math.gcd(numerator, denominator)
    return *wide(numerator // common), *wide(denominator // common)


def sums(chance, most):
    """Which of three numbers each roll leads to, now and then one for all rolls, whose sum is then
    a multiple of 36; and the numbers."""
    numbers = [any_parts(chance, most) for _ in range(3)]
    return [chance.choice([0, 3**21 - 1, chance.randrange(3**21)]), *itertools.chain(*numbers)]


def sum_of(given, most):
    numbers = [told(given[place : place + 2], most) for place in (1, 3, 5)]
    return None if None in numbers else weighted(given[0], numbers)


def mean_of(given):
    total = sum_of(given, MOST)
    if total is None or total % 36 or WHOLE + total // 36 > MOST:
        return None
    return WHOLE + total // 36


def parts_or_none(number):
    return None if number is None else parts(number)


class Mean:
    """One roll and the mean of what the rolls lead to."""

    def given(chance):
        return sums(chance, MOST)

    def reply(given):
        return parts_or_none(mean_of(given))


class IsMean:
    """Whether a number is that."""

    def given(chance):
        given = sums(chance, MOST)
        mean = mean_of(given)
        if mean is None or chance.random() < 0.5:
            total = sum_of(given, MOST) or 0
            mean = max(0, min(WHOLE + total // 36 + chance.choice([-PART, -1, 0, 1, PART]), MOST))
        return [*given, *parts(mean)]

    def reply(given):
        total, mean = sum_of(given, MOST), told(given[7:], MOST)
        return None if None in (total, mean) else (36 * mean == 36 * WHOLE + total,)


class Order:
    """Which of two numbers is less."""

    def given(chance):
        first = any_parts(chance, MOST)
        return [*first, *(first if chance.random() < 0.1 else any_parts(chance, MOST))]

    def reply(given):
        first, second = told(given[:2], MOST), told(given[2:], MOST)
        if None in (first, second):
            return None
        return first < second, second < first, first < second


class Minus:
    """A number less another one."""

    given = Order.given

    def reply(given):
        first, second = told(given[:2], MOST), told(given[2:], MOST)
        return None if None in (first, second) or first < second else parts(first - second)


class Rounded:
    """A number, and 49/6 of it, in thousandths, also where these are a half."""

    def given(chance):
        if chance.random() < 0.3:
            half = chance.randrange(66_000) * WHOLE // chance.choice([2000, 98_000 // 6, 16])
            return parts(min(half + chance.choice([-1, 0, 1]) if half else half, MOST))
        return any_parts(chance, MOST)

    def reply(given):
        mean = told(given, MOST)
        return None if mean is None else (rounded(mean, WHOLE), rounded(49 * mean, 6 * WHOLE))


class Fractions:
    """A number, and 49/6 of it, in lowest terms."""

    def given(chance):
        if chance.random() < 0.5:
            return parts(chance.randrange(33 * 36**7) * 2 ** chance.randrange(52) * 3**52)
        return any_parts(chance, MOST)

    def reply(given):
        mean = told(given, MOST)
        return None if mean is None else (*lowest(mean, WHOLE), *lowest(49 * mean, 6 * WHOLE))


class Long:
    """The same of 33 throws."""

    def given(chance):
        return sums(chance, WHOLE)

    def reply(given):
        total = sum_of(given, WHOLE)
        return None if total is None or total > WHOLE else parts(total)


class Share:
    """The share of so many rolls, over 36^33 and in lowest terms."""

    def given(chance):
        k = chance.randrange(23, 34)
        return [k, *any_parts(chance, 36**k)]

    def reply(given):
        k = given[0]
        count = told(given[1:], 36**k)
        return None if count is None else (*wide(count * 36 ** (33 - k)), *lowest(count, 36**k))


KINDS = {
    "mean": Mean,
    "is_mean": IsMean,
    "order": Order,
    "minus": Minus,
    "rounded": Rounded,
    "fractions": Fractions,
    "long": Long,
    "share": Share,
}


def reply_of(kind, given):
    reply = kind.reply([*given])
    return "none" if reply is None else " ".join(str(int(number)) for number in reply)


def compare(program, word, lines):
    """Compares the replies to lines of a kind with what comes out here, and tells how many of them
    were numbers."""
    text = "".join(f"{word} {' '.join(map(str, given))}\n" for given in lines)
    came = run(program, input=text, timeout=600).output.decode().split("\n")
    wanted = [reply_of(KINDS[word], given) for given in lines]
    assert len(came) == len(wanted) + 1
    for given, one, other in zip(lines, came, wanted):
        assert one.strip() == other, f"{word} {' '.join(map(str, given))}"
    return sum(reply != "none" for reply in wanted)


def try_kind(program, word, rounds):
    """Ten thousand random lines a round."""
    chance = random.Random(f"numbers {word}")
    found = 0
    for _ in range(rounds):
        lines = [KINDS[word].given(chance) for _ in range(10_000)]
        found += compare(program, word, lines)
    assert found > rounds * 1000
    return found


def test_stored_lines():
    """The lines that the gate gives to the program have the replies that are stored."""
    folder = ROOT / "crates/number_trials"
    lines = [line.split() for line in (folder / "stdin").read_text().splitlines()]
    wanted = [reply_of(KINDS[word], [*map(int, given)]) for word, *given in lines]
    assert {word for word, *given in lines} == set(KINDS)
    assert wanted == (folder / "stdout").read_text().splitlines()


@pytest.mark.parametrize("word", KINDS)
def test_numbers(number_trials, word):
    try_kind(number_trials, word, 1)


@pytest.mark.by_hand
@pytest.mark.parametrize("word", KINDS)
def test_a_million_numbers(number_trials, word, note):
    found = try_kind(number_trials, word, 100)
    note(f"{word}: a million lines, {found} of them with numbers")


# two parts at and over their ranges
TWO_PARTS = [
    (upper, lower)
    for upper in (0, 1, PART, 36**22 - 1, 36**22, MOST // PART - 1, MOST // PART, 2**128 - 1)
    for lower in (0, 1, 35, 36, PART // 2, PART - 36, PART - 1, PART, PART + 1, 2**64 - 1)
]


@pytest.mark.parametrize("word", ["rounded", "fractions"])
def test_edges_of_a_number(number_trials, word):
    compare(number_trials, word, TWO_PARTS)


@pytest.mark.parametrize("word", ["order", "minus"])
def test_edges_of_two_numbers(number_trials, word):
    compare(number_trials, word, [[*a, *b] for a in TWO_PARTS for b in TWO_PARTS])


@pytest.mark.parametrize("word", ["mean", "long"])
def test_edges_of_sums(number_trials, word):
    """All rolls lead to one number, or some to another one."""
    choices = (0, 3**21 // 2, 3**20, 1)
    lines = [[which, *a, *b, *b] for which in choices for a in TWO_PARTS for b in TWO_PARTS]
    compare(number_trials, word, lines)
