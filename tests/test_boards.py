"""Compares board files, every position of the home board to 90 pips, with what was counted
outside: sizes and digests of ten bounds, and the replies in tests/board_rows.txt; all means, plays
and counts with those of a plain program. Each header fault and a damaged byte in a record have
their refusals. The program builds the whole board, checks and answers it; files of other bounds
come from the program of crates/board_trials."""

import functools
import hashlib
import itertools
from fractions import Fraction

import pytest

from running import HERE, expect, expect_same, expect_that, explained, run

PART = 36**11

# the bytes and the digest of the file of a bound
FILES = {
    0: (98, "0475109801ff72e5949a1d1c678c80b1158755f34c5bac395c4e3c971fe8ea49"),
    1: (172, "aa879ea82873acf185f3f686adc8691893bd28addca6c6039a124c07828e0965"),
    2: (336, "b8f53a5b3577497a5d83581a27feb899a56f1c3a7cce56f8c5ab5e4db89769ba"),
    3: (582, "cf58e69e5d921b52f0302d1ef3705f60f5af444f611ff22428465aff65186963"),
    8: (6232, "c18d41420938547792fc03f937cf4c93cd9e54bc84c675adc5718b0ba62be594"),
    15: (59732, "f262b641f87892a3b3232e978b4be4e496f1c782b635623cc8a4cfadaded1370"),
    44: (5540428, "94ac6e6567416435fc3882389510a3fe1d1214041512ab130781205d65033abb"),
    58: (11413012, "1e133e842858704becbf092d6fe972f051d4a841161cad9d02c3fe0d34af2bc8"),
    59: (11750020, "b46fe38d515177cfb8f21b64c2a72d039130243fb60ef0eb9646545c53b65256"),
    90: (14643664, "bf11d8377b8d8e7ee690d3fb1bcbb650a5e8ee105a740de12fbb117d78f8e178"),
}


def most_rolls(pips):
    return (2 * pips + min(pips, 15) + 6) // 6 if pips else 0


@functools.cache
def stands():
    """All positions in the order of their ranks: how many checkers stand on the points 1 to 6."""
    found = []
    for spots in itertools.combinations(range(21), 6):
        found.append(tuple(b - a - 1 for a, b in zip((-1, *spots), spots)))
    return sorted(found, key=lambda stand: (pips_of(stand), stand))


def pips_of(stand):
    return sum(point * count for point, count in enumerate(stand, 1))


@functools.cache
def pip_counts():
    """The pip count of each rank."""
    return [pips_of(stand) for stand in stands()]


def steps(stand, die):
    """Where one checker can be moved by a die: down by so many points, or off from that point, or
    off from the highest point where none is so high. The finished position stays."""
    if not any(stand):
        yield stand
    for point in range(1, 7):
        if not stand[point - 1] or point < die and any(stand[point:]):
            continue
        after = list(stand)
        after[point - 1] -= 1
        if point > die:
            after[point - die - 1] += 1
        yield tuple(after)


def plain_records():
    """The mean, the plays and the counts of each rank, by a plain program: of all results of a
    roll the one of least mean and, of equal means, of the lowest rank."""
    ranks = {stand: rank for rank, stand in enumerate(stands())}
    moved, means, counted = [], [], []
    rolls = [(high, low) for high in range(1, 7) for low in range(1, high + 1)]
    for rank, stand in enumerate(stands()):
        moved.append([{ranks[after] for after in steps(stand, die)} for die in range(1, 7)])
        means.append(0)
        counted.append([1])
        plays = []
        for high, low in rolls:
            orders = {(high, low), (low, high)} if high != low else {(high,) * 4}
            found = set()
            for dice in orders:
                reached = {rank}
                for die in dice:
                    reached = {after for here in reached for after in moved[here][die - 1]}
                found |= reached
            plays.append(min(found, key=lambda result: (means[result], result)))
        if rank:
            weights = [1 if high == low else 2 for high, low in rolls]
            total = sum(weight * means[play] for weight, play in zip(weights, plays))
            assert total % 36 == 0
            means[rank] = 36**33 + total // 36
            longest = max(len(counted[play]) for play in plays)
            counted[rank] = [0] + [
                sum(w * counted[p][k] for w, p in zip(weights, plays) if k < len(counted[p]))
                for k in range(longest)
            ]
        yield means[rank], plays, counted[rank]


def numbers(data, *sizes):
    """The numbers in some bytes, each of so many, with the greatest byte first."""
    found, place = [], 0
    for size in sizes:
        found.append(int.from_bytes(data[place : place + size], "big"))
        place += size
    return found


def records(file):
    """The mean, the plays and the counts of 1 to the most throws of each rank."""
    place, bound = 32, int.from_bytes(file[10:12], "big")
    for pips in pip_counts():
        if pips > bound:
            break
        upper, lower, *plays = numbers(file[place : place + 66], 16, 8, *[2] * 21)
        place += 66
        counts = []
        for k in range(1, most_rolls(pips) + 1):
            front = 0 if k < 12 else 8 if k < 23 else 16
            high, low = numbers(file[place : place + front + 8], front, 8)
            place += front + 8
            counts.append(high * PART + low)
        yield upper * PART + lower, plays, counts
    assert place == len(file)


pytestmark = pytest.mark.xdist_group("boards")


@pytest.mark.parametrize("bound", FILES)
def test_digests(board, bound):
    data = board(bound).read_bytes()
    assert (len(data), hashlib.sha256(data).hexdigest()) == FILES[bound]


def accepted(bound):
    """What the program says of a right board file."""
    count = sum(pips <= bound for pips in pip_counts())
    return f"ok pips {bound} positions {count}\n"


@pytest.mark.parametrize("bound", FILES)
def test_accepted(program, board, bound):
    expect(run(program, "check", "--board", board(bound)), output=accepted(bound))


def test_the_program_builds_the_whole_board(program, board, tmp_path):
    path = tmp_path / "board"
    path.write_bytes(b"an older file")
    done = run(program, "build", "--board", path)
    expect(done, output="built pips 90 positions 54264\n")
    expect_same(path, board(90), "the whole board")
    assert [entry.name for entry in tmp_path.iterdir()] == ["board"]


@pytest.mark.parametrize(
    "bounds", [range(45), pytest.param(range(45, 91), marks=pytest.mark.gate)], ids=str
)
def test_each_bound_is_a_prefix(program, board_trials, board, tmp_path, bounds):
    """But for its header, and accepted."""
    whole = board(90).read_bytes()
    for bound in bounds:
        path = tmp_path / "file"
        expect(run(board_trials, "build", bound, path))
        data = path.read_bytes()
        assert data[32:] == whole[32 : len(data)], bound
        expect(run(program, "check", "--board", path), output=accepted(bound))


@pytest.mark.gate
def test_a_plain_program_says_the_same(board):
    """Every mean, play and count of all positions."""
    for found, (mean, plays, counts) in zip(records(board(90).read_bytes()), plain_records()):
        counts = counts[1:] + [0] * (len(found[2]) + 1 - len(counts))
        assert found == (mean, plays, counts)


def replies():
    """Lines and their replies, counted outside."""
    lines = (HERE / "board_rows.txt").read_text().splitlines()
    return list(zip(lines[::2], lines[1::2]))


def test_rows(program, board):
    asked = replies()
    assert len(asked) == 36
    lines = "\n".join(line for line, _ in asked)
    done = run(program, "query", "--board", board(90), input=lines)
    expect(done, output="".join(f"{reply}\n" for _, reply in asked))


# of a small file, lines of each kind and the replies: the first words are counted by hand
LINES = {
    "mean 0,0,0,0,0,1": "mean 5/4 epc 245/24 10.208",
    "dist 0,0,0,0,0,1": "dist 1:3/4 2:1/4",
    "mean 0,0,0,0,0,0": "mean 0/1 epc 0/1 0.000",
    "dist 0,0,0,0,0,0": "dist 0:1/1",
    "rank 0,0,0,0,0,0": "rank 0",
    "loss 2,0,0,0,0,0 11 0,0,0,0,0,0": "loss 0/1",
    "play 0,0,0,0,0,0 11": "error finished",
    "moves 0,0,0,0,0,0 66": "error finished",
    "loss 1,0,0,0,0,0 11 1,0,0,0,0,0": "error not-legal",
    "mean 0,0,0,0,1,2": "error over-bound",
    "mean 16,0,0,0,0,0": "error too-many",
    "mean 1,2": "error bad-line",
    "": "error bad-line",
    "mean": "error bad-line",
    "rank 0,0,0,0,0,15": "error over-bound",
}


@pytest.mark.parametrize("end", ("\n", "\r\n"))
def test_lines(program, board, end):
    asked = "".join(line + end for line in LINES)
    done = run(program, "query", "--board", board(15), input=asked)
    expect(done, output="".join(f"{reply}\n" for reply in LINES.values()))


def test_long_lines(program, board):
    """A line is kept to its first 130 bytes, and one so long asks nothing."""
    position = "mean 0,0,0,0,0,1"
    asked = "".join(position + " " * more + "\n" for more in range(300))
    done = run(program, "query", "--board", board(8), input=asked + position)
    reply = "mean 5/4 epc 245/24 10.208\n"
    expect(done, output=reply + "error bad-line\n" * 299 + reply)


@functools.cache
def levels(board):
    """The line of each pip count to 90."""
    means = {}
    for pips, (mean, _, _) in zip(pip_counts(), records(board(90).read_bytes())):
        means.setdefault(pips, []).append(Fraction(mean, 36**33))
    lines = []
    for pips, found in means.items():
        least, greatest = (f"{n.numerator}/{n.denominator}" for n in (min(found), max(found)))
        lines.append(f"pips {pips} positions {len(found)} least {least} greatest {greatest}\n")
    return lines


@pytest.mark.parametrize("bound", FILES)
def test_audit(program, board, bound):
    done = run(program, "audit", "--board", board(bound))
    expect(done, output="".join(levels(board)[: bound + 1]))


def lines_of(bound):
    """Lines of each kind for some positions of at most so many pips."""
    stands = itertools.product(range(4), repeat=6)
    found = [stand for stand in stands if 0 < pips_of(stand) <= bound]
    for index, stand in enumerate(found):
        text = ",".join(map(str, stand))
        dice = f"{1 + index % 6}{1 + index // 6 % 6}"
        for word in ("mean", "dist", "rank"):
            yield f"{word} {text}"
        for word in ("play", "moves"):
            yield f"{word} {text} {dice}"


def test_lines_are_those_of_version_2(board, program, built):
    """Every reply to 58 pips, since a fraction in lowest terms is the same over 36 ** 33."""
    asked = "\n".join(lines_of(58)) + "\n"
    old = run(program, "query", built(58), input=asked)
    new = run(program, "query", "--board", board(90), input=asked)
    assert old.status == 0 and old.output.count(b"\n") == asked.count("\n")
    expect(new, output=old.output)


def expect_refusal(program, path, fault):
    """Each command that checks a board file refuses it so, and writes nothing else."""
    for command in ("check", "query", "audit"):
        done = run(program, command, "--board", path, input="mean 0,0,0,0,0,1\n")
        expect(done, status=3, errors=f"bearoff: refused {fault}\n")
        # where it is not asked for its version is none of a database
        if path.read_bytes()[:10] == b"EPCTABLE\0\3":
            done = run(program, command, path, input="mean 0,0,0,0,0,1\n")
            expect(done, status=3, errors="bearoff: refused header bad-version\n")
    # of version 1 or 2 it is no board file to `about`, but a database
    if path.read_bytes()[8:10] not in (b"\0\1", b"\0\2"):
        errors = explained(fault, path) + "\n"
        expect(run(program, "about", path), status=3, errors=errors)


HEADERS = [
    (0, b"F", "bad-magic"),
    (8, b"\0\1", "bad-version"),
    (8, b"\0\2", "bad-version"),
    (8, b"\0\4", "bad-version"),
    (10, b"\0\x5b", "bad-bound"),
    (10, b"\1\0", "bad-bound"),
    (12, b"\0\0\0\5", "bad-count"),
    (16, b"\0\0\0\x42", "bad-record-bytes"),
    (20, b"\1", "bad-reserved"),
    (31, b"\1", "bad-reserved"),
]


@pytest.mark.parametrize("place, wrong, fault", HEADERS)
def test_headers(program, board, tmp_path, place, wrong, fault):
    """Alone, and with every later fault beside it."""
    data = bytearray(board(2).read_bytes())
    path = tmp_path / "file"
    bad = data[:place] + wrong + data[place + len(wrong) :]
    for found in (bad, bad[:-1]):
        path.write_bytes(found)
        expect_refusal(program, path, f"header {fault}")


def test_lengths(program, board, tmp_path):
    """A file that is cut at any byte, or is longer."""
    data = board(2).read_bytes()
    path = tmp_path / "file"
    for size in range(len(data)):
        path.write_bytes(data[:size])
        fault = "too-short" if size < 32 else "bad-length"
        done = run(program, "check", "--board", path)
        expect(done, status=3, errors=f"bearoff: refused header {fault}\n")
    for more in (1, 20_000_000):
        path.write_bytes(data + bytes(more))
        expect_refusal(program, path, "header bad-length")


def test_each_kind_refuses_the_other(program, board, built):
    """A database is no board file, and by pages a board file is no database."""
    for bound in (8, 58):
        expect_refusal(program, built(bound), "header bad-version")
    done = run(program, "query", "--cache", "9", board(8), input="mean 0,0,0,0,0,1\n")
    expect(done, status=3, errors="bearoff: refused header bad-version\n")


# the first fault where bits of a byte in the record of rank 5 are turned round: a byte of the
# upper and of the lower part of its mean, of the first and the last play, and of the counts of one
# and two throws; and in that of rank 9 the play of 3-1, which then leads to another result
DAMAGES = [
    (5, 0, 0x80, "mean rank 5"),
    (5, 15, 1, "mean rank 5"),
    (5, 16, 0x80, "mean rank 5"),
    (5, 23, 1, "mean rank 5"),
    (5, 24, 0x80, "play rank 5 roll 0"),
    (5, 65, 4, "play rank 5 roll 20"),
    (5, 66, 0x80, "spread rank 5 k 1"),
    (5, 73, 1, "spread rank 5 k 1"),
    (5, 81, 1, "spread rank 5 k 2"),
    (9, 31, 1, "not-least rank 9 roll 3"),
]


@pytest.mark.parametrize("rank, place, bits, fault", DAMAGES)
def test_damages(program, board, tmp_path, rank, place, bits, fault):
    data = bytearray(board(8).read_bytes())
    start = 32 + sum(66 + 8 * most_rolls(pips) for pips in pip_counts()[:rank])
    data[start + place] ^= bits
    path = tmp_path / "file"
    path.write_bytes(data)
    expect_refusal(program, path, fault)


def test_a_worse_play_with_its_own_numbers(program, board, tmp_path):
    """A worse play is refused, also where the mean and the counts are those of that play."""
    data = bytearray(board(8).read_bytes())
    told = list(records(data))
    start = 32 + sum(66 + 8 * most_rolls(pips) for pips in pip_counts()[:9])
    mean, plays, counts = told[9]
    best, worse = told[plays[3]], told[plays[3] ^ 1]
    assert worse[0] > best[0]
    mean += 2 * (worse[0] - best[0]) // 36
    before, after = ([0, *record[2], *[0] * len(counts)] for record in (best, worse))
    counts = [n + 2 * (new - old) for n, old, new in zip(counts, before, after)]
    data[start : start + 24] = (mean // PART).to_bytes(16, "big") + (mean % PART).to_bytes(
        8, "big"
    )
    data[start + 31] ^= 1
    data[start + 66 : start + 66 + 8 * len(counts)] = b"".join(
        count.to_bytes(8, "big") for count in counts
    )
    path = tmp_path / "file"
    path.write_bytes(data)
    expect_refusal(program, path, "not-least rank 9 roll 3")


def test_each_byte_of_a_small_file(program, board, tmp_path):
    """A change of any byte is refused."""
    data = bytearray(board(3).read_bytes())
    path = tmp_path / "file"
    for place in range(len(data)):
        data[place] ^= 1 << place % 8
        path.write_bytes(data)
        data[place] ^= 1 << place % 8
        done = run(program, "check", "--board", path)
        expect_that(
            (done.status, done.output) == (3, b""), done, f"a refusal of the changed byte {place}"
        )


def test_a_byte_of_each_record(board_trials, board):
    """A changed byte in each record of a small file, and in some of the whole board."""
    expect(run(board_trials, "damage", board(15), 0, 1), output="refused 498 accepted 0")
    expect(
        run(board_trials, "damage", board(90), 17, 5000, timeout=600),
        output="refused 11 accepted 0",
    )


# 5,0,2,0,0,1: its changed byte records 6/2 3/off of 5-4 in place of 6/1 3/off. Both lead to the
# same mean and the same counts, so the file is right
TIED = 741


@pytest.mark.by_hand
@pytest.mark.parametrize("first", range(64))
def test_a_byte_of_all_records(board_trials, board, first, note):
    done = run(board_trials, "damage", board(90), first, 64, timeout=7200)
    many = len(range(first, 54264, 64))
    accepted = int(first == TIED % 64)
    expect(done, output=f"refused {many - accepted} accepted {accepted}")
    note(f"{many} records from {first} on")
