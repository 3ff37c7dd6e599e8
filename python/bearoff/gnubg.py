"""One-sided bearoff files of GNU Backgammon, which that program and `bearoffdump` load.

Such a file has 16 bits for each share, so none can say the exact numbers, and none can be
certified: a mean out of it is a sum of rounded shares. `to_file` rounds so that each mean is the
nearest that such shares can say, within 0.000008 rolls, and `compare` says how far any such file
is from the exact numbers. A file that is written here has no distributions for gammons.
"""

from __future__ import annotations

import re
from fractions import Fraction
from itertools import cycle, islice
from math import comb
from typing import Iterator, List, NamedTuple, Sequence, Tuple

from ._library import MOST_ROLLS
from .database import Database, share_rows
from .errors import BadArgument
from .exact import over_whole
from .positions import Position

__all__ = ["Compared", "compare", "to_file"]

_POINTS, _CHECKERS = 6, 15
_ALL = comb(_POINTS + _CHECKERS, _POINTS)
_SHARES = 32
_WHOLE = 65535
_HEADER = re.compile(rb"gnubg-OS-06-15-([01])-([01])-0x*\n")
_HEADER_BYTES = 40
_TOO_SHORT = "the one-sided bearoff file ends too early"


class Compared(NamedTuple):
    """How a one-sided file differs from the exact numbers: the number of positions compared; the
    greatest difference of a mean in rolls, and its position; the average difference; and the
    greatest difference of a share.
    """

    positions: int
    greatest: Fraction
    at: Position
    average: Fraction
    share: Fraction


def to_file(database: Database) -> bytes:
    """The one-sided file of GNU Backgammon with the numbers of a database of the whole home board.
    Raises `BadArgument` if the database has fewer positions.
    """
    if len(database) != _ALL:
        what = f"the file has all {_ALL} positions, and this database {len(database)}"
        raise BadArgument(f"{what}: a board file of 90 pips is needed")
    whole = database.denominator
    rows: List[Tuple[int, List[int]]] = [(0, [])] * _ALL
    for position, numerators in _numerators(database):
        shares = _rounded(numerators, whole)
        first = next(rolls for rolls, share in enumerate(shares) if share)
        last = max(rolls for rolls, share in enumerate(shares) if share)
        rows[_place(position)] = first, shares[first : last + 1]
    index, content, begun = bytearray(), bytearray(), 0
    for first, shares in rows:
        index += begun.to_bytes(4, "little") + bytes((len(shares), first))
        content += b"".join(share.to_bytes(2, "little") for share in shares)
        begun += len(shares)
    header = b"gnubg-OS-06-15-0-1-0".ljust(_HEADER_BYTES - 1, b"x") + b"\n"
    return header + bytes(index + content)


def compare(content: bytes, database: Database) -> Compared:
    """How far a one-sided file of GNU Backgammon, of six points, is from the exact numbers, over
    all positions of a database. Raises `BadArgument` if the bytes are not such a file.
    """
    read, whole = _Reader(content), database.denominator
    differences, greatest, share, at = [], -1, 0, Position(0, 0, 0, 0, 0, 0)
    for position, numerators in _numerators(database):
        told = read.shares(_place(position))
        # over 65,535 and the whole together
        scaled = [rounded * whole - _WHOLE * exact for rounded, exact in zip(told, numerators)]
        difference = abs(sum(rolls * part for rolls, part in enumerate(scaled)))
        differences.append(difference)
        if difference > greatest:
            greatest, at = difference, position
        share = max(share, *(abs(part) for part in scaled))
    below = _WHOLE * whole
    return Compared(
        len(differences),
        over_whole(greatest, below),
        at,
        over_whole(sum(differences), below * len(differences)),
        over_whole(share, below),
    )


def _numerators(database: Database) -> Iterator[Tuple[Position, List[int]]]:
    """Each position with the numerators of the shares of 0 to 31 rolls; what takes more, which is
    less than any such file can say, is counted with 31.
    """
    for position, row in zip(database, share_rows(database._opened, MOST_ROLLS + 1)):
        yield position, [*row[: _SHARES - 1], sum(row[_SHARES - 1 :])]


def _rounded(numerators: Sequence[int], whole: int) -> List[int]:
    """Numbers that sum to 65,535, near to their shares of that, with the nearest possible mean."""
    parts = [divmod(_WHOLE * numerator, whole) for numerator in numerators]
    shares = [part for part, _ in parts]
    # the largest rests are rounded up
    by_rest = sorted(range(_SHARES), key=lambda rolls: -parts[rolls][1])
    for rolls in by_rest[: _WHOLE - sum(shares)]:
        shares[rolls] += 1
    error = sum(rolls * share for rolls, share in enumerate(shares)) - Fraction(
        _WHOLE * sum(rolls * part for rolls, part in enumerate(numerators)), whole
    )
    # a part that counts for a roll more or less, where it shows least
    step = 1 if error > 0 else -1
    by_size = sorted(range(1, _SHARES - 1), key=lambda rolls: -shares[rolls])
    movable = [rolls for rolls in by_size if shares[rolls] and shares[rolls - step]]
    for rolls in islice(cycle(movable), abs(round(error))):
        shares[rolls] -= 1
        shares[rolls - step] += 1
    return shares


def _place(position: Position) -> int:
    """The place of a position among all of them in the order of GNU Backgammon."""
    return sum(
        comb(sum(position[point:]) + _POINTS - 1 - point, _POINTS - point)
        for point in range(_POINTS)
    )


class _Reader:
    """The bytes of a one-sided file."""

    def __init__(self, content: bytes) -> None:
        header = _HEADER.fullmatch(content[:_HEADER_BYTES])
        if not header:
            raise BadArgument("not a one-sided bearoff file of GNU Backgammon for six points")
        self.content = content
        self.has_gammons, self.is_compressed = header[1] == b"1", header[2] == b"1"

    def shares(self, place: int) -> List[int]:
        """The shares of 0 to 31 rolls of a position."""
        if not self.is_compressed:
            begun = _HEADER_BYTES + 2 * _SHARES * place * (1 + self.has_gammons)
            return self.numbers(begun, _SHARES)
        size = 8 if self.has_gammons else 6
        entry = self.content[_HEADER_BYTES + size * place : _HEADER_BYTES + size * (place + 1)]
        if len(entry) != size:
            raise BadArgument(_TOO_SHORT)
        begun, count, first = int.from_bytes(entry[:4], "little"), entry[4], entry[5]
        shares = self.numbers(_HEADER_BYTES + size * _ALL + 2 * begun, count)
        return ([0] * first + shares + [0] * _SHARES)[:_SHARES]

    def numbers(self, begun: int, count: int) -> List[int]:
        told = self.content[begun : begun + 2 * count]
        if len(told) != 2 * count:
            raise BadArgument(_TOO_SHORT)
        return [int.from_bytes(told[at : at + 2], "little") for at in range(0, len(told), 2)]
