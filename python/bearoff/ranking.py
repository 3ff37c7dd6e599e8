"""The ranks of many positions at once, out of the table of all positions. With numpy arrays of it
are looked up whole; without it, and for other sequences, row by row.
"""

from __future__ import annotations

import sys
from array import array
from typing import Any, Callable, Dict, NamedTuple, Optional

from .errors import BadArgument
from .positions import UNREADABLE, AnyPositions, counts_of, shown

# how many rows are looked up at a time, so that they stay near the processor
_ROWS = 1 << 13

# half of a position is three counts of at most 15 checkers together, of which there are so many;
# and one number more for what is none
_HALVES = 816
_NONE = 0xFFFF

Refuse = Callable[[int, Any], BaseException]
"""Makes the error of a row, by its number and its position, that has no rank."""


class Rows(NamedTuple):
    """Positions as they were given: an array of numpy, or what can be gone through, and then no
    numpy.
    """

    numpy: Any
    rows: Any


def rows_of(positions: AnyPositions) -> Rows:
    """The rows of positions, or `BadArgument` where they are none of six whole numbers."""
    numpy: Any = sys.modules.get("numpy")
    table: Any = positions
    try:
        if isinstance(table, memoryview) and table.format == "?":
            raise TypeError
        if numpy and (hasattr(table, "__array__") or isinstance(table, memoryview)):
            table = _unmasked(numpy, table)
            if table.dtype.kind != "O":
                return Rows(numpy, _six_in_each(numpy, table))
            table = table.tolist()
        if isinstance(table, (str, bytes, bytearray)):
            raise TypeError
        return Rows(None, iter(table.tolist() if isinstance(table, memoryview) else table))
    except BadArgument:
        raise
    except UNREADABLE:
        raise BadArgument(f"not an array of positions: {shown(positions)}") from None


def _unmasked(numpy: Any, table: Any) -> Any:
    """An array, of which nothing is masked."""
    masked = numpy.ma.getmaskarray(table).any() if numpy.ma.isMaskedArray(table) else False
    if masked:
        raise BadArgument("not an array of positions, as numbers of it are masked")
    return numpy.asarray(table)


def _six_in_each(numpy: Any, table: Any) -> Any:
    if table.ndim != 2 or table.shape[1] != 6 or table.dtype.kind not in "iuf":
        told = f"{table.dtype} {table.shape}"
        raise BadArgument(f"not an array of six whole numbers in each row: {told}")
    if table.dtype.kind == "f":
        whole = numpy.isfinite(table) & (numpy.floor(table) == table)
        if not whole.all():
            row, point = numpy.argwhere(~whole)[0]
            raise BadArgument(f"{table[row, point]} is not whole, in row {row}")
    return table


class Ranks:
    """The ranks of all positions of a database, whose table of them is given."""

    def __init__(self, positions: memoryview) -> None:
        self._positions = bytes(positions)
        self._by_counts: Optional[Dict[bytes, int]] = None
        self._by_halves: Any = None

    def of(self, given: Rows, refuse: Refuse) -> memoryview:
        """The ranks of positions in their order, as an array of numbers of 16 bits. Raises what
        `refuse` makes of the first row that has none.
        """
        if given.numpy:
            return self._of_array(given.numpy, given.rows, refuse)
        return self._of_rows(given.rows, refuse)

    def _of_rows(self, rows: Any, refuse: Refuse) -> memoryview:
        if self._by_counts is None:
            table = self._positions
            rows_of_it = (table[at : at + 6] for at in range(0, len(table), 6))
            self._by_counts = {counts: rank for rank, counts in enumerate(rows_of_it)}
        ranks = array("H")
        for number, position in enumerate(rows):
            try:
                rank = self._by_counts.get(counts_of(position))
            except BadArgument as error:
                raise BadArgument(f"{error} in row {number}") from None
            if rank is None:
                raise refuse(number, position)
            ranks.append(rank)
        return memoryview(ranks)

    def _of_array(self, numpy: Any, table: Any, refuse: Refuse) -> memoryview:
        if self._by_halves is None:
            self._by_halves = self._halves(numpy)
        half_of, rank_of = self._by_halves
        ranks = numpy.empty(len(table), numpy.uint16)
        for first in range(0, len(table), _ROWS):
            block = table[first : first + _ROWS]
            # what a count of four bits can't hold has no rank; it is looked up as a half that
            # there isn't
            looked_up = block
            if block.min() < 0 or block.max() > 15:
                has_none = ((block < 0) | (block > 15)).any(axis=1)
                looked_up = numpy.where(has_none[:, None], 15, block)
            counts = looked_up.T.astype(numpy.intp, order="C")
            low, high = half_of[_bits(counts[:3])], half_of[_bits(counts[3:])]
            found = rank_of[low * (_HALVES + 1) + high]
            ranks[first : first + _ROWS] = found
            if found.max() == _NONE:
                number = int((found == _NONE).argmax())
                raise refuse(first + number, tuple(map(int, block[number])))
        return memoryview(ranks)

    def _halves(self, numpy: Any) -> Any:
        """The number of each half, by its three counts of four bits, and the rank by the numbers
        of two halves.
        """
        halves = [
            one | two << 4 | three << 8
            for one in range(16)
            for two in range(16 - one)
            for three in range(16 - one - two)
        ]
        half_of = numpy.full(1 << 12, _HALVES)
        half_of[halves] = numpy.arange(_HALVES)
        counts = numpy.frombuffer(self._positions, numpy.uint8).reshape(-1, 6).T.astype(numpy.intp)
        rank_of = numpy.full((_HALVES + 1) ** 2, _NONE, numpy.uint16)
        places = half_of[_bits(counts[:3])] * (_HALVES + 1) + half_of[_bits(counts[3:])]
        rank_of[places] = numpy.arange(len(places))
        return half_of, rank_of


def _bits(counts: Any) -> Any:
    """Three counts of four bits each, of many halves at once."""
    return counts[0] | counts[1] << 4 | counts[2] << 8
