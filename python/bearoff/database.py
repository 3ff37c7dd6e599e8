"""The class Database: a verified bearoff database and its queries."""

from __future__ import annotations

import ctypes
import os
from array import array
from fractions import Fraction
from hashlib import sha256
from itertools import accumulate, chain, repeat
from math import prod, sqrt
from operator import index, truediv
from types import TracebackType
from typing import (
    Any,
    Dict,
    Iterable,
    Iterator,
    List,
    Literal,
    Optional,
    SupportsIndex,
    Tuple,
    Type,
    TypeVar,
    Union,
    overload,
)

from . import _library as lib
from ._opened import MOST_CHECKERS, MOST_OF_BOARD, Opened, build, fraction_of, usual_version
from .errors import (
    NO_RANK,
    NOT_OPEN,
    OVER_BOUND,
    BUFFER_TOO_SMALL,
    TOO_MANY,
    BadArgument,
    BearoffError,
    Changed,
    Damaged,
    OutOfRange,
    Refused,
)
from .exact import over_whole, wide_numbers
from .positions import (
    UNREADABLE,
    AnyPlay,
    AnyPosition,
    AnyPositions,
    AnyRoll,
    Choice,
    EffectivePips,
    Move,
    Play,
    Position,
    PositionInfo,
    Wastage,
    bound_of,
    counts_after,
    counts_of,
    dice_of,
    position_of,
    rank_of,
    rolls_of,
    shown,
    sides_of,
)
from .ranking import Ranks, rows_of

Source = Union[str, "os.PathLike[str]", bytes, bytearray, memoryview]

_Self = TypeVar("_Self", bound="Database")

_LOW = (1 << 64) - 1
_SHARES = lib.MOST_ROLLS + 1

# how many distributions are read at a time, which a cache of the processor holds
_PART = 512


class Database:
    """A verified database with its own copy of the bytes.

    It comes from a file that ``bearoff build`` writes, with positions of up to 58 pips, or from a
    board file, which ``bearoff build --board`` writes, with positions of up to 90 pips. The
    numbers of a board file are over 36^33 instead of 36^22. Both answer every call, except that a
    board file has no `upgrade`, and they give the same answers up to 58 pips.

    A position is six counts of checkers, the ace point first, in a tuple, list, array or
    `Position`; or a text like ``0,0,0,0,0,1``, an XGID, a Position ID of GNU Backgammon or a
    `Race`. A roll is two dice in either order, a text like ``21`` or ``2-1``, or the number 21. A
    play is the resulting position, or moves like ``4/2 2/1``. Anything else raises `BadArgument`.
    Each query raises `Refused` if the position has more than 15 checkers or more pips than the
    bound, or if the database is closed.

    ``len`` gives the number of positions, iteration goes over them by rank, ``in`` tests for a
    position, and an index is a rank: ``database[-1]`` is the last position. A database can be used
    from any thread, copied and pickled. A ``with`` statement closes it; closing is optional, since
    it holds only memory.
    """

    def __init__(self, content: Union[bytes, bytearray, memoryview]) -> None:
        """Verifies the bytes of a file, as `open` does."""
        opened = Opened(lib.library(), _bytes_of(content))
        opened.check()
        self._opened = opened
        self._path: Optional[str] = None

    @classmethod
    def open(cls: Type[_Self], source: Source) -> _Self:
        """Opens a path or bytes and verifies them: 0.2 s for 44 pips, 0.3 s for 58, 0.4 s for a
        board file of 90. A file whose header has version 3 is a board file.

        Raises `Damaged` if they are not a right file, and OSError if the file can't be read.
        """
        if isinstance(source, (str, os.PathLike)):
            content = _read(source)
            try:
                database = cls(content)
            except Damaged as damaged:
                path = os.fsdecode(source)
                raise Damaged(damaged.status, damaged.line, path) from None
            database._path = os.path.abspath(source)
            return database
        return cls(source)

    @classmethod
    def build(cls: Type[_Self], bound: SupportsIndex) -> _Self:
        """Builds a database of a pip bound, 0 to 90, and verifies it: half a second for 58 pips, a
        second for 90. Up to 58 pips, ``bytes(database)`` is what ``bearoff build`` writes; above,
        it is a board file, and for 90 what ``bearoff build --board`` writes.

        Raises `BadArgument` if the bound is not a whole number from 0 on, and `Refused` if it is
        over 90.
        """
        most = bound_of(bound)
        status, content = build(lib.library(), most, usual_version(most))
        if status == OVER_BOUND:
            raise Refused(status, f"{shown(bound)}, and no bound is over {MOST_OF_BOARD}")
        _check(status)
        return cls(content)

    def close(self) -> None:
        """Releases the bytes. Every query of a closed database raises `Refused`."""
        self._opened = Opened(self._opened.library, b"")

    @property
    def closed(self) -> bool:
        """Whether the database was closed."""
        return not self._opened.struct.is_open

    def __enter__(self: _Self) -> _Self:
        _asked(self._opened)
        return self

    def __exit__(
        self,
        kind: Optional[Type[BaseException]],
        error: Optional[BaseException],
        trace: Optional[TracebackType],
    ) -> None:
        self.close()

    @property
    def version(self) -> int:
        """The version of the file: 1, 2 (without the shares that are known), or 3 (board file)."""
        return _asked(self._opened).version

    @property
    def bound(self) -> int:
        """The greatest pip count."""
        return _asked(self._opened).bound

    @property
    def denominator(self) -> int:
        """The denominator of all means and shares: 36^22, or 36^33 for a board file."""
        return _asked(self._opened).denominator

    @property
    def weights(self) -> Tuple[float, float, float]:
        """What the three words of a numerator count, as floats: in numpy, ``table @ weights`` turns
        numerators of `means`, `cdf` or `distributions` into rolls or chances, with a relative error
        of less than 1e-15.
        """
        whole = self.denominator
        return 2**128 / whole, 2**64 / whole, 1 / whole

    def __len__(self) -> int:
        return _asked(self._opened).length

    def __contains__(self, position: object) -> bool:
        """Whether it is a position of at most 15 checkers and within the bound."""
        opened = self._opened
        try:
            counts = counts_of(position)  # type: ignore[arg-type]
        except BadArgument:
            _asked(opened)
            return False
        status, _ = opened.rank(counts)
        if status in (TOO_MANY, OVER_BOUND):
            return False
        _check(status, position)
        return True

    def __iter__(self) -> Iterator[Position]:
        counts = bytes(self.positions())
        return (Position._make(counts[at : at + 6]) for at in range(0, len(counts), 6))

    @overload
    def __getitem__(self, rank: SupportsIndex) -> Position:
        ...

    @overload
    def __getitem__(self, rank: slice) -> List[Position]:
        ...

    def __getitem__(self, rank: Union[SupportsIndex, slice]) -> Union[Position, List[Position]]:
        """The position of a rank, or the positions of a slice of ranks; -1 is the last rank.
        Raises `OutOfRange` if there is no such rank.
        """
        if isinstance(rank, slice):
            _places(rank, 0)
            return [self.position(place) for place in _places(rank, len(self))]
        place = _index_of(rank)
        length = len(self)
        if not -length <= place < length:
            raise OutOfRange(NO_RANK, shown(rank))
        return self.position(place % length)

    def __bool__(self) -> bool:
        return True

    def __bytes__(self) -> bytes:
        """The bytes of the file."""
        return _asked(self._opened).content

    def __repr__(self) -> str:
        if self.closed:
            return "<bearoff.Database: closed>"
        path = f", {self._path!r}" if self._path else ""
        kind = f"{self.bound} pips, {len(self)} positions, version {self.version}"
        return f"<bearoff.Database: {kind}{path}>"

    def __copy__(self: _Self) -> _Self:
        """A database of the same bytes; closing one leaves the other open."""
        copied = type(self).__new__(type(self))
        copied.__dict__.update(self.__dict__)
        return copied

    def __deepcopy__(self: _Self, memo: Dict[int, Any]) -> _Self:
        return self.__copy__()

    def __reduce__(self) -> Tuple[Any, ...]:
        """Pickles the path that it was opened by, or else the bytes; loading verifies again."""
        content = bytes(self)
        if self._path is None:
            return type(self), (content,)
        return _reopen, (type(self), self._path, sha256(content).hexdigest())

    def rank(self, position: AnyPosition) -> int:
        """The rank: the number of positions before this one. Positions are sorted by pips, and
        then by their counts, the ace point first.
        """
        status, rank = self._opened.rank(counts_of(position))
        _check(status, position)
        return rank

    def position(self, rank: SupportsIndex) -> Position:
        """The position of a rank. Raises `Refused` if the rank is not below ``len(database)``."""
        status, counts = self._opened.position(rank_of(rank))
        if status:
            raise Refused(status, shown(rank))
        return Position._make(counts)

    def ranks(self, positions: AnyPositions) -> memoryview:
        """The ranks of many positions, which are their rows in the tables below, as an array of
        16-bit numbers. `positions` is a numpy array or memoryview of whole numbers with six per
        row, or any sequence of positions. The first call takes 10 ms more, to make a table.

        Raises what `rank` raises for the first row without a rank, with the number of that row.
        """
        opened = self._opened
        rows = rows_of(positions)
        if opened.ranks is None:
            opened.ranks = Ranks(_table(opened, "positions", "B", 6))
        return opened.ranks.of(rows, _no_rank)

    def mean(self, position: AnyPosition) -> Fraction:
        """The minimum expected number of rolls to bear off, over all strategies."""
        opened = self._opened
        told = lib.NumberRoom()
        status = opened.mean(opened.at, counts_of(position), told)
        if status:
            raise _refused(status, position)
        return opened.share(*lib.NUMBER.unpack(told))

    def epc(self, position: AnyPosition) -> EffectivePips:
        """The effective pip count in pips, a fraction with `thousandths` rounded half up."""
        opened = self._opened
        told = lib.PipsRoom()
        _check(opened.epc(opened.at, counts_of(position), told), position)
        return EffectivePips(fraction_of(*lib.PIPS.unpack(told)[: 2 * lib.WORDS]))

    def wastage(self, position: AnyPosition) -> Wastage:
        """The effective pip count minus the pip count, in pips. It is 0 if no checker is left, and
        otherwise above 0.
        """
        return Wastage(self.epc(position) - self.position_info(position).pips)

    def distribution(self, position: AnyPosition) -> Tuple[Fraction, ...]:
        """The probabilities of exactly 0 to 22 rolls (0 to 33 for a board file) with the recorded
        plays. They sum to 1.
        """
        opened = self._opened
        told = lib.SharesRoom()
        _check(opened.distribution(opened.at, counts_of(position), told), position)
        shares = lib.SHARES.unpack(told)[: lib.WORDS * (opened.rolls + 1)]
        return tuple(map(opened.share, *(shares[word :: lib.WORDS] for word in range(lib.WORDS))))

    def within(self, position: AnyPosition, rolls: SupportsIndex) -> Fraction:
        """The chance to be off within `rolls` rolls with the recorded plays. It is 1 from 22 rolls
        on (33 for a board file).

        Raises `BadArgument` if `rolls` is not a whole number from 0 on.
        """
        opened = self._opened
        counts = counts_of(position)
        asked = rolls_of(rolls, lib.MOST_ROLLS)
        told = lib.ChanceRoom()
        _check(opened.within(opened.at, counts, asked, told), position)
        return opened.share(*lib.CHANCE.unpack(told)[: lib.WORDS])

    def variance(self, position: AnyPosition) -> Fraction:
        """The variance of the number of rolls, in rolls squared, by the recorded plays."""
        shares = self.distribution(position)
        mean, squares = (
            sum((rolls**power * share for rolls, share in enumerate(shares)), Fraction(0))
            for power in (1, 2)
        )
        return squares - mean**2

    def standard_deviation(self, position: AnyPosition) -> float:
        """The standard deviation of the number of rolls: the square root of `variance`."""
        return sqrt(self.variance(position))

    def wins(
        self,
        mine: AnyPosition,
        theirs: Optional[AnyPosition] = None,
        on_roll: Literal["mine", "theirs"] = "mine",
    ) -> Fraction:
        """The chance that `mine` is off before `theirs` if both players make the recorded plays.
        `mine` rolls first, unless `on_roll` is ``theirs``. Without `theirs`, both sides come from
        one `Race`, XGID or Position ID.

        The chance is exact for these plays, which minimize the expected number of rolls. Other
        plays usually win slightly more often, sometimes by over 1 %. The cube is left out. Raises
        `BadArgument` if a side is missing.
        """
        if on_roll not in ("mine", "theirs"):
            raise BadArgument(f"who is on roll is mine or theirs: {shown(on_roll)}")
        one, other = sides_of(mine, theirs)
        rolls = self.distribution(one)
        # the chances that the other player is off before, after as many turns
        before = [over_whole(0), *accumulate(self.distribution(other))]
        turns = before if on_roll == "mine" else before[1:]
        chance = over_whole(0)
        for share, past in zip(rolls, turns):
            chance += share * (1 - past)
        return chance

    @staticmethod
    def position_info(position: AnyPosition) -> PositionInfo:
        """The pips and checkers of a position. It needs no database. Raises `Refused` if there are
        more than 15 checkers.
        """
        told = lib.PositionInfoRoom()
        _check(lib.library().position_info(counts_of(position), told), position)
        return PositionInfo._make(lib.POSITION_INFO.unpack(told))

    def positions(self) -> memoryview:
        """All positions by rank, as an array of bytes with six counts per row."""
        return _table(self._opened, "positions", "B", 6)

    def means(self, *, words: bool = False) -> memoryview:
        """The means of all positions by rank, in rolls, as an array of floats, each the nearest to
        the exact number. With `words`, it is an array of 64-bit numbers with three per row: the
        words of the numerator over `denominator`, most significant first. The tables below do the
        same.
        """
        opened = self._opened
        table = _table(opened, "means", "Q", lib.WORDS)
        return table if words else _floats(wide_numbers(table), repeat(opened.denominator))

    def epcs(self, *, words: bool = False) -> memoryview:
        """The effective pip counts of all positions by rank, in pips. With `words`, each row has
        seven numbers: the words of the numerator, those of the denominator, and the thousandths.
        """
        table = _table(self._opened, "epcs", "Q", 2 * lib.WORDS + 1)
        return table if words else _floats(wide_numbers(table), wide_numbers(table, lib.WORDS))

    def wastages(self, *, words: bool = False) -> memoryview:
        """The wastages of all positions by rank, in pips, like `epcs`. None is negative."""
        opened = self._opened
        table, pips = _table(opened, "epcs", "Q", 2 * lib.WORDS + 1), _pips(opened)
        denominators = wide_numbers(table, lib.WORDS)
        # what is taken from the numerator is so many times the denominator, so the terms stay the
        # lowest
        numerators = [
            numerator - denominator * count
            for numerator, denominator, count in zip(wide_numbers(table), denominators, pips)
        ]
        if not words:
            return _floats(numerators, denominators)
        _set_numbers(table, numerators)
        told = table.cast("B").cast("Q")[2 * lib.WORDS :: 2 * lib.WORDS + 1]
        wasted = [thousandths - 1000 * count for thousandths, count in zip(told, pips)]
        told[:] = memoryview(array("Q", wasted))
        return table

    def distributions(self, *, words: bool = False) -> memoryview:
        """The distributions of all positions by rank, with one float per number of rolls in each
        row: 0 to 22, or 0 to 33 for a board file. With `words`, each row has 34 numerators of three
        words.
        """
        opened = self._opened
        if words:
            return _table(opened, "distributions", "Q", _SHARES, lib.WORDS)
        shares = opened.rolls + 1
        numerators = chain.from_iterable(share_rows(opened, shares))
        floats = _floats(numerators, repeat(opened.denominator))
        return floats.cast("B").cast("d", (len(floats) // shares, shares))

    def cdf(self, rolls: SupportsIndex, *, words: bool = False) -> memoryview:
        """The chance of each position, by rank, to be off within `rolls` rolls, in the form that
        `means` has. Raises `BadArgument` if `rolls` is not a whole number from 0 on.
        """
        opened = self._opened
        asked = rolls_of(rolls, opened.rolls)
        numerators = [sum(row) for row in share_rows(opened, asked + 1)]
        if not words:
            return _floats(numerators, repeat(opened.denominator))
        room = bytearray(lib.NUMBER.size * len(numerators))
        table = memoryview(room).cast("Q", (len(numerators), lib.WORDS))
        _set_numbers(table, numerators)
        return table

    def play(self, position: AnyPosition, roll: AnyRoll) -> Play:
        """The recorded play of a roll. No play has a smaller mean; others may be equally good.

        Also raises `Refused` if a die isn't 1 to 6 or no checker is left.
        """
        told = lib.PlayRoom()
        opened = self._opened
        counts = counts_of(position)
        one, other = dice_of(roll)
        _check(opened.play(opened.at, counts, one, other, told), position, roll)
        return _play_of(lib.PLAY.unpack(told))

    @staticmethod
    def play_to(position: AnyPosition, roll: AnyRoll, to: AnyPlay) -> Play:
        """The first play of a roll that leads to the position, or the result of the play, `to`,
        good or bad. It needs no database.

        Raises `Refused` if a die isn't 1 to 6, a position has more than 15 checkers, or the roll
        doesn't lead to `to`.
        """
        told = lib.PlayRoom()
        counts, (one, other) = counts_of(position), dice_of(roll)
        after = counts_after(position, to)
        _check(lib.library().play_to(counts, one, other, after, told), position, roll, after)
        return _play_of(lib.PLAY.unpack(told))

    def loss(self, position: AnyPosition, roll: AnyRoll, to: AnyPlay) -> Fraction:
        """What a play loses in rolls compared with the best one. `to` is the play or the resulting
        position. It is 0 for a best play.

        Raises `Refused` as `play` does, and if the roll doesn't lead to `to`.
        """
        opened = self._opened
        told = lib.FractionRoom()
        counts, (one, other) = counts_of(position), dice_of(roll)
        after = counts_after(position, to)
        _check(opened.loss(opened.at, counts, one, other, after, told), position, roll, after)
        return fraction_of(*lib.FRACTION.unpack(told))

    def moves(self, position: AnyPosition, roll: AnyRoll) -> List[Choice]:
        """Each position that a roll can lead to once, with its loss in rolls, sorted by loss and
        then by rank. Raises `Refused` as `play` does.
        """
        opened = self._opened
        counts = counts_of(position)
        one, other = dice_of(roll)
        count = ctypes.c_size_t()
        for room in (64, lib.RESULTS):
            results = bytearray(room * lib.RESULT.size)
            status = opened.moves(
                opened.at, counts, one, other, lib.address(results), room, ctypes.byref(count)
            )
            if status != BUFFER_TOO_SMALL:
                break
        _check(status, position, roll)
        told = memoryview(results)[: count.value * lib.RESULT.size]
        return [
            Choice(Position._make(result[:6]), fraction_of(*result[6:]))
            for result in lib.RESULT.iter_unpack(told)
        ]

    def answer(self, line: str) -> str:
        """The reply of ``bearoff query`` to a line, without line ending, such as
        ``mean 0,0,0,0,0,1``. A line that is not a query gets a reply that starts with ``error``.
        """
        if not isinstance(line, str):
            raise BadArgument(f"not a line, which is a text as in mean 0,0,0,0,0,1: {shown(line)}")
        opened = self._opened
        # no query has a character beyond ASCII, nor a question mark
        asked = line.encode("ascii", "replace")
        needed = ctypes.c_size_t()
        for room in (4096, lib.REPLY):
            text = ctypes.create_string_buffer(room)
            status = opened.answer_line(
                opened.at, asked, len(asked), text, room, ctypes.byref(needed)
            )
            if status != BUFFER_TOO_SMALL:
                break
        _check(status)
        return text.raw[: needed.value].decode("ascii")

    def upgrade(self) -> bytes:
        """The bytes of a version 2 file with the same bound, means, plays and shares. Raises
        `Refused` for a database of version 2 and for a board file.
        """
        opened = self._opened
        content = bytes(self)
        work, room = bytearray(len(content)), bytearray(len(content))
        filled = ctypes.c_size_t()
        status = lib.on_stack(
            lib.STACK,
            opened.library.upgrade,
            content,
            len(content),
            lib.address(work),
            len(work),
            lib.address(room),
            len(room),
            ctypes.byref(filled),
        )
        _check(status)
        return bytes(memoryview(room)[: filled.value])


def _bytes_of(content: Any) -> bytes:
    """A copy of bytes that nobody else can change, or `BadArgument`."""
    if type(content) is bytes:
        return content
    if isinstance(content, (str, os.PathLike)):
        what = "the path of a file is opened by Database.open"
        raise BadArgument(f"{what}, and this takes bytes: {shown(content)}")
    try:
        return memoryview(content).tobytes()
    except UNREADABLE:
        raise BadArgument(f"neither the path of a file nor bytes: {shown(content)}") from None


def _read(path: Union[str, "os.PathLike[str]"]) -> bytes:
    """A file, or as many of its bytes as tell that it is too long for a database."""
    try:
        with open(path, "rb") as file:
            return file.read(lib.FILE + 1)
    except ValueError as error:
        raise BadArgument(f"{error}: {shown(path)}") from None


def _reopen(kind: Type[_Self], path: str, digest: str) -> _Self:
    """The database of a pickle: the file at that path, if it has the same bytes as then."""
    content = _read(path)
    if sha256(content).hexdigest() != digest:
        raise Changed(f"the file isn't what it was when its database was pickled: {path}")
    database = kind(content)
    database._path = path
    return database


def _index_of(rank: Any) -> int:
    """A whole number, which may be below 0, or `BadArgument`."""
    try:
        return index(rank)
    except TypeError:
        raise BadArgument(f"not a rank, which is a whole number: {shown(rank)}") from None


def _places(ranks: slice, length: int) -> range:
    """The ranks of a slice of so many, or `BadArgument`."""
    try:
        return range(*ranks.indices(length))
    except (TypeError, ValueError):
        raise BadArgument(f"not ranks, which are whole numbers: {shown(ranks)}") from None


def _no_rank(number: int, position: Any) -> BearoffError:
    """The error of a row of many positions that has no rank."""
    try:
        counts = position_of(position)
    except BadArgument as error:
        return BadArgument(f"{error} in row {number}")
    status = TOO_MANY if sum(counts) > MOST_CHECKERS else OVER_BOUND
    return Refused(status, f"{counts} in row {number}")


def _play_of(numbers: Tuple[int, ...]) -> Play:
    """The play of a struct: from and to of four moves, how many there are, and the position."""
    points, count, to = numbers[:8], numbers[8], numbers[9:]
    moves = zip(points[: 2 * count : 2], points[1 : 2 * count : 2])
    return Play(tuple(map(Move._make, moves)), Position._make(to))


def _set_numbers(table: memoryview, numbers: List[int]) -> None:
    """Sets the first number of each row of a table of words."""
    flat = table.cast("B").cast("Q")
    row = len(flat) // len(table)
    for word in range(lib.WORDS):
        shift = 64 * (lib.WORDS - 1 - word)
        flat[word::row] = memoryview(array("Q", [number >> shift & _LOW for number in numbers]))


def _pips(opened: Opened) -> List[int]:
    """The pip counts of all positions by rising rank."""
    flat = _table(opened, "positions", "B", 6).cast("B")
    columns = (flat[point::6].tolist() for point in range(6))
    return [a + 2 * b + 3 * c + 4 * d + 5 * e + 6 * f for a, b, c, d, e, f in zip(*columns)]


def share_rows(opened: Opened, shares: int) -> Iterator[Tuple[int, ...]]:
    """The numerators of the first shares of each position, by rising rank."""
    ranks = range(_asked(opened).length)
    for first in ranks[::_PART]:
        some = ranks[first : first + _PART]
        part = _table(opened, "distributions", "Q", _SHARES, lib.WORDS, ranks=some)
        yield from zip(*(wide_numbers(part, lib.WORDS * share) for share in range(shares)))


def _floats(numerators: Iterable[int], denominators: Iterable[int]) -> memoryview:
    """Fractions as an array of floats."""
    return memoryview(array("d", map(truediv, numerators, denominators)))


def _table(
    opened: Opened, name: str, kind: Literal["B", "Q"], *shape: int, ranks: Optional[range] = None
) -> memoryview:
    """An array of all positions, or of those of some ranks, which belongs to the caller."""
    some = range(_asked(opened).length) if ranks is None else ranks
    room = bytearray(len(some) * prod(shape) * (1 if kind == "B" else 8))
    call = getattr(opened.library, "listed_" + name)
    _check(call(opened.at, some.start, lib.address(room), len(some)))
    return memoryview(room).cast(kind, (len(some), *shape))


def _asked(opened: Opened) -> Opened:
    """The same, where it is open."""
    _check(opened.status)
    return opened


def _check(status: int, position: Any = None, roll: Any = None, to: Any = None) -> None:
    if status:
        raise _refused(status, position, roll, to)


def _refused(status: int, position: Any = None, roll: Any = None, to: Any = None) -> Refused:
    """The refusal of a query, with what was asked, as in ``0,0,0,2,0,0 with (2, 1) to
    1,0,0,0,0,0``.
    """
    asked = "" if position is None else str(position_of(position))
    if roll is not None:
        asked += f" with {shown(roll)}"
    if to is not None:
        asked += f" to {position_of(to)}"
    return Refused(status, asked)
