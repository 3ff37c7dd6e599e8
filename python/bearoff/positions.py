"""Positions and plays, and how what a caller gives is read as a position, a roll or a rank."""

from __future__ import annotations

import fractions
import re
from collections.abc import Mapping
from itertools import islice
from numbers import Rational, Real
from operator import index
from reprlib import Repr
from typing import (
    Any,
    Literal,
    NamedTuple,
    Optional,
    Protocol,
    Sequence,
    SupportsIndex,
    Tuple,
    Union,
)

from .errors import BadArgument
from .exact import Fraction
from .moves import NoMoves, is_play, steps_of
from .texts import MOST_TEXT, printable, short

_BLANKS = "[ \t\r\n\u00a0]*"
_COUNT = f"{_BLANKS}(0|[1-9][0-9]{{0,2}}){_BLANKS}"
_TEXT = re.compile(",".join([_COUNT] * 6))
_ROLL = re.compile(f"{_BLANKS}([0-9]){_BLANKS}[-,]?{_BLANKS}([0-9]){_BLANKS}")
# what a message says is wanted
_A_POSITION = "a position, which is six counts as in 0,0,0,0,0,1"
_A_ROLL = 'a roll of two dice, as in 21 or "2-1"'


class Position(NamedTuple):
    """How many checkers stand on each point of the home board, the ace point first; the others are
    borne off. As a text it is the six counts, as in ``0,0,0,0,0,1``.
    """

    one: int
    two: int
    three: int
    four: int
    five: int
    six: int

    @classmethod
    def parse(cls, text: str) -> Position:
        """Reads six counts separated by commas, with optional blanks, without signs or leading
        zeros. Raises `BadArgument` for any other text.
        """
        counts = _match(_TEXT, text) if isinstance(text, str) else None
        if not counts:
            raise BadArgument(f"not {_A_POSITION}: {shown(text)}")
        return cls._make(map(int, counts.groups()))

    def __str__(self) -> str:
        return ",".join(map(str, self))

    @property
    def pips(self) -> int:
        """The pip count: the sum over all checkers of their points."""
        return sum(point * count for point, count in enumerate(self, 1))

    @property
    def checkers(self) -> int:
        """How many checkers are on the board."""
        return sum(self)


class Move(NamedTuple):
    """One checker's move, from point 1 to 6 to a lower one; 0 means borne off."""

    source: int
    target: int


class Rounded(Fraction):
    """A number of pips: a `fractions.Fraction` that also has `thousandths`. Arithmetic with it
    gives plain fractions.
    """

    __slots__ = ()

    @property
    def thousandths(self) -> int:
        """The number in thousandths, rounded half up."""
        return (2000 * self.numerator + self.denominator) // (2 * self.denominator)


class EffectivePips(Rounded):
    """An effective pip count in pips: 49/6 per roll of the mean (GNU Backgammon manual)."""

    __slots__ = ()


class Wastage(Rounded):
    """An effective pip count minus the pip count, in pips. It is never negative."""

    __slots__ = ()


class PositionInfo(NamedTuple):
    """The pip count of a position, 0 to 90, its checkers, 0 to 15, and those of 15 borne off."""

    pips: int
    checkers: int
    off: int


class Play(NamedTuple):
    """A play: its moves in order, and the position after it."""

    moves: Tuple[Move, ...]
    to: Position

    @property
    def text(self) -> str:
        """The moves in usual notation, such as ``4/2 2/1`` and ``6/off``."""
        return " ".join(f"{source}/{target or 'off'}" for source, target in self.moves)


class Choice(NamedTuple):
    """A position that a roll can lead to, and its loss in rolls compared with the best one."""

    to: Position
    loss: fractions.Fraction


OnRoll = Literal["bottom", "top"]
"""Who is on roll. The player at the bottom of the board has the capital letters of an XGID, and is
player 1 of GNU Backgammon.
"""


class Race(NamedTuple):
    """A bearoff race: the checkers of the player on roll, those of the other player, the dice, the
    higher first, and who is on roll. What a text doesn't tell is None: six counts tell the first
    alone, and a Position ID the first two.
    """

    mine: Position
    theirs: Optional[Position] = None
    dice: Optional[Tuple[int, int]] = None
    on_roll: Optional[OnRoll] = None


class Numbers(Protocol):
    """Whole numbers in an order: a tuple, a list, or an array of numpy in one dimension."""

    def __len__(self) -> int:
        ...

    def __getitem__(self, place: int, /) -> SupportsIndex:
        ...


class Array(Protocol):
    """What numpy takes as an array, as its own arrays and the frames of pandas."""

    def __array__(self) -> Any:
        ...


AnyPosition = Union[str, Numbers, Race]
"""What is taken as a position: a `Position`, six counts in a tuple, a list or an array, or a text
that `bearoff.notation.read` takes: six counts in any usual spelling, an XGID or a Position ID. Of
an XGID, a Position ID and a `Race` it is the position of the player on roll.
"""

AnyRoll = Union[str, SupportsIndex, Numbers]
"""What is taken as a roll: its two dice in either order, in a tuple, a list or an array, or in a
text like ``21`` or ``2-1``, or the number 21.
"""

AnyPlay = Union[AnyPosition, Play, Choice]
"""What is taken as a play: a position that it leads to, a `Play`, a `Choice`, or its moves as a
player writes them, as in ``4/2 2/1``, ``6/off(2)`` or ``6/4/3``.
"""

AnyPositions = Union[memoryview, Array, Sequence[AnyPosition]]
"""What is taken as many positions: an array of numpy or a memoryview with six counts in each row,
or any sequence of positions.
"""


UNREADABLE = (TypeError, ValueError, BufferError, NotImplementedError)
"""What is raised where something has no bytes or numbers that can be read, as by a view of memory
that was released.
"""

# what `bytes` takes as its elements, and not as its content or its length
_LISTS = frozenset((tuple, list, Position))

# a text has at most three digits for a count
_MOST_COUNT = 999
_MOST_MOVES = 4
_BYTE = 255
_MOST_RANK = 65535


def counts_of(position: AnyPosition) -> bytes:
    """The six counts as the library takes them, or `BadArgument`. A count that a byte can't hold
    becomes 255, which is too many too.
    """
    if type(position) in _LISTS:
        try:
            counts = bytes(position)  # type: ignore[arg-type]
        except (TypeError, ValueError):
            counts = b""
        if len(counts) == 6:
            return counts
    return bytes(min(count, _BYTE) for count in position_of(position))


def position_of(position: AnyPosition) -> Position:
    """The position that is given, or `BadArgument`."""
    if isinstance(position, Race):
        return position_of(position.mine)
    if isinstance(position, str):
        told = _match(_TEXT, position)
        if told:
            return Position._make(map(int, told.groups()))
        # here, since that module stands on this one
        from .notation import read

        return read(position).mine
    counts = _numbers(position, 6, _A_POSITION)
    if not all(0 <= count <= _MOST_COUNT for count in counts):
        raise BadArgument(f"not {_A_POSITION}: {shown(position)}")
    return Position._make(counts)


def sides_of(
    mine: AnyPosition, theirs: Optional[AnyPosition] = None
) -> Tuple[AnyPosition, AnyPosition]:
    """Both sides of a race, of which the first may tell the second one, or `BadArgument`."""
    if theirs is not None:
        return mine, theirs
    if isinstance(mine, str):
        from .notation import read

        mine = read(mine)
    if not isinstance(mine, Race) or mine.theirs is None:
        raise BadArgument(
            f"the opponent's position is missing, as a second one or in an XGID: {shown(mine)}"
        )
    return mine.mine, mine.theirs


def counts_after(position: AnyPosition, play: AnyPlay) -> bytes:
    """The six counts that a play from a position leads to, or `BadArgument`."""
    if isinstance(play, (Play, Choice)):
        return counts_of(play.to)
    # six counts have more slashes between them than a roll has moves
    if not (isinstance(play, str) and is_play(play) and play.count("/") <= _MOST_MOVES):
        return counts_of(play)
    counts = [0, *position_of(position)]
    try:
        for source, target, is_hit in steps_of(play):
            if source >= len(counts):
                raise NoMoves(f"no checker of a bearoff stands on point {source}")
            if is_hit:
                raise NoMoves("no checker is hit in a bearoff")
            counts[source] -= 1
            counts[target] += 1
    except NoMoves as error:
        raise BadArgument(f"{error}: {shown(play)}") from None
    # they may be told in another order than that in which they can be made
    for point, count in enumerate(counts):
        if count < 0:
            raise BadArgument(f"there is no checker on point {point} for {shown(play)}")
    return bytes(min(count, _BYTE) for count in counts[1:])


def dice_of(roll: AnyRoll) -> Tuple[int, int]:
    """The two dice as the library takes them, or `BadArgument`. A number that a byte can't hold
    becomes 0, which is none that a die shows.
    """
    if isinstance(roll, str):
        digits = _match(_ROLL, roll)
        if not digits:
            raise BadArgument(f"not {_A_ROLL}: {shown(roll)}")
        return int(digits[1]), int(digits[2])
    if hasattr(roll, "__index__") and not hasattr(roll, "__len__"):
        both = number_of(roll, _A_ROLL)
        if not 10 <= both <= 99:
            raise BadArgument(f"not {_A_ROLL}: {shown(roll)}")
        return both // 10, both % 10
    one, other = (die if 0 <= die <= _BYTE else 0 for die in _numbers(roll, 2, _A_ROLL))
    return one, other


def _match(expression: "re.Pattern[str]", text: str) -> "Optional[re.Match[str]]":
    """What an expression finds in all of a text, which may be of any length."""
    return expression.fullmatch(text) if len(text) <= MOST_TEXT else None


def shown(thing: object) -> str:
    """A short text of anything that was given, on one line, for a message."""
    try:
        return short(printable(" ".join(Repr().repr(thing).split())))
    except Exception:
        return f"something of the type {type(thing).__name__}"


def rank_of(rank: SupportsIndex) -> int:
    """The rank as the library takes it, or `BadArgument`. One over 65,535 becomes 65,535, which no
    position has either.
    """
    return min(number_of(rank, "a rank"), _MOST_RANK)


def rolls_of(rolls: SupportsIndex, most: int) -> int:
    """A number of rolls, or `BadArgument`. One over the most becomes that, within which all
    checkers are off.
    """
    return min(number_of(rolls, "a number of rolls"), most)


def bound_of(bound: SupportsIndex) -> int:
    """The pip bound as the library takes it, or `BadArgument`. One over 255 becomes 255, which is
    over 90 too.
    """
    return min(number_of(bound, "a pip bound"), _BYTE)


def number_of(number: Any, what: str) -> int:
    """A whole number from 0 on, or `BadArgument`."""
    try:
        told = index(number)
    except TypeError:
        told = -1
    if told < 0:
        raise BadArgument(f"not {what}: {shown(number)}")
    return told


def _numbers(items: Any, count: int, what: str) -> Tuple[int, ...]:
    """So many whole numbers of something that has an order and a length, or `BadArgument`. Floats
    are taken where they are whole.
    """
    numbers: Tuple[int, ...] = ()
    if hasattr(items, "__len__") and hasattr(items, "__getitem__"):
        try:
            if len(items) == count and not isinstance(items, Mapping):
                numbers = tuple(map(_whole, islice(items, count + 1)))
        except _NotWhole as error:
            raise BadArgument(f"not {what}, as {error} is not whole: {shown(items)}") from None
        except UNREADABLE:
            pass
    if len(numbers) != count:
        raise BadArgument(f"not {what}: {shown(items)}")
    return numbers


class _NotWhole(Exception):
    """A float that is no whole number."""


def _whole(number: Any) -> int:
    """A whole number, also as a float; TypeError where it is no number, or another kind of one."""
    try:
        return index(number)
    except TypeError:
        if not isinstance(number, Real) or isinstance(number, Rational):
            raise
    told = float(number)
    if not told.is_integer():
        raise _NotWhole(shown(told))
    return int(told)
