"""Exact, formally verified bearoff tables for backgammon.

A database is a file that ``bearoff build`` writes or that `Database.build` makes. A board file,
which ``bearoff build --board`` writes, is one for the whole home board. `Database.open` verifies a
file and accepts it if and only if it is right: every mean is the minimum over all strategies, the
recorded plays reach these means, and the recorded shares are those of these plays. This is proved
for the library that this package calls, and so are the library's answers. The package itself is
tested.

    >>> database = Database.open("race.db")
    >>> database.mean("0,0,0,0,0,1")
    Fraction(5, 4)

A position is six counts of checkers, the ace point first, as numbers or text, an XGID, or a
Position ID of GNU Backgammon. A roll is two dice in either order. All numbers are exact: a
`fractions.Fraction` in rolls or pips, or a probability. Whole tables are arrays by rank, as floats
or exact, which `memoryview` and numpy read without a copy; `Database.ranks` finds the rows of many
positions. `export` writes them as CSV, JSON or SQLite. `bearoff.notation` reads and writes
positions of other programs, and `bearoff.gnubg` bearoff files of GNU Backgammon. `grade` lists
what the bearoff plays of a match lost. ``python -m bearoff`` offers all this on the command line.
"""

from . import gnubg, notation
from ._library import __version__
from .database import Database
from .errors import (
    BadArgument,
    BadMatch,
    BearoffError,
    Changed,
    Damaged,
    NoLibrary,
    NotARace,
    OutOfRange,
    Refused,
)
from .exact import WHOLE
from .grading import Graded, GradedPlay, GradedPlayer, grade
from .positions import Choice, EffectivePips, Move, Play, Position, PositionInfo, Race, Wastage
from .tables import export

__all__ = [
    "WHOLE",
    "BadArgument",
    "BadMatch",
    "BearoffError",
    "Changed",
    "Choice",
    "Damaged",
    "Database",
    "EffectivePips",
    "Graded",
    "GradedPlay",
    "GradedPlayer",
    "Move",
    "NoLibrary",
    "NotARace",
    "OutOfRange",
    "Play",
    "Position",
    "PositionInfo",
    "Race",
    "Refused",
    "Wastage",
    "__version__",
    "export",
    "gnubg",
    "grade",
    "notation",
]
