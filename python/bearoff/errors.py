"""The errors of this package. Each is a `BearoffError`, and so a ValueError.

System errors stay Python's own: OSError and MemoryError.
"""

from __future__ import annotations

from typing import Optional, Tuple, Type

from .texts import MOST_TEXT, in_ascii, short

NOT_OPEN = 1
TOO_MANY = 3
OVER_BOUND = 4
NOT_LEGAL = 6
BUFFER_TOO_SMALL = 8
NO_RANK = 10

_REASONS = {
    NOT_OPEN: "the database is not open",
    2: "a die is not 1 to 6",
    TOO_MANY: "more than 15 checkers",
    OVER_BOUND: "more pips than the bound",
    5: "no checker is left",
    NOT_LEGAL: "the roll doesn't lead there",
    7: "the bytes changed since they were verified",
    BUFFER_TOO_SMALL: "the buffer is too small",
    9: "the file is of version 2 already",
    NO_RANK: "the database has no position of that rank",
    18: "the version is not 1 or 2",
}


# why bytes are refused, by their first fault
_FAULTS = {
    "header too-short": "it is shorter than any database",
    "header bad-magic": "it doesn't start like a bearoff file",
    "header bad-version": "only versions 1, 2 and 3 are known",
    "header bad-length": "its length differs from the one in its header",
}


class BearoffError(ValueError):
    """The base class of all errors of this package."""


class BadArgument(BearoffError):
    """An argument is not a position, roll, rank, pip bound, line or file; this includes released
    memory views and texts that are too long.
    """


class NotARace(BadArgument):
    """A text is not a bearoff race, or a race can't be written. `reason` is one of
    `bearoff.notation.REASONS`; the message says what is wrong and quotes the text.
    """

    def __init__(self, reason: str, line: str) -> None:
        super().__init__(line)
        self.reason = reason
        self.line = line

    def __reduce__(self) -> Tuple[Type[NotARace], Tuple[str, str]]:
        return type(self), (self.reason, self.line)


class BadMatch(BadArgument):
    """A text is not a match, or can't be replayed. `reason` is ``malformed`` (not the format of a
    match), ``illegal`` (a play is impossible), ``turn`` (the wrong player rolls) or ``variation``
    (not backgammon). `line` is the line number, from 1. The message has the number, what is wrong,
    and the line.
    """

    def __init__(self, reason: str, line: int, what: str, text: str = "") -> None:
        shown = short(in_ascii(" ".join(text[:MOST_TEXT].split())))
        told = in_ascii(what[:MOST_TEXT])
        super().__init__(f"line {line}: {told}: {shown}" if shown else f"line {line}: {told}")
        self.reason = reason
        self.line = line
        self.what = what
        self.text = text

    def __reduce__(self) -> Tuple[Type[BadMatch], Tuple[str, int, str, str]]:
        return type(self), (self.reason, self.line, self.what, self.text)


class Refused(BearoffError):
    """The library refused a query. `status` is the number that it returned, as in ``bearoff.h``.

    The message says why, and quotes the query. If several reasons apply, it is the first of these:
    the database is closed, a die isn't 1 to 6, a position has more than 15 checkers, the first
    position has more pips than the bound or no checker left, the roll doesn't lead to the other
    position, or no position has that rank. `BadArgument` comes before all of these.
    """

    def __init__(self, status: int, asked: str = "") -> None:
        reason = _REASONS.get(status, f"status {status}")
        super().__init__(f"{reason}: {asked}" if asked else reason)
        self.status = status
        self.asked = asked

    def __reduce__(self) -> Tuple[Type[Refused], Tuple[int, str]]:
        return type(self), (self.status, self.asked)


class OutOfRange(Refused, IndexError):
    """An index is not a rank of the database."""


class Damaged(BearoffError):
    """The bytes failed verification. `line` names the first fault, such as ``mean rank 1``, and
    `path` the file, if it was opened by its path.
    """

    def __init__(self, status: int, line: str, path: Optional[str] = None) -> None:
        why = _FAULTS.get(line)
        what = f"{line} ({why})" if why else line
        super().__init__(f"{in_ascii(path)}: not a valid database: {what}" if path else what)
        self.status = status
        self.line = line
        self.path = path

    def __reduce__(self) -> Tuple[Type[Damaged], Tuple[int, str, Optional[str]]]:
        return type(self), (self.status, self.line, self.path)


class Changed(BearoffError):
    """The file of a pickled database has changed."""


class NoLibrary(BearoffError, OSError):
    """The shared library is missing, or its version doesn't fit this package."""
