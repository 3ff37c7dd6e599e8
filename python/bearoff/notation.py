"""Positions as players have them: XGIDs, the IDs of GNU Backgammon, and six counts in any usual
spelling.

    >>> from bearoff.notation import read
    >>> read("XGID=-ABC--D------------a-b--c-:0:0:1:21:0:0:0:0:10").mine
    Position(one=1, two=2, three=3, four=0, five=0, six=4)

What is read is a `Race`: the checkers of both players, the dice, and who is on roll, as far as the
text tells them. A text that is no bearoff race, or that can't be read without a guess, is refused
as `NotARace`, whose `reason` is one of `REASONS`. Reading needs the shared library; `to_xgid` and
`to_gnubg` write a race without it.
"""

from __future__ import annotations

import base64
import re
from typing import Callable, List, NoReturn, Optional, Sequence, Tuple

from . import _library as lib
from .errors import NotARace
from .positions import OnRoll, Position, Race, position_of
from .texts import MOST_TEXT, in_ascii, short

__all__ = [
    "REASONS",
    "NotARace",
    "OnRoll",
    "Race",
    "from_gnubg",
    "from_xgid",
    "read",
    "to_gnubg",
    "to_xgid",
]

REASONS = ("malformed", "too-many", "bar", "outside", "contact", "other-side")
"""Why a text is refused: it isn't written as its notation says, or leaves something to guess; a
player has more than 15 checkers; a checker is on the bar; the player on roll has one outside the
home board; the other player has one behind one of the player on roll; or has one outside the home
board.
"""


_SPACE = " \t\r\n\f"
_GAP = f"[{_SPACE}]"
_MOST_CHECKERS = 15
_POINTS = 24

_ME = "the player on roll"
_OTHER = "the other player"
_SEATS: Tuple[Optional[OnRoll], ...] = (None, "bottom", "top")
_NONE = "neither an XGID, an ID of GNU Backgammon nor six counts"

# why what the library read is no race, by its status: the reason, and what is wrong
_FAULTS = {
    3: ("too-many", "{who} has more than 15 checkers"),
    32: ("malformed", f"both players have a checker on point {{place}} of {_ME}"),
    33: ("bar", "{who} is on the bar"),
    34: (
        "outside",
        f"the farthest checker of {_ME} is on point {{place}}, outside the home board",
    ),
    35: (
        "contact",
        f"there is still contact: the other player's last checker is on point {{place}} of {_ME}",
    ),
    36: (
        "other-side",
        f"the farthest checker of {_OTHER} is on point {{place}}, outside the home board",
    ),
}


def read(text: str) -> Race:
    """The race of an XGID, of a Position ID with or without a Match ID, or of six counts, that of
    the ace point first. Between the counts stand commas, semicolons, slashes, hyphens or spaces,
    the same throughout, and around them may be brackets. What an XGID or a Match ID says of the
    cube, the score and the match is not asked.
    """
    bare = _bare(text)
    counts = _counts_of(bare)
    # three digits are too many checkers already
    usual = ",".join(count[:3] for count in counts) if len(counts) == 6 else bare
    return _race(usual, bare, _why)


def from_xgid(text: str) -> Race:
    """The race of an XGID, of ten fields; ``XGID=`` may be missing. Capital letters are the
    checkers of the player at the bottom, the second character is that player's point 1, and the
    bars are the two characters at the ends. The dice are told where they are thrown, and not where
    a double is offered.
    """
    bare = _bare(text)
    return _race(bare if _is_xgid(bare) else "", bare, _why_no_xgid)


def from_gnubg(text: str) -> Race:
    """The race of a Position ID, alone or with a Match ID behind a colon or a space, or both as
    GNU Backgammon prints them above its board. The Position ID is seen by the player on roll.
    """
    bare = _bare(text)
    return _race("" if "," in bare or _is_xgid(bare) else bare, bare, _why_no_ids)


def _is_xgid(bare: str) -> bool:
    """Whether a text has as many fields as an XGID, which the library takes for one then."""
    return bare.count(":") == len(_FIELDS)


def _race(asked: str, bare: str, why: Callable[[str], str]) -> Race:
    """The race that the library reads, or the refusal of a text."""
    content, race, place = asked.encode("ascii", "replace"), lib.RaceRoom(), lib.PlaceRoom()
    status = lib.library().read_position(content, len(content), race, place)
    if status in _FAULTS:
        reason, what = _FAULTS[status]
        point = place.raw[0]
        _refuse(reason, what.format(who=_ME if point == 1 else _OTHER, place=point), bare)
    if status:
        _refuse("malformed", why(bare) or _NONE, bare)
    *counts, has_theirs, high, low, on_roll = lib.RACE.unpack(race)
    return Race(
        Position._make(counts[:6]),
        Position._make(counts[6:]) if has_theirs else None,
        (high, low) if high else None,
        _SEATS[on_roll],
    )


_COUNT = "(?:0|[1-9][0-9]*)"
_BETWEEN = (*(f"{_GAP}*{separator}{_GAP}*" for separator in ",;/"), "-", f"{_GAP}+")
_COUNTS = re.compile(f"{_COUNT}(?:{'|'.join(f'(?:{it}{_COUNT})*' for it in _BETWEEN)})")


def _counts_of(bare: str) -> List[str]:
    """The counts of a text in any usual spelling, or none."""
    if bare[:1] + bare[-1:] in ("()", "[]", "{}"):
        bare = bare[1:-1].strip(_SPACE)
    return re.findall("[0-9]+", bare) if _COUNTS.fullmatch(bare) else []


_NUMBER = "[0-9]{1,4}"
# the fields of an XGID behind the board: what each is called, and what it can be
_FIELDS = (
    ("the cube", _NUMBER),
    ("the owner of the cube", "-1|0|1"),
    ("the turn", "-1|1"),
    ("the dice", "00|[1-6][1-6]|[DBR]"),
    ("a score", _NUMBER),
    ("a score", _NUMBER),
    ("Crawford and Jacoby", _NUMBER),
    ("the match length", _NUMBER),
    ("the greatest cube", _NUMBER),
)
_LABELS = ("", "GNU", "Backgammon", "Position", "Match", "ID")


def _why(bare: str) -> str:
    """Why the library reads no race in a text, or nothing where that can't be said."""
    if not bare:
        return "there is no text"
    if bare[:4].lower() == "xgid" or bare.count(":") > 2:
        return _why_no_xgid(bare)
    if re.fullmatch(rf"[\[({{]?[-+.,;/0-9{_SPACE}]+[\])}}]?", bare):
        counts = _counts_of(bare)
        if counts:
            return f"a position is six counts, and these are {len(counts)}"
        return "six counts are whole numbers from 0 on with one separator between them"
    if re.search(rf"Position ID|^[A-Za-z0-9+/]{{10,18}}(?:[:={_SPACE}]|\Z)", bare):
        return _why_no_ids(bare)
    return ""


def _why_no_xgid(bare: str) -> str:
    """The same, where it should be an XGID."""
    is_named = bare.startswith("XGID=")
    if bare[:4].lower() == "xgid" and not is_named:
        return "an XGID begins with XGID= in capitals, and its case tells whose checkers they are"
    board, *fields = (bare[5:] if is_named else bare).split(":")
    if len(fields) != len(_FIELDS):
        return f"an XGID has 10 fields, and this one {len(fields) + 1}"
    if len(board) != _POINTS + 2:
        return f"the board of an XGID has 26 characters, and this one {len(board)}"
    if not re.fullmatch("[-A-Oa-o]+", board):
        return "the board of an XGID has a character that is none of -, A to O and a to o"
    if re.search(r"^[A-O]|[a-o]\Z", board):
        return "a bar of the XGID has a checker of the player whose bar it isn't"
    for (name, pattern), field in zip(_FIELDS, fields):
        if not re.fullmatch(pattern, field):
            return f"{name} of the XGID can't be {field or 'empty'}"
    if fields[3] in ("B", "R"):
        return "where a double was turned back the XGID leaves open who is on roll"
    return ""


def _why_no_ids(bare: str) -> str:
    """The same, where it should be IDs of GNU Backgammon."""
    words = [word for word in re.split(f"[:{_SPACE}]", bare) if word not in _LABELS]
    if not 1 <= len(words) <= 2:
        return "not a Position ID, nor one with a Match ID"
    if words[0].endswith("=="):
        words[0] = words[0][:-2]
    for word, length, what in zip(words, (14, 12), ("a Position ID", "a Match ID")):
        if len(word) != length:
            return f"{what} has {length} characters, and this one {len(word)}"
        if not re.fullmatch("[A-Za-z0-9+/]+", word):
            return f"{what} has a character that is none of A to Z, a to z, 0 to 9, + and /"
    return "the ID doesn't encode a position, or its dice are not 1 to 6"


def _bare(text: str) -> str:
    """A text without the blanks around it, in which no blank is a no-break space."""
    if not isinstance(text, str):
        raise NotARace(
            "malformed", f"a text is wanted, and not something of the type {type(text).__name__}"
        )
    if len(text) > MOST_TEXT:
        what = f"a text of more than {MOST_TEXT} characters is no position"
        _refuse("malformed", what, text[:MOST_TEXT])
    return text.replace("\u00a0", " ").strip(_SPACE)


def _refuse(reason: str, what: str, text: str) -> NoReturn:
    """Raises the error, with what can be shown of a text on one line."""
    shown = short(in_ascii(re.sub("[ \t\r\n\u00a0]+", " ", text).strip(" ")))
    line = in_ascii(what)
    raise NotARace(reason, f"{line}: {shown}" if shown else line)


def to_xgid(race: Race) -> str:
    """The XGID of a race, of a money game without Jacoby and beavers and with the cube in the
    middle. Where the race doesn't tell who is on roll, that player is put at the bottom. Raises
    `NotARace` where a side has more than 15 checkers, the other player's checkers aren't told, or
    the dice are none; and `BadArgument` where what should be a position is none.
    """
    mine, theirs, dice, on_roll = _told(race)
    board = ["-"] * (_POINTS + 2)
    capitals = on_roll != "top"
    for point, (here, there) in enumerate(zip(mine, theirs), 1):
        own, opposite = (point, _POINTS + 1 - point) if capitals else (_POINTS + 1 - point, point)
        if here:
            board[own] = chr((64 if capitals else 96) + here)
        if there:
            board[opposite] = chr((96 if capitals else 64) + there)
    turn = 1 if capitals else -1
    return f"XGID={''.join(board)}:0:0:{turn}:{dice[0]}{dice[1]}:0:0:0:0:10"


def to_gnubg(race: Race) -> str:
    """The Position ID of a race, and behind a colon the Match ID where the race tells the dice or
    who is on roll: that of a game as `to_xgid` writes it. It raises what `to_xgid` raises.
    """
    mine, theirs, dice, on_roll = _told(race)
    ones = "".join("1" * count + "0" for side in (theirs, mine) for count in (*side, *[0] * 19))
    position = _base64(int(ones[::-1], 2), 10)
    if not any(dice) and on_roll is None:
        return position
    player = 0 if on_roll == "top" else 1
    match = 3 << 4 | player << 6 | 1 << 8 | player << 11 | dice[0] << 15 | dice[1] << 18 | 1 << 66
    return f"{position}:{_base64(match, 9)}"


def _base64(number: int, length: int) -> str:
    return base64.b64encode(number.to_bytes(length, "little")).decode("ascii").rstrip("=")


def _told(race: Race) -> Tuple[Position, Position, Sequence[int], Optional[OnRoll]]:
    """What a race tells, once it can be written. The dice are zeros where they aren't told."""
    mine, theirs, dice, on_roll = race
    if theirs is None:
        raise NotARace("other-side", "the checkers of the other player aren't told")
    sides = position_of(mine), position_of(theirs)
    for who, side in zip((_ME, _OTHER), sides):
        if sum(side) > _MOST_CHECKERS:
            raise NotARace("too-many", f"{who} has more than 15 checkers: {side}")
    if on_roll not in (None, "bottom", "top"):
        raise NotARace("malformed", "who is on roll is bottom, top or not told")
    if dice is None:
        return (*sides, (0, 0), on_roll)
    if len(dice) != 2 or not all(die in range(1, 7) for die in dice):
        raise NotARace("malformed", "the dice are two numbers from 1 to 6")
    return (*sides, sorted(dice, reverse=True), on_roll)
