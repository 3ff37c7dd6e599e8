"""Matches as text files: the `.mat` form of Jellyfish, which GNU Backgammon and XG export, and the
`.sgf` form in which GNU Backgammon saves them.

    >>> from bearoff.matches import read_match
    >>> match = read_match(open("match.mat", encoding="utf-8").read())
    >>> match.length, match.names, len(match.plays)
    (5, ('Ann', 'Bob'), 185)

`read_match` replays each game on a board of its own, and tells every roll with what was played. A
text that isn't written so, or whose plays can't be made on the board, is refused as `BadMatch`
with the number of its line; so is one of more than ten million characters, of more than 500,000
lines or parts, or of more than 200,000 rolls, and a line or a name of more than a thousand
characters. The time that it takes grows as the length of the text does. Outside the bearoff a play
is not compared with all plays of its roll. Nothing here needs the shared library.
"""

from __future__ import annotations

import itertools
import re
from typing import Dict, Iterator, List, NamedTuple, NoReturn, Optional, Sequence, Tuple

from .errors import BadArgument, BadMatch
from .moves import BAR as _BAR
from .moves import NoMoves, is_play, steps_of
from .positions import Position, shown
from .texts import MOST_MATCH, MOST_PARTS, MOST_ROLLS, MOST_TEXT, short

__all__ = ["BadMatch", "Match", "MatchPlay", "read_match"]

_HOME = 6
_START = {24: 2, 13: 5, 8: 3, 6: 5}

Board = Tuple[int, ...]
"""The checkers of one player on the points 1 to 24, as that player counts them, behind those that
are off, which are not counted, and before those on the bar: 26 numbers.
"""


class MatchPlay(NamedTuple):
    """A roll of a match and what was played: the number of the game, of the move in it, and of the
    line in the file; the player, 0 or 1, in the left or the right column; the dice as they stand
    there; the play as it stands there, which is empty where nothing was played; the player's
    checkers before and after it; and those of the other player before it.
    """

    game: int
    move: int
    line: int
    player: int
    dice: Tuple[int, int]
    text: str
    before: Board
    after: Board
    other: Board

    @property
    def is_bearoff(self) -> bool:
        """Whether all checkers of the player are home and past the other player's."""
        if any(self.before[_HOME + 1 :]):
            return False
        highest = max((point for point in range(1, _HOME + 1) if self.before[point]), default=0)
        # a point of the other player is counted from the other end, and the bar is behind all
        # points
        theirs = (25 - point for point in range(1, _BAR + 1) if self.other[point])
        nearest = min(theirs, default=_BAR)
        return 0 < highest < nearest

    @property
    def position(self) -> Position:
        """The player's home board before the play."""
        return Position._make(self.before[1 : _HOME + 1])

    @property
    def to(self) -> Position:
        """The player's home board after the play."""
        return Position._make(self.after[1 : _HOME + 1])


class Match(NamedTuple):
    """A match: its length in points, which is 0 for a session of money games; the names of the two
    players, the one of the left column first; how many games it has; its rolls in their order; and
    the numbers of the games whose end is not in the text.
    """

    length: int
    names: Tuple[str, str]
    games: int
    plays: Tuple[MatchPlay, ...]
    unfinished: Tuple[int, ...]


# blanks of other kinds than those of ASCII, ends of lines of other systems, and the mark that begins
# some files: each is a blank
_BLANK = re.compile(
    "[\v\f\r\x1c-\x1f\x85\xa0\u1680\u2000-\u200a\u2028\u2029\u202f\u205f\u3000\ufeff]"
)
_LENGTH = re.compile(r" *([0-9]{1,5}) point match *", re.IGNORECASE | re.ASCII)
_VARIATION = re.compile(r'; *\[Variation "([^"]*)"\] *', re.IGNORECASE | re.ASCII)
_GAME = re.compile(r" *Game ([0-9]{1,6}) *")
_SCORE = re.compile(r" : [0-9]{1,6}(?= |$)")
_NUMBERED = re.compile(r" *([0-9]{1,6})\)(.*)")
_WINS = re.compile(r" *Wins [0-9]{1,6} points?(?: and the match)? *")

# what stands in a column beside rolls; a roll with what was played is the first kind
_ROLL = re.compile(r"([1-6])([1-6]):")
_WORDS = re.compile(
    r"Doubles => [0-9]{1,6}|Takes|Drops|Wins [0-9]{1,6} points?(?: and the match)?"
)
# .. which are so many words at most
_MOST_WORDS = len("Wins 2 points and the match".split())
_NOTHING = "Cannot Move"

# the left column begins behind the number, and the right one, where the left one is empty, far
# behind it
_LEFT = 4
_RIGHT = 12


def read_match(text: str) -> Match:
    """The match of a text in the `.mat` form or, where it begins with a parenthesis, in the `.sgf`
    form. Raises `BadMatch` for any other text.
    """
    if not isinstance(text, str):
        raise BadArgument(f"not the text of a match: {shown(text)}")
    if len(text) > MOST_MATCH:
        raise BadMatch("malformed", 1, f"a match has at most {MOST_MATCH} characters")
    text = _BLANK.sub(" ", text.replace("\r\n", "\n"))
    if text.lstrip().startswith("("):
        return _SgfReader().whole(text)
    reader = _Reader()
    lines = text.split("\n", MOST_PARTS)
    if len(lines) > MOST_PARTS:
        raise BadMatch("malformed", MOST_PARTS + 1, f"a match has at most {MOST_PARTS} lines")
    for number, line in enumerate(lines, 1):
        reader.read(number, line)
    return reader.end()


class _Reader:
    """Reads a match line by line."""

    def __init__(self) -> None:
        self.number = 0
        self.text = ""
        self.length: Optional[int] = None
        self.names: Optional[Tuple[str, str]] = None
        self.games = 0
        self.plays: List[MatchPlay] = []
        self.unfinished: List[int] = []
        # the checkers of both players in the game that is being read, where its players were named
        self.boards: Optional[List[List[int]]] = None
        self.is_named = True
        self.is_over = True
        self.move = 0
        self.last: Optional[int] = None

    def refuse(self, reason: str, what: str) -> NoReturn:
        raise BadMatch(reason, self.number, what, self.text)

    def read(self, number: int, line: str) -> None:
        """Reads one line."""
        self.number, self.text = number, line
        if len(line) > MOST_TEXT:
            if line.lstrip().startswith(";"):
                return
            self.refuse("malformed", f"a line has at most {MOST_TEXT} characters")
        self.text = line.expandtabs()
        variation = _VARIATION.fullmatch(self.text.strip())
        if variation and variation[1].lower() != "backgammon":
            self.refuse("variation", f"only backgammon is graded, and not {variation[1]}")
        if not self.text.strip() or self.text.lstrip().startswith(";"):
            return
        length, game = _LENGTH.fullmatch(self.text), _GAME.fullmatch(self.text)
        if length:
            if self.length is not None:
                self.refuse("malformed", "a second match begins")
            self.length = int(length[1])
        elif self.length is None:
            self.refuse("malformed", "a match begins with its length, as in 7 point match")
        elif game:
            self.begin(int(game[1]))
        elif not self.is_named:
            self.name()
        elif self.boards is None:
            self.refuse("malformed", "a game begins with its number, as in Game 1")
        elif _WINS.fullmatch(self.text):
            self.is_over = True
        else:
            self.turns(self.boards)

    def begin(self, game: int) -> None:
        if not self.is_named:
            self.refuse("malformed", "the players of the game before aren't named")
        if game != self.games + 1:
            self.refuse("malformed", f"it should be game {self.games + 1}")
        self.leave()
        self.games = game
        self.boards, self.is_named, self.is_over = None, False, False
        self.move, self.last = 0, None

    def leave(self) -> None:
        """Notes the game that was read, where neither its end is told nor a player is off."""
        if not self.is_over and all(map(any, self.boards or ())):
            self.unfinished.append(self.games)

    def name(self) -> None:
        # what stands before each score, and behind the last one
        *parts, rest = _SCORE.split(self.text)
        if len(parts) < 2 or not parts[0].strip() or not parts[1].strip() or rest.strip():
            what = "the line behind the number of a game names both players with their scores"
            self.refuse("malformed", what)
        if len(parts) > 2:
            self.refuse("malformed", "where one name ends can't be told")
        names = (parts[0].strip(), parts[1].strip())
        if self.names not in (None, names):
            self.refuse("malformed", "the players of this game are others than those before")
        self.sit(names)

    def sit(self, names: Tuple[str, str]) -> None:
        """Puts up the checkers for two players."""
        self.names, self.is_named = names, True
        self.boards = [[_START.get(point, 0) for point in range(_BAR + 1)] for _ in (0, 1)]

    def turns(self, boards: List[List[int]]) -> None:
        """Reads a line of moves: at most one entry for each player."""
        numbered = _NUMBERED.fullmatch(self.text)
        if not numbered:
            self.refuse("malformed", "neither a numbered move nor the end of a game")
        if int(numbered[1]) != self.move + 1:
            self.refuse("malformed", f"it should be move {self.move + 1}")
        self.move += 1
        body = numbered[2]
        begins = len(body) - len(body.lstrip())
        if _LEFT < begins < _RIGHT:
            self.refuse("malformed", "whose column the move stands in can't be told")
        columns = (0, 1) if begins <= _LEFT else (1,)
        entries = [*self.entries(body.split())]
        if len(entries) > len(columns):
            self.refuse("malformed", "there are more entries than columns")
        for player, (dice, words) in zip(columns, entries):
            if self.is_over:
                self.refuse("turn", "the game is over")
            if dice:
                self.play(boards, player, dice, words)
            elif words.startswith("Wins"):
                self.is_over = True

    def entries(self, words: Sequence[str]) -> Iterator[Tuple[Optional[Tuple[int, int]], str]]:
        """The entries of a line: of each the dice and what was played, or no dice and another
        entry's words.
        """
        place = 0
        while place < len(words):
            dice = _ROLL.fullmatch(words[place])
            end = place + 1
            if dice:
                played = itertools.takewhile(_is_played, words[end:])
                end += sum(1 for _ in played)
                yield (int(dice[1]), int(dice[2])), " ".join(words[place + 1 : end])
            else:
                most = min(len(words), place + _MOST_WORDS)
                while end < most and not _WORDS.fullmatch(" ".join(words[place:end])):
                    end += 1
                # the longest that it can be: a game's end may be that of the match
                while end < len(words) and words[end] in ("and", "the", "match"):
                    end += 1
                if not _WORDS.fullmatch(" ".join(words[place:end])):
                    what = f"neither a roll nor a double nor what answers one: {words[place]}"
                    self.refuse("malformed", what)
                yield None, " ".join(words[place:end])
            place = end

    def play(
        self, boards: List[List[int]], player: int, dice: Tuple[int, int], words: str
    ) -> None:
        """Makes a play on the board."""
        if len(self.plays) == MOST_ROLLS:
            self.refuse("malformed", f"a match has at most {MOST_ROLLS} rolls")
        if player == self.last:
            self.refuse("turn", "the same player rolls twice")
        self.last = player
        mine, other = boards[player], boards[1 - player]
        if not any(mine) or not any(other):
            self.refuse("turn", "a player has borne off all checkers")
        before, facing = tuple(mine), tuple(other)
        steps = [*self.steps(words)]
        pips = sum(self.move_checker(mine, other, *step) for step in steps)
        # they may be told in another order than that in which they can be made
        short = next((point for point in range(_BAR, 0, -1) if mine[point] < 0), 0)
        if short:
            self.refuse("illegal", f"{self.who(player)} has no checker {_place(short)}")
        if pips > sum(dice) * (2 if dice[0] == dice[1] else 1):
            self.refuse("illegal", "the play is of more pips than the roll")
        if mine[_BAR] and any(source < _BAR for source, _, _ in steps):
            self.refuse("illegal", f"{self.who(player)} moves with a checker on the bar")
        if any(mine[_HOME + 1 :]) and any(not target for _, target, _ in steps):
            what = f"{self.who(player)} bears off with a checker outside the home board"
            self.refuse("illegal", what)
        self.plays.append(
            MatchPlay(
                self.games,
                self.move,
                self.number,
                player,
                dice,
                words,
                before,
                tuple(mine),
                facing,
            )
        )

    def steps(self, words: str) -> Iterator[Tuple[int, int, bool]]:
        """The moves of single checkers: from, to, and whether a checker is said to be hit
        there."""
        if words == _NOTHING:
            return
        try:
            yield from steps_of(words)
        except NoMoves as error:
            self.refuse("malformed", str(error))

    def move_checker(
        self, mine: List[int], other: List[int], source: int, target: int, is_hit: bool
    ) -> int:
        """Moves one checker, and tells how many pips it has moved."""
        if target and other[_BAR - target] > 1:
            count = other[_BAR - target]
            self.refuse("illegal", f"{_place(target)} stand {count} checkers of the other player")
        if is_hit and not (target and other[_BAR - target]):
            self.refuse("illegal", f"no checker can be hit {_place(target)}")
        mine[source] -= 1
        if target:
            mine[target] += 1
            other[_BAR] += other[_BAR - target]
            other[_BAR - target] = 0
        return source - target

    def who(self, player: int) -> str:
        """The name of a player, as it is shown."""
        return short((self.names or ("", ""))[player])

    def end(self) -> Match:
        """The match, once all lines were read."""
        self.number += 1
        self.text = ""
        if self.length is None or self.names is None or not self.is_named:
            self.refuse("malformed", "the file ends before a game has begun")
        self.leave()
        unfinished = tuple(self.unfinished)
        return Match(self.length, self.names, self.games, tuple(self.plays), unfinished)


_BLANKS = re.compile(r"\s*")
_SGF_PART = re.compile(r"[();]|[A-Z]+(?=\s*\[)")
_SGF_OPENING = re.compile(r"\s*\[")
_SGF_PLAY = re.compile(r"([1-6])([1-6])((?:[a-z]{2}){0,4})")
_SGF_CUBE = ("double", "take", "drop")
_SGF_SET_UP = ("AB", "AE", "AW")

# the rules that leave the moves as they are: what the cube may do, and what a game counts
_SGF_RULES = ("Crawford", "CrawfordGame", "Jacoby", "NoCube")


class _SgfReader(_Reader):
    """Reads a match as GNU Backgammon saves it: a tree for each game, without variations. White
    has the left column of the `.mat` form, Black the right one; a letter is a point, as White
    counts them, y the bar and z off.
    """

    def whole(self, text: str) -> Match:
        """Reads all of the text."""
        place, depth, parts = 0, 0, 0
        values: List[slice] = []
        end = len(text.rstrip())
        self.number = 1
        while place < end:
            blanks = _BLANKS.match(text, place)
            start = blanks.end() if blanks else place
            part = _SGF_PART.match(text, start)
            self.number += text.count("\n", place, start)
            self.text = " ".join(text[start : start + 40].split())
            if not part:
                self.refuse("malformed", "neither a property nor the start or the end of a game")
            name, place = part[0], part.end()
            parts += 1
            if name == "(":
                if depth:
                    self.refuse("malformed", "a game has variations")
                self.start()
            depth += {"(": 1, ")": -1}.get(name, 0)
            is_property = name not in ("(", ")", ";")
            if depth < 0 or (is_property and not depth):
                self.refuse("malformed", "what stands there is in no game")
            if is_property:
                values = [*itertools.islice(_sgf_values(text, place), MOST_PARTS)]
                if not values:
                    self.refuse("malformed", "a property has no value")
                parts += len(values)
                place = values[-1].stop + 1
            if parts > MOST_PARTS:
                what = f"a match has at most {MOST_PARTS} nodes, properties and values"
                self.refuse("malformed", what)
            if is_property:
                self.property(name, [text[value] for value in values])
            self.number += text.count("\n", start, place)
        self.text = ""
        if depth:
            self.refuse("malformed", "the last game has no end")
        return self.end()

    def start(self) -> None:
        """Begins a game, whose properties follow."""
        if not self.is_named:
            self.refuse("malformed", "the players of the game before aren't named")
        self.begin(self.games + 1)
        self.move = 1
        self.is_over = False
        self.has_entries = False
        self.told: Dict[str, str] = {}

    def property(self, name: str, values: List[str]) -> None:
        """Takes one property with its values."""
        if name == "RE":
            self.is_over = True
        if name in _SGF_SET_UP:
            self.refuse("malformed", "a position is set up in the middle of a game")
        if name in ("GM", "MI", "PW", "PB", "RU"):
            self.head(name, values)
        elif name in ("W", "B"):
            if not self.boards:
                what = "the players of the game aren't named before its first move"
                self.refuse("malformed", what)
            self.entry(self.boards, "WB".index(name), values[0])

    def head(self, name: str, values: List[str]) -> None:
        """Takes what a game tells of itself."""
        if max(map(len, values)) > MOST_TEXT:
            self.refuse("malformed", f"a name or a rule has at most {MOST_TEXT} characters")
        if name == "GM" and values != ["6"]:
            what = f"only backgammon is graded, and not the game {short(values[0])}"
            self.refuse("variation", what)
        if name == "RU":
            for rule in ":".join(values).split(":"):
                if rule and rule not in _SGF_RULES:
                    self.refuse("variation", f"only backgammon is graded, and not {short(rule)}")
        if name == "MI":
            length = [value[7:] for value in values if re.fullmatch("length:[0-9]{1,5}", value)]
            if len(length) != 1 or self.length not in (None, int(length[0])):
                self.refuse("malformed", "the length of the match isn't told, or is another one")
            self.length = int(length[0])
        self.told[name] = re.sub(r"\\(.)", r"\1", values[0], flags=re.DOTALL)
        if not self.is_named and "PW" in self.told and "PB" in self.told:
            names = (self.told["PW"], self.told["PB"])
            if self.names not in (None, names):
                self.refuse("malformed", "the players of this game are others than those before")
            self.sit(names)

    def entry(self, boards: List[List[int]], player: int, value: str) -> None:
        """Takes a roll with its play, or what is done with the cube."""
        # in the other form each of them stands in a column, the left one of a line first
        self.move += player == 0 and self.has_entries
        self.has_entries = True
        told = _SGF_PLAY.fullmatch(value)
        if told:
            points = [
                _BAR if letter == "y" else 0 if letter == "z" else _sgf_point(player, letter)
                for letter in told[3]
            ]
            moves = zip(points[::2], points[1::2])
            words = " ".join(f"{source}/{target}" for source, target in moves)
            self.play(boards, player, (int(told[1]), int(told[2])), words)
        elif value not in _SGF_CUBE:
            self.refuse("malformed", "neither a roll nor a double nor what answers one")


def _sgf_values(text: str, place: int) -> Iterator[slice]:
    """Where the values of a property stand, each between brackets. A bracket behind a backslash
    doesn't end one.
    """
    opening = _SGF_OPENING.match(text, place)
    while opening:
        end = text.find("]", opening.end())
        while end >= 0 and _is_behind_backslash(text, end):
            end = text.find("]", end + 1)
        if end < 0:
            return
        yield slice(opening.end(), end)
        opening = _SGF_OPENING.match(text, end + 1)


def _is_behind_backslash(text: str, place: int) -> bool:
    """Whether an odd number of backslashes stands before a place."""
    first = place
    while text[first - 1] == "\\":
        first -= 1
    return (place - first) % 2 == 1


def _sgf_point(player: int, letter: str) -> int:
    """The point of a letter, as a player counts them."""
    place = ord(letter) - ord("a")
    return place + 1 if player == 0 else 24 - place


def _is_played(word: str) -> bool:
    """Whether a word behind a roll says what was played."""
    return is_play(word) or word in _NOTHING.split()


def _place(point: int) -> str:
    return "on the bar" if point == _BAR else f"on point {point}"
