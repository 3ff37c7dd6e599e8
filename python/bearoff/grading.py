"""Grading: what each bearoff play of a match lost compared with the best play of its roll.

    >>> graded = grade("match.mat", database)
    >>> float(graded.players[0].pips)
    2.354
    >>> print(graded.table())

Losses are of one side's rolls: by how much the least mean number of rolls after the play exceeds
that after the best one. They are no equity: the other player, the cube and the score are left
aside, and in a game that is decided a loss may cost nothing.
"""

from __future__ import annotations

import json
import os
from fractions import Fraction
from typing import Any, Dict, List, NamedTuple, Tuple, Union

from .database import Database
from .errors import NOT_LEGAL, OVER_BOUND, BadArgument, BadMatch, Refused
from .exact import lowest_terms
from .matches import Match, MatchPlay, read_match
from .moves import steps_of
from .positions import Move, Play, Position, shown
from .texts import MOST_MATCH, printable, short

NOTE = (
    "Losses are in rolls of one side, not in equity: the opponent, the cube and the score are left"
    " out, and in a decided game a loss may cost nothing."
)
"""The note that tables and JSON of graded plays carry."""


_LOST = ("rolls lost", "pips lost")


class GradedPlay(NamedTuple):
    """A bearoff play of a match: the numbers of the game, the move and the line in the file; the
    player, 0 (left column) or 1 (right); the position, the dice and the moves as in `Play.text`;
    the position after it; its loss in rolls; the best play, which is the recorded one; and the
    number of positions that the roll could lead to, where 1 means no choice.
    """

    game: int
    move: int
    line: int
    player: int
    position: Position
    dice: Tuple[int, int]
    text: str
    to: Position
    loss: Fraction
    best: Play
    choices: int

    @property
    def pips(self) -> Fraction:
        """What it lost in pips: 49/6 for each roll."""
        return self.loss * 49 / 6


class GradedPlayer(NamedTuple):
    """A player of a match: the name; how many bearoff plays were graded, how many of them had a
    choice, and how many lost something; what they lost together, in rolls; and how many bearoff
    plays were not graded, as their positions have more pips than the database.
    """

    name: str
    plays: int
    choices: int
    losing: int
    loss: Fraction
    over_bound: int

    @property
    def pips(self) -> Fraction:
        """What was lost in pips: 49/6 for each roll."""
        return self.loss * 49 / 6


class Graded(NamedTuple):
    """A match whose bearoff plays were graded: its length in points, which is 0 for money games;
    how many games it has; the pip bound of the database; both players; the plays in their order;
    how many rolls the match has, and how many of them in a bearoff were not played; and the
    numbers of the games whose end is not in the file.
    """

    length: int
    games: int
    bound: int
    players: Tuple[GradedPlayer, GradedPlayer]
    plays: Tuple[GradedPlay, ...]
    rolls: int
    unplayed: int
    unfinished: Tuple[int, ...]

    @property
    def outside(self) -> int:
        """How many rolls were left out as they are not of a bearoff."""
        over_bound = sum(player.over_bound for player in self.players)
        return self.rolls - len(self.plays) - over_bound - self.unplayed

    def table(self) -> str:
        """The plays and the players as two tables of text, and what the numbers are. Of a name the
        front is shown, and a question mark for what isn't printed by itself.
        """
        names = [short(printable(player.name)) for player in self.players]
        heads = ("game", "move", "player", "position", "roll", "play", *_LOST, "best play")
        rows: List[Tuple[str, ...]] = [heads]
        for play in self.plays:
            rows.append(
                (
                    str(play.game),
                    str(play.move),
                    names[play.player],
                    str(play.position),
                    "{}{}".format(*play.dice),
                    play.text,
                    *_lost(play.loss, play.pips),
                    play.best.text if play.loss else "",
                )
            )
        totals: List[Tuple[str, ...]] = [
            ("player", "plays", "with a choice", "losing", *_LOST, "over the bound")
        ]
        for name, player in zip(names, self.players):
            counts = (name, str(player.plays), str(player.choices), str(player.losing))
            totals.append((*counts, *_lost(player.loss, player.pips), str(player.over_bound)))
        right = {"game", "move", *totals[0][1:]}
        left_out = (
            f"{len(self.plays)} of {self.rolls} rolls are graded. Left out: {self.outside} outside"
            f" the bearoff, {sum(player.over_bound for player in self.players)} of more than"
            f" {self.bound} pips, {self.unplayed} without a play."
        )
        notes = [left_out, NOTE]
        if self.unfinished:
            games = ", ".join(map(str, self.unfinished))
            notes.insert(1, f"Unfinished in this file, and graded up to there: game {games}.")
        return "\n".join([*_lines(rows, right), "", *_lines(totals, right), "", *notes, ""])

    def to_json(self) -> str:
        """The same as JSON: exact losses as texts like ``1/9``, and beside them floats."""
        told = {
            "match_length": self.length,
            "games": self.games,
            "bound": self.bound,
            "rolls": self.rolls,
            "outside_the_bearoff": self.outside,
            "without_a_play": self.unplayed,
            "unfinished_games": self.unfinished,
            "note": NOTE,
            "players": [
                {
                    "name": player.name,
                    "plays": player.plays,
                    "with_a_choice": player.choices,
                    "losing": player.losing,
                    "over_the_bound": player.over_bound,
                    **_loss(player.loss, player.pips),
                }
                for player in self.players
            ],
            "plays": [
                {
                    "game": play.game,
                    "move": play.move,
                    "line": play.line,
                    "player": play.player,
                    "position": list(play.position),
                    "roll": list(play.dice),
                    "play": play.text,
                    "to": list(play.to),
                    "choices": play.choices,
                    **_loss(play.loss, play.pips),
                    "best": play.best.text,
                    "best_to": list(play.best.to),
                }
                for play in self.plays
            ],
        }
        return json.dumps(told, indent=1) + "\n"


def grade(match: Union[str, "os.PathLike[str]", Match], database: Database) -> Graded:
    """Grades the bearoff plays of a match: the rolls of a player whose checkers are all home and
    past the opponent's. `match` is the path of a `.mat` or `.sgf` file, or a result of
    `bearoff.matches.read_match`.

    Raises `BadMatch` if the file is not such a match, or a play is illegal or missing; and OSError
    if it can't be read. Rolls at which the game ended without a play, and positions beyond the
    database's bound, are counted and left out.
    """
    told = match if isinstance(match, Match) else read_match(_text_of(match))
    bound = database.bound
    plays: List[GradedPlay] = []
    over_bound, unplayed = [0, 0], 0
    for place, turn in enumerate(told.plays):
        if not turn.is_bearoff:
            continue
        if not turn.text and _ends(told, place):
            unplayed += 1
            continue
        try:
            plays.append(_graded(turn, database))
        except Refused as refused:
            if refused.status == OVER_BOUND:
                over_bound[turn.player] += 1
            elif refused.status == NOT_LEGAL:
                roll = "{}{}".format(*turn.dice)
                what = f"no play of {roll} leads from {turn.position} to {turn.to}"
                raise BadMatch("illegal", turn.line, what, turn.text) from None
            else:
                raise
    one, other = (_total(player, told, plays, over_bound[player]) for player in (0, 1))
    return Graded(
        told.length,
        told.games,
        bound,
        (one, other),
        tuple(plays),
        len(told.plays),
        unplayed,
        told.unfinished,
    )


def _graded(turn: MatchPlay, database: Database) -> GradedPlay:
    position, dice, to = turn.position, turn.dice, turn.to
    loss = database.loss(position, dice, to)
    moves = (Move(source, target) for source, target, _ in steps_of(turn.text))
    return GradedPlay(
        turn.game,
        turn.move,
        turn.line,
        turn.player,
        position,
        dice,
        Play(tuple(moves), to).text,
        to,
        loss,
        database.play(position, dice),
        len(database.moves(position, dice)),
    )


def _ends(match: Match, place: int) -> bool:
    """Whether a roll is the last one of its game."""
    following = match.plays[place + 1 : place + 2]
    return not following or following[0].game != match.plays[place].game


def _total(player: int, match: Match, plays: List[GradedPlay], over_bound: int) -> GradedPlayer:
    theirs = [play for play in plays if play.player == player]
    return GradedPlayer(
        match.names[player],
        len(theirs),
        sum(play.choices > 1 for play in theirs),
        sum(play.loss > 0 for play in theirs),
        sum((play.loss for play in theirs), lowest_terms(0, 1)),
        over_bound,
    )


def _text_of(path: Union[str, "os.PathLike[str]"]) -> str:
    """The text of a file, which may be of an older code: beside names a match has ASCII alone."""
    if not isinstance(path, (str, os.PathLike)):
        raise BadArgument(f"neither the path of a match nor a match: {shown(path)}")
    try:
        with open(path, "rb") as file:
            content = file.read(MOST_MATCH + 1)
    except ValueError as error:
        raise BadArgument(f"{error}: {shown(path)}") from None
    if len(content) > MOST_MATCH:
        raise BadMatch("malformed", 1, f"the file of a match has at most {MOST_MATCH} bytes")
    try:
        return content.decode("utf-8")
    except UnicodeDecodeError:
        return content.decode("latin-1")


def _lost(rolls: Fraction, pips: Fraction) -> Tuple[str, str]:
    return format(rolls, ".4f"), format(pips, ".3f")


def _loss(rolls: Fraction, pips: Fraction) -> Dict[str, Any]:
    return {
        "rolls_lost": f"{rolls.numerator}/{rolls.denominator}",
        "rolls_lost_float": float(rolls),
        "pips_lost_float": float(pips),
    }


def _lines(rows: List[Tuple[str, ...]], right: "set[str]") -> List[str]:
    """The rows of a table with its heads first, each column as wide as it needs."""
    widths = [max(map(len, column)) for column in zip(*rows)]
    lines = []
    for row in rows:
        cells = [
            cell.rjust(width) if head in right else cell.ljust(width)
            for cell, width, head in zip(row, widths, rows[0])
        ]
        lines.append("  ".join(cells).rstrip())
    return lines
