"""A play as its moves are written, as in ``4/2 2/1``: which checkers move where."""

from __future__ import annotations

import re
from typing import Dict, Iterator, Tuple

BAR = 25
"""The point from which a checker on the bar moves."""

_POINT = "0|[1-9][0-9]?"
STEPS = re.compile(rf"(bar|{_POINT})((?:/(?:off|{_POINT})\*?)+)(?:\(([1-4])\))?", re.IGNORECASE)
"""One word of a play: a point, those at which a checker stops, and how many checkers move so."""

_NAMED_POINTS: Dict[str, int] = {"bar": BAR, "off": 0}


class NoMoves(Exception):
    """A text is no play, and why."""


def is_play(text: str) -> bool:
    """Whether each word of a text, and there is one, is written as moves are."""
    words = text.split()
    return bool(words) and all(map(STEPS.fullmatch, words))


def steps_of(text: str) -> Iterator[Tuple[int, int, bool]]:
    """The moves of single checkers: from, to, and whether a checker is said to be hit there.
    Raises `NoMoves` at the first word that is none.
    """
    for word in text.split():
        told = STEPS.fullmatch(word)
        if not told:
            raise NoMoves(f"not a move: {word}")
        stops = told[2].lower().split("/")[1:]
        points = [_point(told[1].lower()), *(_point(stop.rstrip("*")) for stop in stops)]
        is_down = points == sorted(set(points), reverse=True)
        if max(points) > BAR or not is_down:
            raise NoMoves(f"no checker moves so: {word}")
        for time in range(int(told[3] or 1)):
            for source, target, stop in zip(points, points[1:], stops):
                # of checkers that move alike the first one hits
                yield source, target, stop.endswith("*") and time == 0


def _point(word: str) -> int:
    return _NAMED_POINTS[word] if word in _NAMED_POINTS else int(word)
