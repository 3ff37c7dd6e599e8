"""Texts from outside: how long they may be, and how they are shown. The bounds are looked at
before anything else is done with a text, so that nothing costs more than its length.
"""

from __future__ import annotations

import re

MOST_TEXT = 1000
"""How many characters a position, a roll, a line of a match or a name may have: many times as many
as any that is written by a program.
"""

MOST_MATCH = 10_000_000
"""How many characters a match may have, and how many bytes its file."""

MOST_PARTS = 500_000
"""How many lines a match may have in the `.mat` form, and how many nodes, properties and values in
the `.sgf` form; each is far longer than the twenty characters that this leaves for it.
"""

MOST_ROLLS = 200_000
"""How many rolls a match may have: those of some thousand games."""

_MOST_SHOWN = 100


def printable(text: str) -> str:
    """A text as it can be written to a terminal: a blank for each kind of space, and a question
    mark for each other character that isn't printed by itself, as those that begin an escape code
    or turn the direction of writing.
    """
    return "".join(
        letter if letter.isprintable() else " " if letter.isspace() else "?" for letter in text
    )


def in_ascii(text: str) -> str:
    """A text with a question mark for each character that is not of ASCII, or is not printed."""
    return re.sub("[^ -~]", "?", text)


def short(text: str) -> str:
    """The front of a text, with dots where more follows."""
    return text if len(text) <= _MOST_SHOWN else text[:_MOST_SHOWN] + "..."
