"""A table of all positions of a database as a file that other programs read: CSV, JSON or SQLite.

A row is a position: its rank, its six counts, its pip count and how many checkers it has, then its
mean in rolls, its effective pip count and its wastage in pips, each as the nearest float, and last
the mean as an exact fraction in a text.
"""

from __future__ import annotations

import csv
import io
import json
import os
import sqlite3
from contextlib import closing, suppress
from typing import Any, Callable, Dict, Iterator, Tuple, Union

from ._writing import place_of, write_whole
from .database import Database
from .errors import BadArgument
from .exact import over_whole, wide_numbers
from .positions import shown

__all__ = ["COLUMNS", "export"]

_PATIENCE = 5
_Rows = Iterator[Tuple[Any, ...]]

COLUMNS = {
    "rank": "INTEGER PRIMARY KEY",
    **{point: "INTEGER" for point in ("one", "two", "three", "four", "five", "six")},
    "pips": "INTEGER",
    "checkers": "INTEGER",
    "mean": "REAL",
    "epc": "REAL",
    "wastage": "REAL",
    "exact_mean": "TEXT",
}
"""The columns, each with its type in SQLite."""


def export(database: Database, path: Union[str, "os.PathLike[str]"]) -> None:
    """Writes the table of all positions to a file whose name ends in `.csv`, `.json`, `.sqlite` or
    `.sqlite3`.

    A CSV or JSON file is replaced once the new one is complete, and keeps its permissions. In an
    SQLite file one transaction replaces the table `positions`; other tables
    stay, and an error leaves the file as it was.

    Raises `BadArgument` if the name has another ending, or the file is a bearoff database; and
    OSError if the file can't be written, is not an SQLite file although its name says so, or is
    in use by another program for more than five seconds.
    """
    try:
        name = os.fspath(path)
        write = _KINDS[os.path.splitext(name)[1].lower()]
    except (TypeError, KeyError):
        what = "the name of the file ends in none of " + ", ".join(_KINDS)
        raise BadArgument(f"{what}: {shown(path)}") from None
    write(name, _rows(database))


def _rows(database: Database) -> _Rows:
    exact, whole = wide_numbers(database.means(words=True)), database.denominator
    floats = [of().tolist() for of in (database.means, database.epcs, database.wastages)]
    for rank, (position, mean, numbers) in enumerate(zip(database, exact, zip(*floats))):
        sums = position.pips, position.checkers
        yield (rank, *position, *sums, *numbers, str(over_whole(mean, whole)))


def _to_csv(name: str, rows: _Rows) -> None:
    text = io.StringIO(newline="")
    table = csv.writer(text, lineterminator="\n")
    table.writerow(COLUMNS)
    table.writerows(rows)
    write_whole(name, text.getvalue().encode("ascii"))


def _to_json(name: str, rows: _Rows) -> None:
    lines = ",\n".join(json.dumps(dict(zip(COLUMNS, row))) for row in rows)
    write_whole(name, f"[\n{lines}\n]\n".encode("ascii"))


def _to_sqlite(name: str, rows: _Rows) -> None:
    columns = ", ".join(f"{column} {kind}" for column, kind in COLUMNS.items())
    values = ", ".join("?" * len(COLUMNS))
    place, is_new = place_of(name)
    try:
        with closing(
            sqlite3.connect(place, timeout=_PATIENCE, isolation_level=None)
        ) as file, file:
            file.execute("BEGIN IMMEDIATE")
            file.execute("DROP TABLE IF EXISTS positions")
            file.execute(f"CREATE TABLE positions ({columns})")
            file.executemany(f"INSERT INTO positions VALUES ({values})", rows)
            file.execute("CREATE INDEX positions_by_pips ON positions (pips)")
    except BaseException as error:
        if is_new:
            with suppress(OSError):
                if os.stat(place).st_size == 0:
                    os.remove(place)
        if isinstance(error, sqlite3.Error):
            hint = _HINTS.get(str(error), "")
            raise OSError(f"{error}{hint}: {shown(name)}") from error
        raise


_HINTS = {
    "database is locked": "; close the program that uses it, or try again",
    "unable to open database file": "; its folder may be missing, or not yours to write in",
    "file is not a database": "; remove it, or choose another name",
}
_KINDS: Dict[str, Callable[[str, _Rows], None]] = {
    ".csv": _to_csv,
    ".json": _to_json,
    ".sqlite": _to_sqlite,
    ".sqlite3": _to_sqlite,
}
