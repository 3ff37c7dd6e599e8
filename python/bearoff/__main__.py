"""The commands of the package: ``python -m bearoff epc 0,0,0,0,0,1``, and others. Those of the
program `bearoff`, as in ``python -m bearoff check race.db``, are handed to it.
"""

from __future__ import annotations

import argparse
import os
import shutil
import signal
import sys
import sysconfig
from typing import Any, Callable, Dict, Iterator, NoReturn, Optional, Sequence, Tuple, Union

from . import __version__, gnubg
from ._writing import write_whole
from .database import Database
from .errors import BadArgument, BadMatch, BearoffError, Damaged, NoLibrary, Refused
from .grading import NOTE, grade
from .notation import read
from .positions import Position, Rounded, position_of, sides_of
from .tables import export
from .texts import MOST_MATCH, printable

_WHOLE_BOARD = 90
_NOTHING = Position(0, 0, 0, 0, 0, 0)
_POSITION = "six counts, the ace point first, an XGID or a Position ID"
_POSITIONS = f"{_POSITION}; - reads standard input, one per line"
_FILE = "a file that `bearoff build` wrote (default: build one, in a second)"
_WINS = (
    "Both players make the plays that minimize the expected number of rolls. Another play usually"
    " wins slightly more often, sometimes by over 1 %. The cube is left out."
)
_GNUBG = (
    "Such a file stores shares in 16 bits, so its numbers are not exact and can't be verified."
)

PROGRAM = ("build", "check", "query", "ask", "show", "about", "audit", "upgrade")
"""The commands of the program `bearoff`."""

_OTHERS = (
    f"{', '.join(PROGRAM[:-1])} and {PROGRAM[-1]} are commands of the program `bearoff`, which"
    " wheels include; their arguments are passed to it."
)


def main(words: Optional[Sequence[str]] = None) -> int:
    """Runs the command with its words, and gives the exit status: 0; 1 where a file can't be read
    or written, or a thread or memory can't be had; 2 where a position, a roll or another word is
    none; or 3 where the database, the match or the question is refused. Of several positions it is
    that of the first one without an answer. With a command of the program `bearoff` this process
    becomes that program.
    """
    given = sys.argv[1:] if words is None else [*words]
    if given and given[0] in PROGRAM:
        return _hand_on(given)
    asked = _parser().parse_args(given)
    run: Callable[[argparse.Namespace], str] = asked.run
    try:
        sys.stdout.write(run(asked))
        sys.stdout.flush()
        status: int = asked.status
        return status
    except (Damaged, Refused) as refused:
        return _fail(3, str(refused))
    except BadMatch as bad:
        return _fail(3, f"{asked.match}: {bad}")
    except BadArgument as bad:
        return _fail(2, str(bad))
    except (NoLibrary, OSError, ValueError) as error:
        return _fail(1, str(error))
    except MemoryError:
        return _fail(1, "there is too little memory")


def run() -> int:
    """Does what `main` does, as a process of its own. A signal that asks it to end lets it take
    away first what it has begun. Where nobody reads on what it writes, it ends as other programs
    do, without a word.
    """
    signal.signal(signal.SIGPIPE, signal.SIG_DFL)
    for number in (signal.SIGINT, signal.SIGTERM, signal.SIGHUP):
        if signal.getsignal(number) != signal.SIG_IGN:
            signal.signal(number, _stop)
    try:
        return main()
    except _Stopped as stopped:
        signal.signal(stopped.number, signal.SIG_DFL)
        os.kill(os.getpid(), stopped.number)
        return 128 + stopped.number


class _Stopped(BaseException):
    """A signal came."""

    def __init__(self, number: int) -> None:
        super().__init__(number)
        self.number = number


def _stop(number: int, _frame: Any) -> NoReturn:
    raise _Stopped(number)


def _hand_on(words: Sequence[str]) -> int:
    """Becomes the program `bearoff`: the one beside this Python, or the one that the system finds.
    Gives a status only where there is none.
    """
    beside = os.path.join(sysconfig.get_path("scripts"), "bearoff")
    program = beside if os.access(beside, os.X_OK) else shutil.which("bearoff")
    if program is None:
        return _fail(1, f"{words[0]} is a command of the program bearoff, which was not found")
    # Python itself ignores these
    for number in (signal.SIGPIPE, signal.SIGXFSZ):
        signal.signal(number, signal.SIG_DFL)
    try:
        os.execv(program, [program, *words])
    except OSError as error:
        return _fail(1, f"{program}: {error}")


class _Parser(argparse.ArgumentParser):
    """A parser whose refusals can be written to a terminal."""

    def error(self, message: str) -> NoReturn:
        super().error(printable(message))


def _parser() -> argparse.ArgumentParser:
    about = "Exact answers of a bearoff database."
    parser = _Parser(prog="python -m bearoff", description=about, epilog=_OTHERS)
    parser.add_argument("--version", action="version", version=f"bearoff {__version__}")
    commands = parser.add_subparsers(dest="command", required=True, metavar="COMMAND")

    def command(
        name: str, run: Callable[[argparse.Namespace], str], what: str, more: str = ""
    ) -> argparse.ArgumentParser:
        told = f"{what[0].upper()}{what[1:]}. {more}".strip()
        added = commands.add_parser(name, help=what, description=told)
        added.set_defaults(run=run, status=0)
        return added

    def takes_database(added: argparse.ArgumentParser) -> None:
        added.add_argument("--database", metavar="FILE", help=_FILE)

    for name, run, what in (
        ("mean", _mean, "print the minimum expected number of rolls"),
        ("epc", _epc, "print the effective pip count and the wastage"),
    ):
        added = command(name, run, what)
        added.add_argument("positions", nargs="+", metavar="POSITION", help=_POSITIONS)
        takes_database(added)
    for name, run, what in (
        ("play", _play, "print the best play of a roll"),
        ("moves", _moves, "print what each play of a roll loses"),
    ):
        added = command(name, run, what)
        added.add_argument("position", metavar="POSITION", help=_POSITION)
        dice = "two dice, such as 21 or 2-1; an XGID can supply them"
        added.add_argument("roll", nargs="?", metavar="ROLL", help=dice)
        takes_database(added)
    wins = command("wins", _wins, "print the chance that the player on roll is off first", _WINS)
    wins.add_argument("mine", metavar="MINE", help=f"the player on roll: {_POSITION}")
    theirs = "the opponent, if the first argument has only one side"
    wins.add_argument("theirs", nargs="?", metavar="THEIRS", help=theirs)
    takes_database(wins)
    what = "list what each bearoff play of a match lost"
    grading = command("grade", _grade, what, f"Losses are in rolls and in pips. {NOTE}")
    match = "a .mat file (GNU Backgammon, XG) or an .sgf file (GNU Backgammon)"
    grading.add_argument("match", metavar="MATCH", help=match)
    grading.add_argument("--json", action="store_true", help="print JSON instead of tables")
    takes_database(grading)
    table = command("export", _export, "write all positions as a table")
    table.add_argument("file", metavar="FILE", help="a name that ends in .csv, .json or .sqlite")
    takes_database(table)
    files = command("gnubg", _compare, "write or compare a bearoff file of GNU Backgammon", _GNUBG)
    kinds = files.add_subparsers(required=True, metavar="write|compare")
    written = kinds.add_parser("write", help="write a one-sided file", description=_GNUBG)
    written.add_argument(
        "board", metavar="BOARD", help="a file that `bearoff build --board` wrote"
    )
    written.add_argument("file", metavar="FILE", help="the file to write")
    written.set_defaults(run=_write)
    told = "measure how far a one-sided file is from the exact numbers"
    compared = kinds.add_parser("compare", help=told, description=_GNUBG)
    compared.add_argument("file", metavar="FILE", help="a one-sided file, such as gnubg_os0.bd")
    takes_database(compared)
    compared.set_defaults(run=_compare)
    return parser


def _database(path: Optional[str], *positions: Position) -> Database:
    """The database of a file, or one that has these positions, or all where there are none."""
    if path is not None:
        return Database.open(path)
    bounds = [Database.position_info(position).pips for position in positions]
    return Database.build(max(bounds, default=_WHOLE_BOARD))


def _mean(asked: argparse.Namespace) -> str:
    def told(database: Database, position: Position) -> str:
        mean = database.mean(position)
        return f"{float(mean):.6f} rolls, {mean}"

    return _told_of_each(asked, told)


def _epc(asked: argparse.Namespace) -> str:
    def told(database: Database, position: Position) -> str:
        epc, wastage = database.epc(position), database.wastage(position)
        return f"{_thousandths(epc)} pips, {epc}; wastage {_thousandths(wastage)}"

    return _told_of_each(asked, told)


def _told_of_each(asked: argparse.Namespace, told: Callable[[Database, Position], str]) -> str:
    """A line for each position, or with the reason why it has no answer."""
    read = [*map(_position_or_error, _each_text(asked.positions))]
    positions = [it for it in read if isinstance(it, Position)]
    lines = []
    with _database(asked.database, *(positions or [_NOTHING])) as database:
        for it in read:
            try:
                if isinstance(it, BearoffError):
                    raise it
                lines.append(f"{it}: {told(database, it)}\n")
            except BearoffError as error:
                asked.status = asked.status or (3 if isinstance(error, Refused) else 2)
                lines.append(f"error: {printable(str(error))}\n")
    return "".join(lines)


def _each_text(words: Sequence[str]) -> Iterator[str]:
    """The words, with the lines of standard input in place of each -."""
    for word in words:
        if word == "-":
            with open(0, encoding="utf-8", errors="replace", closefd=False) as lines:
                yield from (line.rstrip("\n") for line in lines)
        else:
            yield word


def _position_or_error(text: str) -> Union[Position, BearoffError]:
    """The position of a text, of at most 15 checkers, or why it is none."""
    try:
        position = position_of(text)
        Database.position_info(position)
    except BearoffError as error:
        return error
    return position


def _thousandths(number: Rounded) -> str:
    return f"{number.thousandths // 1000}.{number.thousandths % 1000:03}"


def _asked_with_roll(asked: argparse.Namespace) -> Tuple[Position, str]:
    race = read(asked.position)
    if asked.roll is not None:
        return race.mine, asked.roll
    if race.dice is None:
        raise BadArgument("missing roll after the position, for example 21")
    return race.mine, "{}{}".format(*race.dice)


def _play(asked: argparse.Namespace) -> str:
    position, roll = _asked_with_roll(asked)
    play = _database(asked.database, position).play(position, roll)
    return f"{play.text or 'no move'}, to {play.to}\n"


def _moves(asked: argparse.Namespace) -> str:
    position, roll = _asked_with_roll(asked)
    database = _database(asked.database, position)
    lines = []
    for choice in database.moves(position, roll):
        play = database.play_to(position, roll, choice.to)
        told = f"{float(choice.loss):.6f} rolls, {choice.loss}"
        lines.append(f"{play.text or 'no move'}, to {choice.to}: {told}\n")
    return "".join(lines)


def _wins(asked: argparse.Namespace) -> str:
    one, other = map(position_of, sides_of(asked.mine, asked.theirs))
    chance = _database(asked.database, one, other).wins(one, other)
    return f"{float(chance):.6f}, {chance}\n{_WINS}\n"


def _grade(asked: argparse.Namespace) -> str:
    with _database(asked.database) as database:
        graded = grade(asked.match, database)
    return graded.to_json() if asked.json else graded.table()


def _export(asked: argparse.Namespace) -> str:
    database = _database(asked.database)
    export(database, asked.file)
    return f"{len(database)} positions\n"


def _write(asked: argparse.Namespace) -> str:
    content = gnubg.to_file(Database.open(asked.board))
    write_whole(asked.file, content)
    return f"{len(content)} bytes. {_GNUBG}\n"


def _compare(asked: argparse.Namespace) -> str:
    with open(asked.file, "rb") as file:
        content = file.read(MOST_MATCH)
    found = gnubg.compare(content, _database(asked.database))
    lines: Dict[str, str] = {
        "positions": str(found.positions),
        "greatest difference of a mean": f"{float(found.greatest):.9f} rolls at {found.at}",
        "average difference": f"{float(found.average):.9f} rolls",
        "greatest difference of a share": f"{float(found.share):.9f}",
    }
    return "".join(f"{what}: {told}\n" for what, told in lines.items())


def _fail(status: int, line: str) -> int:
    print(f"bearoff: {printable(line)}", file=sys.stderr)
    return status


if __name__ == "__main__":
    sys.exit(run())
