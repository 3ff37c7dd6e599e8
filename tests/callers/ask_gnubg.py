"""Asks GNU Backgammon what it says of positions, and writes that down for the tests of the
packages: ask_gnubg.py FILE.

The file is JSON. `races` are a thousand random pairs of home boards, each with both players on
roll, with and without dice: the IDs that GNU Backgammon writes of them, and an XGID. `changed` are
such texts with one character changed, except where they say what game it is, which the packages
don't ask, and `forms` texts of other forms. What stands beside a text under `says` is what GNU
Backgammon read there: the 25 counts of the player on roll and of the other one, point 1 first and
the bar last, the dice, and the player on roll, 1 at the bottom and 0 at the top; or null where it
refused the text. It prints no XGIDs: these are put together here, and read by it.

It ends with status 3 where there is no GNU Backgammon. All is asked in one process of it, which
runs this script too.
"""
import json
import os
import random
import shutil
import subprocess
import sys
import tempfile

PAIRS = 1000
SAMPLE = 40
# where an XGID has Crawford and Jacoby, and IDs the cube, who is to move, the state and the match
RULE = -6
GAME = (15, 16, 17, 19, 20, 21)
LETTERS = "ABCDEFGHIJKLMNOPQRSTUVWXYZabcdefghijklmnopqrstuvwxyz0123456789+/-:="
# the first position of a game, which is no race: a text that changes nothing was refused
START = "4HPwATDgc/ABMA:cAkAAAAAAAAE"


def home_board(chance):
    counts = [0] * 6
    for _ in range(chance.choice([*range(16), 15, 15, 15])):
        counts[chance.randrange(6)] += 1
    return counts


def xgid(mine, theirs, dice, is_bottom):
    """An XGID by its description: the capitals are the player at the bottom, who counts the points
    from the left."""
    bottom, top = (mine, theirs) if is_bottom else (theirs, mine)
    board = "-" + "".join("-ABCDEFGHIJKLMNO"[count] for count in bottom) + "-" * 12
    board += "".join("-abcdefghijklmno"[count] for count in reversed(top)) + "-"
    return f"XGID={board}:0:0:{'1' if is_bottom else '-1'}:{dice[0]}{dice[1]}:0:0:0:0:10"


def changed_once(chance, texts, times, kept):
    for text in texts:
        for place in sorted({*range(len(text))} - {it % len(text) for it in kept}):
            for _ in range(times):
                letter = chance.choice([letter for letter in LETTERS if letter != text[place]])
                yield text[:place] + letter + text[place + 1 :]


def forms(board, position):
    """Texts of real shape, with cubes, scores and offers."""
    rests = """0:0:1:00:0:0:0:0:10 0:0:-1:00:0:0:1:0:10 0:0:1:D:0:0:0:0:10 0:0:-1:D:0:0:3:0:10
        1:1:1:12:3:2:0:7:10 2:-1:-1:63:4:6:1:7:8 1:-1:1:55:0:0:2:0:6 3:1:-1:44:12:14:0:25:10
        0:0:1:61:0:4:1:5:10 6:1:1:36:0:0:0:0:10"""
    for rest in rests.split():
        yield f"XGID={board}:{rest}"
        yield f"{board}:{rest}"
    matches = """cAkAAAAAAAAA MAEAAAAAAAAA cAkFAAAAAAAE MIEFAAAAAAAA
        QQnlADAAEAAE UQnlADAAEAAE MBkAAAAAAAAE cBEAAAAAAAAE"""
    for match in matches.split():
        yield f"{position}:{match}"
        yield f"{position}==:{match}"
        yield f"{position} {match}"


def ask(file):
    """Runs in GNU Backgammon's own Python."""
    import gnubg

    for words in ("automatic roll off", "automatic game off", "display off", "confirm new off"):
        gnubg.command(f"set {words}")
    for player in (0, 1):
        gnubg.command(f"set player {player} human")
    gnubg.command("new game")

    def began():
        gnubg.command(f"set gnubgid {START}")

    def says():
        try:
            board, info = gnubg.board(), gnubg.posinfo()
        except Exception:
            board = None
        if not board:
            gnubg.command("new game")
            return None
        if f"{gnubg.positionid()}:{gnubg.matchid()}" == START:
            return None
        return {
            "mine": list(board[1]),
            "theirs": list(board[0]),
            "dice": list(info["dice"]),
            "turn": info["turn"],
            "offered": info["doubled"] + info["resigned"],
        }

    def read(text):
        began()
        gnubg.command(("set xgid " if text.count(":") > 2 else "set gnubgid ") + text)
        return says()

    chance = random.Random(1)
    races, texts = [], []
    for _ in range(PAIRS):
        mine, theirs = home_board(chance), home_board(chance)
        for is_bottom in (True, False):
            for dice in (
                (0, 0),
                sorted((chance.randrange(1, 7), chance.randrange(1, 7)), reverse=True),
            ):
                began()
                gnubg.command(f"set turn {int(is_bottom)}")
                gnubg.command(
                    "set board "
                    + gnubg.positionid((tuple(theirs) + (0,) * 19, tuple(mine) + (0,) * 19))
                )
                if dice[0]:
                    gnubg.command("set dice {} {}".format(*dice))
                race = {
                    "mine": mine,
                    "theirs": theirs,
                    "dice": dice,
                    "bottom": is_bottom,
                    "says": says(),
                    "position": gnubg.positionid(),
                    "match": gnubg.matchid(),
                }
                race["xgid"] = xgid(mine, theirs, dice, is_bottom)
                race["xgid_says"] = read(race["xgid"])
                races.append(race)
                texts.append((race["xgid"], f"{race['position']}:{race['match']}"))
    sample = chance.sample(texts, SAMPLE)
    xgids, ids = zip(*sample)
    changed = [*changed_once(chance, xgids, 1, [RULE]), *changed_once(chance, ids, 2, GAME)]
    told = {
        "races": races,
        "changed": [{"text": text, "says": read(text)} for text in changed],
        "forms": [
            {"text": text, "says": read(text)}
            for text in forms("-ABC--D------------a-b--c-", "xwQAgHY8AAAAAA")
        ],
    }
    with open(file, "w", encoding="ascii") as out:
        json.dump(told, out)


def main(file):
    program = shutil.which("gnubg") or shutil.which("gnubg", path="/usr/games")
    if not program:
        sys.exit(3)
    with tempfile.TemporaryDirectory() as home:
        environment = {
            **os.environ,
            "HOME": home,
            "LC_ALL": "C",
            "ASK_GNUBG": os.path.abspath(file),
        }
        run = subprocess.run(
            [program, "-t", "-q", "-r", "-p", os.path.abspath(__file__)],
            env=environment,
            stdin=subprocess.DEVNULL,
            stdout=subprocess.PIPE,
            stderr=subprocess.STDOUT,
        )
    if not os.path.exists(file):
        said = run.stdout.decode(errors="replace")[-1000:]
        sys.exit(f"ask_gnubg: GNU Backgammon ended before it had said all: {said}")


if "ASK_GNUBG" in os.environ:
    ask(os.environ["ASK_GNUBG"])
else:
    main(*sys.argv[1:])
