"""Lets GNU Backgammon play matches against itself, for the tests of the package for Python:
play_gnubg.py FOLDER.

For each match there are FOLDER/NAME.mat, as GNU Backgammon exports it, FOLDER/NAME.sgf, as it
saves it, and FOLDER/NAME.json, its moves as a list: of each the player, X or O, the dice, and the
Position ID of the board before it, seen by that player.

It ends with status 3 where there is no GNU Backgammon. All is played in one process of it, which
runs this script too.
"""
import json
import os
import shutil
import subprocess
import sys
import tempfile

# the name, what is played, and the first number of the dice; the last one without a cube
PLAYED = (
    ("long", "match 25", 3),
    ("short", "match 1", 47),
    ("three", "match 3", 11),
    ("money", "session", 8),
    ("cubeless", "match 3", 5),
)


def play(folder):
    """Runs in GNU Backgammon's own Python."""
    import gnubg

    for words in ("automatic roll on", "automatic move on", "display off", "delay 0"):
        gnubg.command(f"set {words}")
    gnubg.command("set confirm new off")
    gnubg.command("set rng mersenne")
    for player in (0, 1):
        gnubg.command(f"set player {player} gnubg")
        for decision in ("chequerplay", "cubedecision"):
            gnubg.command(f"set player {player} {decision} evaluation plies 0")
    for name, what, seed in PLAYED:
        gnubg.command(f"set automatic game {'off' if what == 'session' else 'on'}")
        gnubg.command(f"set cube use {'off' if name == 'cubeless' else 'on'}")
        gnubg.command(f"set seed {seed}")
        gnubg.command(f"new {what}")
        gnubg.command(f"export match mat {os.path.join(folder, name + '.mat')}")
        gnubg.command(f"save match {os.path.join(folder, name + '.sgf')}")
        games = gnubg.match(analysis=0, boards=1, statistics=0, verbose=0)["games"]
        turns = [
            {"game": number, **{part: turn[part] for part in ("player", "dice", "board")}}
            for number, game in enumerate(games, 1)
            for turn in game["game"]
            if turn["action"] == "move"
        ]
        with open(os.path.join(folder, name + ".json"), "w", encoding="ascii") as out:
            json.dump(turns, out)


def main(folder):
    program = shutil.which("gnubg") or shutil.which("gnubg", path="/usr/games")
    if not program:
        sys.exit(3)
    os.makedirs(folder, exist_ok=True)
    with tempfile.TemporaryDirectory() as home:
        environment = {
            **os.environ,
            "HOME": home,
            "LC_ALL": "C",
            "PLAY_GNUBG": os.path.abspath(folder),
        }
        run = subprocess.run(
            [program, "-t", "-q", "-r", "-p", os.path.abspath(__file__)],
            env=environment,
            stdin=subprocess.DEVNULL,
            stdout=subprocess.PIPE,
            stderr=subprocess.STDOUT,
        )
    if not all(os.path.exists(os.path.join(folder, name + ".json")) for name, _, _ in PLAYED):
        said = run.stdout.decode(errors="replace")[-1000:]
        sys.exit(f"play_gnubg: GNU Backgammon ended before it had played all: {said}")


if "PLAY_GNUBG" in os.environ:
    play(os.environ["PLAY_GNUBG"])
else:
    main(*sys.argv[1:])
