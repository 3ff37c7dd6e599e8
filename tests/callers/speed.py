"""How fast the package for Python is, the best of nine.

usage: speed.py FILE             how many means a second it answers, one call each, over all
                                 positions in no order
       speed.py FILE --tables    how many microseconds all means take as words in numpy, and all
                                 distributions, and both as floats by the weights
       speed.py FILE --ranks     how many ranks a second it finds for a million rows of an array of
                                 numpy, in no order, for bytes and for numbers of 64 bits
"""
import random
import sys
import time

import bearoff


def least(ask):
    """The least time of nine runs, in seconds."""
    times = []
    for _ in range(9):
        start = time.perf_counter()
        ask()
        times.append(time.perf_counter() - start)
    return min(times)


def calls(database):
    asked = [tuple(position) for position in database]
    random.Random(1).shuffle(asked)
    mean = database.mean

    def ask():
        for position in asked:
            mean(position)

    print(int(len(asked) / least(ask)), "means a second")


def tables(database):
    import numpy

    for name, table in ("means", database.means), ("distributions", database.distributions):
        print(name, int(1e6 * least(lambda: numpy.asarray(table(words=True)))), "us")
        print(
            name,
            "as floats",
            int(1e6 * least(lambda: numpy.asarray(table(words=True)) @ database.weights)),
            "us",
        )


def ranks(database):
    import numpy

    found = numpy.random.default_rng(1).integers(0, len(database), 1_000_000)
    for kind in "uint8", "int64":
        rows = numpy.asarray(database.positions())[found].astype(kind)
        assert (numpy.asarray(database.ranks(rows)) == found).all()
        print(kind, int(len(rows) / least(lambda: database.ranks(rows))), "ranks a second")


database = bearoff.Database.open(sys.argv[1])
{"--tables": tables, "--ranks": ranks}.get("".join(sys.argv[2:]), calls)(database)
