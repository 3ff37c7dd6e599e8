"""Lines about every position of at most so many pips, or about so many of them that look random.

usage: questions.py PIPS [COUNT]
"""
import random
import sys


def positions(bound):
    """Each position of at most so many pips."""

    def lists(point, checkers, pips):
        if point > 6:
            yield ()
            return
        for count in range(min(checkers, pips // point) + 1):
            for rest in lists(point + 1, checkers - count, pips - point * count):
                yield (count, *rest)

    return list(lists(1, 15, bound))


def after(position, die):
    """Where a die leads, with every checker from the highest point down; a guess at results."""
    for point in range(1, 7):
        if position[point - 1] and (point >= die or sum(position[point:]) == 0):
            changed = list(position)
            changed[point - 1] -= 1
            if point > die:
                changed[point - die - 1] += 1
            yield tuple(changed)


def main():
    bound = int(sys.argv[1])
    found = positions(bound)
    chance = random.Random(20)
    asked = found if len(sys.argv) < 3 else [chance.choice(found) for _ in range(int(sys.argv[2]))]
    text = lambda position: ",".join(map(str, position))
    for position in asked:
        at = text(position)
        print("mean", at)
        print("dist", at)
        print("rank", at)
        rolls = [f"{high}{low}" for high in range(1, 7) for low in range(1, high + 1)]
        for roll in rolls if len(sys.argv) < 3 else chance.sample(rolls, 3):
            print("play", at, roll)
            print("moves", at, roll[::-1])
            firsts = list(after(position, int(roll[0]))) or [position]
            to = chance.choice(firsts)
            to = chance.choice(list(after(to, int(roll[1]))) or [to])
            print("loss", at, roll, text(to))
    print("mean 0,0,0,0,0,8\nrank 0,0,0,0,0,16\nmean 0,0,0,0,0,16\nplay 0,0,0,0,0,0 11")
    print("play 0,0,0,0,0,1 17\nloss 0,0,0,0,0,1 21 0,0,0,0,0,1\nmoves 9,9,0,0,0,0 21")
    print("dist 0,0,0\nnothing 1")


main()
