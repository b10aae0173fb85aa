#!/usr/bin/env python3
"""rows_random.py SEED COUNT: random cases for rows.py and the program `boundaries`, on standard output.

Rows that commands have not written, mostly within bounds: small numbers, so that visits are often
near, equal or expired, keys often repeated, and something often stands behind the counts.
"""

import random
import sys

LARGE = ("2^32-1", "2^32", "2^40-1", "2^40", "2^52-1", "2^52", "2^64-1")


def words(*numbers):
    return " ".join(map(str, numbers))


def card():
    return random.choice((1, 1, 1, 2, 2, 3, 0, "2^64-1"))


def visit(now):
    start = random.randint(max(0, now - 60), now + 10)
    end = max(0, start + random.choice((0, 1, 3, 8, 20, -1, -9, -30)))
    return card(), start, end, random.choice((0, 1, 2, 2)), random.randint(0, 9)


def visits(now):
    """Some, in order or not, one of them perhaps twice."""
    some = [visit(now) for _ in range(random.randint(0, 8))]
    if some and random.random() < 0.4:
        some.append(random.choice(some))
    random.shuffle(some)
    if random.random() < 0.5:
        some.sort(key=lambda visit: (str(visit[0]), *visit[1:]))
    return some


def reading(now):
    time = random.randint(max(0, now - 45), now + 10)
    return card(), time, random.choice((0, 0, 1, "2^64-1")), random.randint(0, 9)


def line(now, day_length):
    day = random.choice((0, 0, 1, max(0, now - 20) // day_length, now // day_length, "2^64-1"))
    return card(), day, random.choice((0, 1, 1, 2, 3)), random.randint(0, 30)


def junk():
    """Something behind the counts, put there before the tables are."""
    for at, end in ((7, 60), (5_127, 5_190), (21_511, 21_570)):
        if random.random() < 0.5:
            yield f"set {at} " + words(*(random.randint(900, 999) for _ in range(at, end)))


def reading_command(now, gap, lateness, live):
    """A reading that is mostly not too late, and often near to a visit."""
    earliest = max(0, now - lateness - random.choice((0, 0, 0, 3)))
    whose, time = random.randint(0, 3), random.randint(earliest, now + 15)
    if live and random.random() < 0.7:
        whose, start, end = random.choice(live)[:3]
        whose = whose if isinstance(whose, int) else 1
        time = max(earliest, random.choice((start, end)) + random.randint(-gap - 1, gap + 1))
    return words(0, whose, time, random.choice((0, 0, 1)), random.randint(0, 9))


def odd_command():
    return words(*(random.choice((0, 1, 2, 50, *LARGE)) for _ in range(random.randint(3, 6))))


def commands(now, gap, lateness, live):
    for _ in range(random.randint(1, 6)):
        kind = random.random()
        if kind < 0.65:
            yield "do " + reading_command(now, gap, lateness, live)
        elif kind < 0.97:
            asked = max(0, now + random.choice((-1, 0, 1, 2, 5, 11, 30, 100)))
            now = max(now, asked)
            yield "do " + words(1, asked, 0, 0, 0)
        else:
            yield "do " + odd_command()


def case(name):
    gap, lateness = random.choice((0, 1, 5, 10)), random.choice((0, 3, 15, 40, 60))
    day_length, now, live = random.choice((1, 7, 20, 1000)), random.randint(0, 120), []
    yield f"case {name}"
    yield from junk()
    yield "terms " + words(gap, lateness, day_length)
    yield f"watermark {now}"
    for entry in visits(now):
        live.append(entry)
        yield "visit " + words(*entry)
    for _ in range(random.randint(0, 6)):
        yield "reading " + words(*reading(now))
    for _ in range(random.randint(0, 6)):
        yield "line " + words(*line(now, day_length))
    if random.random() < 0.1:
        yield "capacity " + words(random.randint(0, 9), random.randint(0, 9))
    if random.random() < 0.1:
        at = random.choice((*range(47), *range(5_127, 5_150), *range(21_511, 21_535)))
        yield "set " + words(at, random.choice(LARGE))
    yield from commands(now, gap, lateness, live)


def main():
    random.seed(int(sys.argv[1]))
    for i in range(int(sys.argv[2])):
        print("; ".join(case(f"random-{i}")))


if __name__ == "__main__":
    main()
