#!/usr/bin/env python3
"""slow.py [FILE]: the rules a third time, as naively as they can be written.

It keeps all readings and works everything out anew at each command, straight from
docs/RULES.md sections 3 to 8.1 (the reference); input and output are those of peer.rs.
It is there to check peer.rs, and for nothing else: a day of n commands takes it n * n steps.
"""
import struct
import sys

TIME_BOUND = 2**40


def parse(data):
    """The commands of section 11, and the byte where reading stopped."""
    commands, at = [], 24
    while at < len(data):
        if data[at] == 0 and at + 21 <= len(data):
            card, serial, time, amount = struct.unpack_from("<IIQI", data, at + 1)
            commands.append(("reading", (card, time, serial, amount)))
            at += 21
        elif data[at] == 1 and at + 9 <= len(data):
            commands.append(("watermark", struct.unpack_from("<Q", data, at + 1)[0]))
            at += 9
        else:
            break
    return commands, at


def all_visits(readings, gap):
    """Section 4, Forming: (card, from, to, count, sum) of all readings, in order."""
    visits = []
    for card, time, _, amount in sorted(readings, key=lambda r: r[:3]):
        if visits and visits[-1][0] == card and time <= visits[-1][2] + gap:
            _, start, _, count, total = visits[-1]
            visits[-1] = (card, start, time, count + 1, total + amount)
        else:
            visits.append((card, time, time, 1, amount))
    return visits


def closed_visits(readings, gap, watermark):
    return [v for v in all_visits(readings, gap) if v[2] + gap < watermark]


def refusal(terms, readings, watermark, command):
    """Section 10, in the order 2, 3, 4, 5, 6; None if the command is taken."""
    gap, lateness, day_length = terms
    kind, what = command
    for place, bad in enumerate((gap >= TIME_BOUND, lateness >= TIME_BOUND, day_length == 0)):
        if bad:
            return 2, place
    if kind == "watermark":
        if what >= TIME_BOUND:
            return 3, 1
        return (6, what) if what < watermark else None
    card, time, serial, _ = what
    if time >= TIME_BOUND:
        return 3, 2
    if time + lateness < watermark:
        return 4, time
    if any((card, time, serial) == taken[:3] for taken in readings):
        return 5, time
    return None


def ledger(closed, day_length):
    """Section 7: (card, day) to [visits, sum]."""
    lines = {}
    for card, start, _, _, total in closed:
        line = lines.setdefault((card, start // day_length), [0, 0])
        line[0] += 1
        line[1] += total
    return lines


def main():
    data = open(sys.argv[1], "rb").read() if len(sys.argv) > 1 else sys.stdin.buffer.read()
    if len(data) < 24:
        sys.exit(f"slow: the file has {len(data)} bytes; the terms alone take 24")
    terms = gap, _, day_length = struct.unpack_from("<QQQ", data)
    commands, stopped = parse(data)
    readings, watermark = [], 0
    for command in commands:
        refused = refusal(terms, readings, watermark, command)
        if refused:
            print("refused", refused[0], "at", refused[1])
            continue
        before = closed_visits(readings, gap, watermark)
        kind, what = command
        if kind == "reading":
            readings.append(what)
        else:
            watermark = what
        after = closed_visits(readings, gap, watermark)
        for visit in before:
            if visit not in after:
                print("-", *visit)
        for visit in after:
            if visit not in before:
                print("+", *visit)
    if readings:
        lines = ledger(closed_visits(readings, gap, watermark), day_length)
        for (card, day), (visits, total) in sorted(lines.items()):
            print("card", card, "day", day, "visits", visits, "sum", total)
    if stopped < len(data):
        print(f"slow: stopped at byte {stopped}", file=sys.stderr)


main()
