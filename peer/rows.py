#!/usr/bin/env python3
"""rows.py FILE...

A peer of the store's rows, written from docs/RULES.md alone: what `open` and `apply` answer to the
cases in files, and what they leave in both rows. It shares no code with crates/, only the cases.

A file is lines of instructions. `#` begins a comment, `;` stands between instructions, words are
separated by spaces, and a number is decimal, 2^N or 2^N-1.

    new                     begin anew: an empty row, `out`, the layout's capacity
    base                    what stands now is what every further case begins with
    case NAME               begin a case
    size N, out N           cut or lengthen the store's row, or `out`, to N numbers
    capacity V R            the capacity for live visits and for kept readings; `small` is 64 and 256
    terms G L D             write the terms into the row; `watermark M` and `set AT X..` likewise
    visit C F T N S         put an entry behind the last, and count it; so do `reading C T S A` and
                            `line C D N S`
    visits N C F T N S  ..  put N entries: the first, and by how much each number grows from one to
                            the next; so do `readings` and `lines`
    empty G L D             make the row an empty store (section 9.1), whatever the terms
    open G L D              make it one, or refuse with 1 or 2; this is printed
    do X..                  do the command with this row; this is printed

Rows are three numbers longer than they need to be, and wherever nothing was written a cell holds
7,000,000 and its index. Printed is `NAME: number value`; behind a refusal whether both rows are
unchanged; of a command that was taken what is in `out`, and every cell of the store that is not 0,
60 of each at most and then a hash, and whether what is behind is unchanged.
"""

import sys
from typing import NamedTuple

WORD = 1 << 32  # bounds of section 2
TIME = 1 << 40
SUM = 1 << 52
STORE_SIZE = 37_895
OUT_SIZE = 5_132
MASK = (1 << 64) - 1
ANY = 1 << 64


class Table(NamedTuple):
    """Where a table stands in the row (section 9.1), and below what its numbers are (section 10)."""

    count_at: int
    at: int
    most: int
    bounds: tuple


VISITS = Table(4, 7, 1_024, (ANY, TIME, TIME, TIME, SUM))
READINGS = Table(5, 5_127, 4_096, (ANY, TIME, ANY, ANY))
LINES = Table(6, 21_511, 4_096, (ANY, ANY, TIME, SUM))
TABLES = (VISITS, READINGS, LINES)


class Visit(NamedTuple):
    card: int
    start: int
    end: int
    count: int
    sum: int


class Refused(Exception):
    """Number and place of section 10."""


# ---- Refusals (section 10) --------------------------------------------------------------------


def refuse(condition, number, place):
    if condition:
        raise Refused(number, place)


def check_store(store):
    refuse(len(store) < STORE_SIZE, 1, len(store))
    for table in TABLES:
        refuse(store[table.count_at] > table.most, 1, table.count_at)
    for table in TABLES:
        place = table.at
        for _ in range(store[table.count_at]):
            for bound in table.bounds:
                refuse(store[place] >= bound, 1, place)
                place += 1


def check_terms(gap, lateness, day_length):
    refuse(gap >= TIME, 2, 0)
    refuse(lateness >= TIME, 2, 1)
    refuse(day_length == 0, 2, 2)


def check_command(command):
    refuse(len(command) < 5, 3, len(command))
    refuse(command[0] not in (0, 1), 3, 0)
    bounds = (WORD, TIME, WORD, WORD) if command[0] == 0 else (TIME,)
    for place, bound in enumerate(bounds, 1):
        refuse(command[place] >= bound, 3, place)


def check_room_for_reading(store, capacity):
    visits, readings, lines = store[4:7]
    refuse(visits >= min(capacity[0], VISITS.most), 7, 4)
    refuse(readings >= min(capacity[1], READINGS.most), 7, 5)
    refuse(lines + visits >= LINES.most, 7, 6)


def check_room_for_watermark(store, state):
    still_open = sum(not state.closed(visit) for visit in state.visits)
    refuse(store[6] + still_open > LINES.most, 7, 6)


# ---- The store on lists (section 8) -----------------------------------------------------------


def near(a, b, gap):
    return a.card == b.card and a.start <= b.end + gap and b.start <= a.end + gap


def merge(a, b):
    start, end = min(a.start, b.start), max(a.end, b.end)
    return Visit(a.card, start, end, a.count + b.count, a.sum + b.sum)


def merged_in(visit, visits, gap):
    """Section 8.3."""
    passed, rest = [], list(visits)
    while rest:
        if near(visit, rest[0], gap):
            visit = merge(visit, rest.pop(0))
        elif (rest[0].card, rest[0].start) < (visit.card, visit.start):
            passed.append(rest.pop(0))
        else:
            break
    return passed + [visit] + rest


def missing(visits, others):
    """Those that are not among the others, in order."""
    others = set(others)
    return [visit for visit in visits if visit not in others]


def take_away(lines, key, amount):
    """Section 8.4. A line is (card, day, visits, sum)."""
    for i, (card, day, visits, total) in enumerate(lines):
        if (card, day) == key:
            left = (card, day, max(visits - 1, 0), max(total - amount, 0))
            lines[i : i + 1] = [] if visits == 1 else [left]
            return


def add(lines, key, amount):
    """Section 8.4."""
    i = 0
    while i < len(lines) and lines[i][:2] < key:
        i += 1
    if i < len(lines) and lines[i][:2] == key:
        lines[i] = (*key, lines[i][2] + 1, lines[i][3] + amount)
    else:
        lines.insert(i, (*key, 1, amount))


class State:
    """What a row holds, and what a command does to it."""

    def __init__(self, store):
        self.gap, self.lateness, self.day_length, self.watermark = store[:4]
        self.visits = [Visit(*entry) for entry in entries(store, VISITS)]
        self.readings = entries(store, READINGS)
        self.lines = entries(store, LINES)

    def closed(self, visit):
        return visit.end + self.gap < self.watermark

    def expired(self, visit):
        return visit.end + self.gap + self.lateness < self.watermark

    def too_late(self, time):
        return time + self.lateness < self.watermark

    def check(self, command):
        """Refusals 4, 5 and 6."""
        kind, *numbers = command
        if kind == 0:
            card, time, serial = numbers[:3]
            refuse(self.too_late(time), 4, time)
            refuse((card, time, serial) in [reading[:3] for reading in self.readings], 5, time)
        else:
            refuse(numbers[0] < self.watermark, 6, numbers[0])

    def take(self, command):
        """Section 8.2. Answers the visits retracted, those added, and the largest count of each
        table during the command (section 9.5)."""
        before = [len(self.visits), len(self.readings), len(self.lines)]
        old_closed = list(filter(self.closed, self.visits))
        if command[0] == 0:
            self.take_reading(tuple(command[1:5]))
        else:
            self.watermark = command[1]
        new_closed = list(filter(self.closed, self.visits))
        retracted, added = missing(old_closed, new_closed), missing(new_closed, old_closed)
        for visit in retracted:
            take_away(self.lines, self.key(visit), visit.sum)
        for visit in added:
            add(self.lines, self.key(visit), visit.sum)
        during = [len(self.visits), len(self.readings), len(self.lines)]
        self.visits = [visit for visit in self.visits if not self.expired(visit)]
        self.readings = [reading for reading in self.readings if not self.too_late(reading[1])]
        return retracted, added, [max(pair) for pair in zip(before, during)]

    def take_reading(self, reading):
        card, time, _, amount = reading
        self.visits = merged_in(Visit(card, time, time, 1, amount), self.visits, self.gap)
        place = 0
        while place < len(self.readings) and self.readings[place][:3] < reading[:3]:
            place += 1
        self.readings.insert(place, reading)

    def key(self, visit):
        return visit.card, visit.start // self.day_length


# ---- The store as numbers (section 9) ---------------------------------------------------------


def entries(store, table):
    width = len(table.bounds)
    places = range(table.at, table.at + store[table.count_at] * width, width)
    return [tuple(store[place : place + width]) for place in places]


def write(store, table, rows, most):
    """Section 9.5: the list, then 0 up to the largest count, then what stood there."""
    width = len(table.bounds)
    cells = [number for row in rows for number in row]
    cells += [0] * (most * width - len(cells))
    store[table.at : table.at + len(cells)] = cells
    store[table.count_at] = len(rows)


def apply(store, command, out, capacity):
    """The answer to a command, as number and value; both rows become what they are after it."""
    try:
        check_store(store)
        check_terms(*store[:3])
        refuse(store[3] >= TIME, 2, 3)
        check_command(command)
        refuse(len(out) < OUT_SIZE, 8, len(out))
        state = State(store)
        if command[0] == 0:
            check_room_for_reading(store, capacity)
        else:
            check_room_for_watermark(store, state)
        state.check(command)
    except Refused as refused:
        return refused.args
    retracted, added, most = state.take(command)
    store[3] = state.watermark
    for table, rows, largest in zip(TABLES, (state.visits, state.readings, state.lines), most):
        write(store, table, rows, largest)
    written = [len(retracted), len(added)]
    for visit in retracted + added:
        written += visit
    out[: len(written)] = written
    return 0, len(retracted) + len(added)


def make_empty(store, terms):
    store[:STORE_SIZE] = [*terms] + [0] * (STORE_SIZE - 3)


def open_store(store, terms):
    try:
        refuse(len(store) < STORE_SIZE, 1, len(store))
        check_terms(*terms)
    except Refused as refused:
        return refused.args
    make_empty(store, terms)
    return 0, 0


# ---- Cases ------------------------------------------------------------------------------------


def number(word):
    if not word.startswith("2^"):
        value = int(word)
    elif word.endswith("-1"):
        value = 2 ** int(word[2:-2]) - 1
    else:
        value = 2 ** int(word[2:])
    if not 0 <= value <= MASK:
        sys.exit(f"{word} does not fit into 64 bits")
    return value


def resize(row, size):
    del row[size:]
    row += [7_000_000 + i for i in range(len(row), size)]


def append(store, table, count, numbers):
    width = len(table.bounds)
    for i in range(count):
        at = table.at + width * store[table.count_at]
        for k in range(width):
            store[at + k] = (numbers[k] + i * numbers[width + k]) & MASK
        store[table.count_at] += 1


def shown(words, row, behind, behind_before):
    text = " ".join(words[:60])
    if len(words) > 60:
        value = 0xCBF29CE484222325
        for x in row:
            value = (value ^ x) * 0x100000001B3 & MASK
        text += f" and {len(words) - 60} more, hash {value}"
    return f"{text}, behind {kept(behind == behind_before)}"


def kept(same):
    return "unchanged" if same else "changed"


class Setup:
    def __init__(self):
        self.store = [0] * STORE_SIZE
        resize(self.store, STORE_SIZE + 3)
        self.out_size = OUT_SIZE + 3
        self.capacity = (VISITS.most, READINGS.most)

    def copy(self):
        other = Setup()
        other.store, other.out_size, other.capacity = self.store[:], self.out_size, self.capacity
        return other


class Cases:
    # How many numbers an instruction takes; -1 for any number of them.
    NUMBERS = {
        "new": 0, "base": 0, "size": 1, "out": 1, "capacity": 2, "small": 0, "terms": 3,
        "watermark": 1, "set": -1, "visit": 5, "reading": 4, "line": 4, "visits": 11,
        "readings": 9, "lines": 9, "empty": 3, "open": 3, "do": -1,
    }  # fmt: skip
    TABLE = {"visit": VISITS, "reading": READINGS, "line": LINES}
    NAMES = set()  # of all files

    def __init__(self):
        self.base, self.setup, self.name = Setup(), Setup(), None

    def line(self, line):
        for instruction in line.split("#")[0].split(";"):
            words = instruction.split()
            if words[:1] == ["case"]:
                self.begin(*words[1:])
            elif words:
                numbers = [number(word) for word in words[1:]]
                if self.NUMBERS[words[0]] not in (-1, len(numbers)):
                    sys.exit(f"{instruction.strip()}: wrong number of numbers")
                self.instruction(words[0], numbers)

    def begin(self, name):
        if name in self.NAMES:
            sys.exit(f"there are two cases {name}")
        self.NAMES.add(name)
        self.name, self.setup = name, self.base.copy()

    def instruction(self, word, numbers):
        setup = self.setup
        if word == "new":
            self.setup = Setup()
        elif word == "base":
            self.base = setup.copy()
        elif word == "size":
            resize(setup.store, *numbers)
        elif word == "out":
            (setup.out_size,) = numbers
        elif word in ("capacity", "small"):
            setup.capacity = tuple(numbers) or (64, 256)
        elif word in ("terms", "watermark"):
            self.set({"terms": 0, "watermark": 3}[word], numbers)
        elif word == "set":
            self.set(numbers[0], numbers[1:])
        elif word in self.TABLE:
            append(setup.store, self.TABLE[word], 1, numbers + [0] * 5)
        elif word[:-1] in self.TABLE:
            append(setup.store, self.TABLE[word[:-1]], numbers[0], numbers[1:])
        elif word == "empty":
            make_empty(setup.store, numbers)
        elif word == "open":
            self.open(numbers)
        else:
            self.do(numbers)

    def set(self, at, values):
        if at + len(values) > len(self.setup.store):
            sys.exit(f"{self.name}: {at} and further is past the end of the row")
        self.setup.store[at : at + len(values)] = values

    def open(self, terms):
        before = self.setup.store[:]
        reply = open_store(self.setup.store, terms)
        self.answer(reply, before, True)
        if reply[0] == 0:
            self.show_store(before)

    def do(self, command):
        out = []
        resize(out, self.setup.out_size)
        before, out_before = self.setup.store[:], out[:]
        reply = apply(self.setup.store, command, out, self.setup.capacity)
        self.answer(reply, before, out == out_before)
        if reply[0] == 0:
            end = 2 + 5 * reply[1]
            words = [str(x) for x in out[:end]]
            print("  out", shown(words, out[:end], out[end:], out_before[end:]))
            self.show_store(before)

    def answer(self, reply, before, out_kept):
        refused = f" {kept(out_kept and self.setup.store == before)}" if reply[0] else ""
        print(f"{self.name}: {reply[0]} {reply[1]}{refused}")

    def show_store(self, before):
        layout, behind = self.setup.store[:STORE_SIZE], self.setup.store[STORE_SIZE:]
        words = [f"{i}={x}" for i, x in enumerate(layout) if x]
        print("  store", shown(words, layout, behind, before[STORE_SIZE:]))


def main():
    for name in sys.argv[1:]:
        cases = Cases()
        with open(name, encoding="ascii") as file:
            for line in file:
                cases.line(line)


if __name__ == "__main__":
    main()
