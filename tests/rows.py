#!/usr/bin/env python3
"""Compares every account of the rows with the proved catalogue, and with what the shared library does.

The accounts are the table in the header, that of docs/RULES.md and the one in examples/room.py. The catalogue is the constant table of crates/catalogue/src/table.rt;
a mixer's rows are computed in mixer.rt, from which the bounds and the places of its groups are read. Then each column of each row of the header's and the rules' tables is
changed, one at a time, and every change must be found.
"""
import re
import sys

import library
import room

HEADER, RULES = (library.ROOT / path for path in ("host/include/egrivundo.h", "docs/RULES.md"))
SOURCE = library.ROOT / "crates/catalogue/src"
SIZES = [(1, 1), (1, 32), (2, 3), (8, 4), (32, 1), (32, 32)]
ALL = [(kind, 0, 0) for kind in range(1, 7)] + [(7, *size) for size in SIZES]


def catalogue():
    """The constant table: by kind the rows, each of indices, what, low, high, step and settable."""
    rows = {kind: [] for kind in range(1, 7)}
    entry = r"^    entry!\((\d), \w+\(([\d, ]+)\), (\w+), (\S+), (\S+), (\d+), (\w+)\),$"
    for kind, indices, what, low, high, step, settable in re.findall(entry, (SOURCE / "table.rt").read_text(), re.M):
        rows[int(kind)].append((indices.replace(", ", ">"), what.lower(), int(low), int(high), int(step), settable == "true"))
    return rows


def mixer(inputs, outputs):
    """A mixer's rows, by what mixer.rt says of a row and of the places of its groups."""
    text = (SOURCE / "mixer.rt").read_text()
    bounds = {name: tuple(map(int, re.search(rf"fn {name}_row.*?low: (\S+),\s+high: (\S+),\s+step: (\S+),", text, re.S).groups())) for name in ("level", "mute")}
    rows = {}
    for group, first, size in re.findall(r"^        (\d) => within\((.+?), (.+?), count, j\),$", text, re.M):
        first, size = (eval(words, {"inputs": inputs, "outputs": outputs}) for words in (first, size))
        for place in range(size):
            bit = 1 << (32 - outputs)
            own = ("word", 0, (1 << 32) - bit, bit) if group == "3" else (("level", *bounds["level"]), ("switch", *bounds["mute"]))[place % 2]
            rows[first + place] = (f"{group}>{place + 1}", *own, True)
    return [rows[place] for place in sorted(rows)]


def number(text, names):
    """What an expression such as 2M+2o-1 comes to."""
    return eval(re.sub(r"(\d)(?=[A-Za-z])", r"\1*", text), dict(names))


def expand(lines, inputs, outputs):
    """A mixer's rows by lines of expressions, each of a row's place and columns."""
    bit, rows = 1 << (32 - outputs), {}
    for place, indices, what, low, high, step, settable in lines:
        letter = "o" if "o" in indices else "i"
        for channel in range(1, (outputs if letter == "o" else inputs) + 1):
            names = {"M": inputs, "N": outputs, letter: channel}
            group, second = indices.split(">")
            bounds = (int(low), (1 << 32) - bit if high == "all N" else int(high), bit if step == "bit" else int(step))
            rows.setdefault(number(place, names), []).append((f"{group}>{number(second, names)}", what, *bounds, settable == "settable"))
    return [row for place in range(len(rows)) for row in rows.get(place, [])]


def of_header(text):
    """The header's rows: by kind, and the lines of a mixer."""
    rows, lines = {}, []
    for kind, row, indices, what, low, high, step, settable in re.findall(
            r"^ \*   (\d) +(\d+)   (\S+) +(level|switch|number) +(-?\d+) +(-?\d+) +(\d+)  (settable|read-only) +\S.*$", text, re.M):
        own = rows.setdefault(int(kind), [])
        own.append((indices, what, int(low), int(high), int(step), settable == "settable") if int(row) == len(own) else ("out of order",))
    for line in re.findall(r"^ \*   ([\dMNio+-]+) +(\d>[\dio-]+) +(level|switch|word) +(-?\d+) +(-?\d+|all N) +(\d+|bit)  (settable|read-only) +\S.*$", text, re.M):
        lines.append(line)
    return rows, lines


def tenths(text):
    return round(float(text) * 10)


def of_rules(text):
    """The rows of docs/RULES.md: by kind, and the lines of a mixer."""
    rows, lines = {}, []
    for part in re.split(r"^### ", text, flags=re.M)[1:]:
        kind = int(part[0])
        for row, indices, value, settable in re.findall(r"^\| ([^|]+?) \| `?([^|`]+?)`? \| ([^|]+?) \| (yes|no) \|", part, re.M):
            level = re.fullmatch(r"level (\S+) to (\S+), step (\S+)", value)
            plain = re.fullmatch(r"number (\S+) to (\S+)", value)
            own = ("level", *map(tenths, level.groups())) if level else ("number", *map(int, plain.groups()), 1) if plain else ("word", 0, "all N", "bit") if value == "routing word" else (
                "switch", 0, 1, 1) if value == "switch" else (value,)
            if kind == 7:
                lines.append((row, indices, *own, "settable" if settable == "yes" else "read-only"))
            else:
                listed = rows.setdefault(kind, [])
                listed.append((indices, *own, settable == "yes") if row == str(len(listed)) else ("out of order",))
    return rows, lines


def differences(name, account, right):
    """What differs between an account and the right rows."""
    rows, lines = account
    faults = [f"{name}: the rows of kind {kind} differ" for kind in range(1, 7) if rows.get(kind) != right[(kind, 0, 0)]]
    return faults + [f"{name}: the rows of a mixer {size} differ" for size in SIZES if expand(lines, *size) != right[(7, *size)]]


def of_library(kind, inputs, outputs, rows):
    """What the library does otherwise than the rows say, over a table with one module."""
    table = bytes([kind]) + b"L".ljust(32, b"\0") + (bytes([inputs, outputs]) if kind == 7 else b"")
    starts = [0 if room.permits(row[1:5], 0) else row[2] for row in rows]
    faults = []
    if not library.sound(table) or library.feed(table, starts, b"")[0] or not library.feed(table, starts + [0], b"")[0]:
        faults.append("another number of values")
    for place, (indices, what, low, high, step, settable) in enumerate(rows):
        def put(value):
            return starts[:place] + [value] + starts[place + 1:]
        for value in {low - 1, low, low + 1, high - 1, high, high + 1}:
            right = low <= value <= high and (value - low) % step == 0
            if (library.feed(table, put(value), b"")[0] == 0) != right:
                faults.append(f"{indices}: {value} is {'not ' * right}permitted")
        text = {0: "F", 1: "O"}[high] if what == "switch" else room.value_text(what, high)
        if library.feed(table, put(high), f'GA"L">{indices}\r'.encode())[2] != f'GA"L">{indices}={text}\r'.encode():
            faults.append(f"{indices} is answered with another value")
        _, after, reply = library.feed(table, starts, f'SA"L">{indices}={text}\r'.encode())
        if (after, reply) != ((put(high), b"\x06\r") if settable else (starts, b"\x1503\r")):
            faults.append(f"{indices} is {'not ' * settable}set")
        if library.panel(table, starts, 0, place, high)[:2] != ((0, put(high)) if settable else (9, starts)):
            faults.append(f"{indices} is {'not ' * settable}set by a panel, as row {place}")
    return [f"the library, kind {kind} {inputs}x{outputs}: {words}" for words in faults]


def told(row):
    """A row in seven numbers, as the library tells it."""
    indices, what, low, high, step, settable = row
    first, _, second = indices.partition(">")
    return [int(first), int(second or -1), ["level", "switch", "number", "word"].index(what), low, high, step, int(settable)]


def of_calls(kind, inputs, outputs, rows):
    """What the calls on rows tell otherwise, over a table with two such modules; and what they answer to a module or row that is not there."""
    record = bytes([kind]) + b"L".ljust(32, b"\0") + (bytes([inputs, outputs]) if kind == 7 else b"")
    table, count = record * 2, len(rows)
    starts = [0 if room.permits(row[1:5], 0) else row[2] for row in rows]
    right = library.value_count(table) == (0, 2 * count) and library.starts(table, 2 * count) == (0, starts * 2)
    right &= all(library.starts(table, size) == (2, [77] * size) for size in (0, count, 2 * count - 1, 2 * count + 1))
    for owner in range(2):
        for place, row in enumerate(rows):
            right &= library.place(table, owner, place) == (0, owner * count + place) and library.row(table, owner, place) == (0, told(row))
    for owner, row in ((0, count), (1, count), (2, 0), (0, 2**64 - 1), (2**64 - 1, 0), (2**32, 0), (0, 2**32), (2**64 - count, count)):
        right &= library.place(table, owner, row) == (9, 0) and library.row(table, owner, row) == (9, [0] * 7)
    return [] if right else [f"the calls on rows tell otherwise: kind {kind} {inputs}x{outputs}"]


def unsound():
    """What the calls on rows answer to a table that is not sound."""
    answers = library.value_count(b"\1"), library.starts(b"\1", 1), library.place(b"\1", 0, 0), library.row(b"\1", 0, 0)
    return [] if answers == ((1, 0), (1, [77]), (1, 0), (1, [0] * 7)) else ["an unsound table is answered otherwise"]


def planted(text, read, right):
    """Changes each number and word of each row, one at a time, and tells the changes that are not found."""
    missed, changes = [], 0
    for line in re.finditer(r"^(?: \*   \d.*  (?:settable|read-only)  .*|\| \d.* \| (?:yes|no) \| .*)$", text, re.M):
        columns = re.finditer(r"-?\d+(?:\.\d)?|level|switch|number|settable|read-only|\byes\b|\bno\b", line[0].rsplit("|", 2)[0] if line[0].startswith("|") else line[0][:68])
        for column in columns:
            other = {"level": "switch", "switch": "level", "number": "level", "settable": "read-only", "read-only": "settable", "yes": "no", "no": "yes"}.get(column[0])
            if other is None:
                other = f"{float(column[0]) + 1:.1f}" if "." in column[0] else str(int(column[0]) + 1)
            at = line.start() + column.start()
            changed = text[:at] + other + text[at + len(column[0]):]
            changes += 1
            try:
                if not differences("", read(changed), right):
                    missed.append(f"a change of {column[0]} to {other} is not found: {line[0]}")
            except (SyntaxError, KeyError, NameError, ValueError, TypeError):
                pass
    return missed, changes


right = {(kind, 0, 0): rows for kind, rows in catalogue().items()} | {(7, *size): mixer(*size) for size in SIZES}
faults = [] if sum(map(len, catalogue().values())) == 50 else ["the catalogue has not fifty rows"]
found = 0
for path, read in ((HEADER, of_header), (RULES, of_rules)):
    faults += differences(path.name, read(path.read_text()), right)
    missed, changes = planted(path.read_text(), read, right)
    faults += missed + ([] if changes > 300 else [f"{path.name}: only {changes} changes were tried"])
    found += changes
for layout in ALL:
    if [(indices, *row) for indices, row in room.rows_of(*layout)] != [row[:5] for row in right[layout]]:
        faults.append(f"room.py: the rows of kind {layout} differ")
    faults += of_library(*layout, right[layout]) + of_calls(*layout, right[layout])
faults += unsound()

for words in faults:
    print(f"FAILED: {words}")
print(f"rows: header, rules, room.py and library have the catalogue's rows, {found} planted changes are found" if not faults else f"rows: {len(faults)} faults")
sys.exit(bool(faults))
