#!/usr/bin/env python3
"""Turns a room file into the bytes that the library is lent, and back.

    room.py pack ROOM TABLE [VALUES]      writes the module table, and the values
    room.py unpack TABLE [VALUES]         prints a room file; without VALUES, one of start values

TABLE is what the program `port` reads from its file `table`. VALUES has eight bytes for each value, low byte first, as int64_t has on x86-64.
host/README.md tells the form of a room file. The status is 1 where a file is wrong, and 2 for other arguments.
"""
import re
import struct
import sys

FADER, TONE, SWITCH = ("level", -605, 120, 5), ("level", -150, 150, 1), ("switch", 0, 1, 1)


def number(low, high):
    return ("number", low, high, 1)


def channels(first, count):
    """A level and a mute for each of so many channels: first>1, first>2, .."""
    return [(f"{first}>{place + 1}", (FADER, SWITCH)[place % 2]) for place in range(2 * count)]


# The types by kind, less one: a word, and the rows in value order. A mixer's rows go by its size.
TYPES = [
    ("tone-control-eq", [(str(place + 1), (TONE, SWITCH)[place % 2]) for place in range(6)]),
    ("smartbass", [("1", SWITCH)]),
    ("dynamic-eq", [("1", SWITCH)]),
    ("room-combiner", [("1>1", number(0, 9))] + [(f"1>{place}", (FADER, SWITCH)[place % 2]) for place in range(2, 8)]),
    ("conference-router", [("0>1", number(0, 8)), ("0>2", number(0, 32)), ("0>3", number(0, 16)), ("0>4", SWITCH), ("0>5", number(0, 6)),
                           ("0>8", ("level", -60, -30, 10))] + channels(1, 4) + [("1>9", number(1, 6))] + channels(2, 9)),
    ("feedback-suppression", [("0>2", SWITCH), ("1>1", number(1, 43200))]),
    ("standard-mixer", None),
]
MIXER = 7


def rows_of(kind, inputs, outputs):
    """The rows of a module: indices, and what with low, high and step."""
    if kind != MIXER:
        return TYPES[kind - 1][1]
    bit = 1 << (32 - outputs)
    words = [(f"3>{place + 1}", ("word", 0, (1 << 32) - bit, bit)) for place in range(inputs)]
    return channels(1, inputs) + channels(2, outputs) + words


def permits(row, value):
    _, low, high, step = row
    return low <= value <= high and (value - low) % step == 0


def start(row):
    return 0 if permits(row, 0) else row[1]


class Fault(Exception):
    line = None


def read_value(what, text):
    """A value as a room file writes it; none where it has not the form."""
    if what == "switch":
        return {"on": 1, "O": 1, "off": 0, "F": 0}.get(text)
    if what == "word":
        return int(text, 16) if re.fullmatch("[0-9A-F]{8}", text) else None
    if what == "number":
        return int(text) if re.fullmatch("[0-9]{1,5}", text) else None
    level = re.fullmatch(r"(-?)([0-9]{1,2})(?:\.([0-9]))?", text)
    return level and (-1 if level[1] else 1) * (int(level[2]) * 10 + int(level[3] or 0))


def value_text(what, value):
    if what == "switch":
        return ("off", "on")[value]
    if what == "word":
        return f"{value:08X}"
    if what == "number":
        return str(value)
    return ("-" if value < 0 else "") + str(abs(value) // 10) + (f".{abs(value) % 10}" if value % 10 else "")


def read_module(text):
    """Kind, label, inputs and outputs of what follows the word `module`."""
    parts = re.fullmatch(r'(\S+)\s+"([^"]*)"\s*(?:(\d+)x(\d+))?', text)
    if not parts:
        raise Fault('write: module TYPE "LABEL", behind a mixer\'s label its size, as 8x4')
    words = [word for word, _ in TYPES]
    kind = words.index(parts[1]) + 1 if parts[1] in words else int(parts[1]) if re.fullmatch("[1-7]", parts[1]) else 0
    if not kind:
        raise Fault(f"no module type: {parts[1]} (there are {', '.join(words)})")
    if not re.fullmatch(r'[ -~]{1,32}', parts[2]):
        raise Fault("a label has 1 to 32 characters of ASCII")
    size = (int(parts[3]), int(parts[4])) if parts[3] else (0, 0)
    if parts[3] is None if kind == MIXER else parts[3]:
        raise Fault("a mixer has a size behind its label, as 8x4, and no other module has one")
    if kind == MIXER and not all(1 <= part <= 32 for part in size):
        raise Fault("a mixer has 1 to 32 inputs and outputs")
    return (kind, parts[2], *size)


def statement(line):
    """A line without what is behind a `#`, which may stand in a label."""
    kept = re.match(r'[^#"]*("[^"]*"[^#"]*)?', line.replace("\t", " "))[0] if "#" in line else line.replace("\t", " ")
    return kept.strip()


def read_setting(module, rows, line):
    """Row, output (0 for the whole) and value of `INDEX = VALUE`."""
    index, equals, text = (part.strip() for part in line.partition("="))
    if not equals:
        raise Fault(f"neither `module ..` nor `INDEX = VALUE`: {line}")
    index = index.removeprefix(">")
    pair = re.fullmatch(r"4>\(([1-9]\d?),([1-9]\d?)\)", index) if module[0] == MIXER else None
    output = int(pair[2]) if pair and int(pair[2]) <= module[3] else 0
    own = [own for own, _ in rows]
    name = f"3>{pair[1]}" if output else index
    if name not in own:
        raise Fault(f"the module has no index {index}")
    row = rows[own.index(name)][1]
    value = read_value("switch" if output else row[0], text)
    if value is None or not (output or permits(row, value)):
        raise Fault(f"{index} does not take {text}")
    return own.index(name), output, value


def read_room(text):
    """Modules and values of a room file."""
    modules, values, given = [], [], {}
    for count, line in enumerate(text.removeprefix("\ufeff").splitlines(), 1):
        try:
            line = statement(line)
            if line.startswith("module "):
                if len(modules) == 64:
                    raise Fault("a room has at most 64 modules")
                modules.append(read_module(line[7:].strip()))
                rows, first = rows_of(modules[-1][0], *modules[-1][2:]), len(values)
                values += [start(row) for _, row in rows]
            elif line and not modules:
                raise Fault("a value before the first module")
            elif line:
                row, output, value = read_setting(modules[-1], rows, line)
                earlier = given.setdefault(first + row, set())
                if earlier and (not output or earlier & {0, output}):
                    raise Fault("the value is given twice")
                earlier.add(output)
                bit = 1 << (32 - output)
                values[first + row] = values[first + row] & ~bit | bit * value if output else value
        except Fault as fault:
            fault.line = count
            raise
    return modules, values


def table_bytes(modules):
    sizes = [bytes(module[2:]) if module[0] == MIXER else b"" for module in modules]
    return b"".join(bytes([kind]) + label.encode().ljust(32, b"\0") + size for (kind, label, *_), size in zip(modules, sizes))


def read_table(table):
    """The modules of a table's bytes. What else must hold of them the library tells."""
    modules = []
    while table:
        kind, length = table[0], 35 if table[0] == MIXER else 33
        label = table[1:33].rstrip(b"\0")
        size = tuple(table[33:length])
        if not 1 <= kind <= MIXER or len(table) < length or not re.fullmatch(rb"[ !#-~]{1,32}", label) or not all(1 <= part <= 32 for part in size):
            raise Fault(f"record {len(modules) + 1} is not sound")
        modules.append((kind, label.decode(), *(size or (0, 0))))
        table = table[length:]
    return modules


def room_text(modules, values):
    """A room file: every value that is not the start value."""
    lines, at = [], 0
    for kind, label, *size in modules:
        lines.append(f'module {TYPES[kind - 1][0]} "{label}"' + (f" {size[0]}x{size[1]}" if kind == MIXER else ""))
        rows = rows_of(kind, *size)
        for (index, row), value in zip(rows, values[at:at + len(rows)] if values is not None else []):
            if not permits(row, value):
                raise Fault(f'"{label}" does not permit {value} at {index}')
            if value != start(row):
                lines.append(f"    {index} = {value_text(row[0], value)}")
        at += len(rows)
    if values is not None and at != len(values):
        raise Fault(f"the table has {at} values, the file {len(values)}")
    return "".join(line + "\n" for line in lines)


def read_file(path):
    with open(path, "rb") as file:
        return file.read()


def write_file(path, content):
    with open(path, "wb") as file:
        file.write(content)


def main(command, path, *others):
    if command == "pack":
        modules, values = read_room(read_file(path).decode())
        write_file(others[0], table_bytes(modules))
        if others[1:]:
            write_file(others[1], struct.pack(f"<{len(values)}q", *values))
        return
    packed = read_file(others[0]) if others else None
    if packed is not None and len(packed) % 8:
        raise Fault("the values are not of eight bytes each")
    values = None if packed is None else struct.unpack(f"<{len(packed) // 8}q", packed)
    sys.stdout.write(room_text(read_table(read_file(path)), values))


if __name__ == "__main__":
    if (sys.argv[1:2], len(sys.argv)) not in ((["pack"], 4), (["pack"], 5), (["unpack"], 3), (["unpack"], 4)):
        print(__doc__, file=sys.stderr)
        sys.exit(2)
    try:
        main(*sys.argv[1:])
    except Fault as fault:
        place = f"{sys.argv[2]}:{fault.line}" if fault.line else sys.argv[2]
        print(f"{place}: {fault}", file=sys.stderr)
        sys.exit(1)
    except UnicodeDecodeError:
        print(f"{sys.argv[2]}: this is no text in UTF-8", file=sys.stderr)
        sys.exit(1)
    except OSError as error:
        print(f"{error.filename}: {error.strerror}", file=sys.stderr)
        sys.exit(1)
