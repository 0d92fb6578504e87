#!/usr/bin/env python3
"""Tries examples/room.py: what it packs it unpacks to the same, the library takes it, and what is wrong is told with its line.

    tests/room-files.py [PORT]        PORT is the program `port`, which is run on examples/table where it is there
"""
import pathlib
import random
import struct
import subprocess
import sys
import tempfile

import library
import room

EXAMPLES = library.ROOT / "examples"
PORT = pathlib.Path(sys.argv[1] if len(sys.argv) > 1 else library.ROOT / "target/bin/port").resolve()
kept = tempfile.TemporaryDirectory()
folder = pathlib.Path(kept.name)
faults, rooms = [], 0


def expect(right, words):
    if not right:
        faults.append(words)


def script(*words):
    """The script as a user runs it: status, output, message."""
    done = subprocess.run([sys.executable, EXAMPLES / "room.py", *words], capture_output=True)
    return done.returncode, done.stdout, done.stderr.decode()


def packed(text):
    """Table and values of a room file's bytes, and the whole answer."""
    (folder / "a.room").write_bytes(text)
    answer = script("pack", folder / "a.room", folder / "table", folder / "values")
    return answer, (folder / "table").read_bytes(), (folder / "values").read_bytes()


def again(table, values, words):
    """Unpacked and packed again a room is the same; the library takes its bytes."""
    global rooms
    rooms += 1
    numbers = struct.unpack(f"<{len(values) // 8}q", values)
    expect(library.sound(table) and library.feed(table, numbers, b"")[0] == 0, f"{words}: the library refuses it")
    (folder / "b.table").write_bytes(table)
    (folder / "b.values").write_bytes(values)
    status, text, message = script("unpack", folder / "b.table", folder / "b.values")
    expect(status == 0, f"{words}: {message}")
    expect(packed(text)[1:] == (table, values), f"{words}: it comes back as another")


# The examples, and the table that stands beside them.
for file in sorted(EXAMPLES.glob("*.room")):
    answer, table, values = packed(file.read_bytes())
    expect(answer[0] == 0, answer[2])
    again(table, values, file.name)
expect(packed((EXAMPLES / "viewing-room.room").read_bytes())[1] == (EXAMPLES / "table").read_bytes(), "examples/table is not that of viewing-room.room")

# Rooms at random, of every type, with values at both bounds and between.
random.seed(11)
letters = [chr(code) for code in range(0x20, 0x7F) if chr(code) != '"']
for turn in range(40):
    modules, values = [], []
    for _ in range(random.choice([0, 1, 3, 7])):
        kind = random.randint(1, 7)
        size = (random.randint(1, 32), random.randint(1, 32)) if kind == 7 else (0, 0)
        modules.append((kind, "".join(random.choices(letters, k=random.randint(1, 32))), *size))
        for _, (_, low, high, step) in room.rows_of(kind, *size):
            values.append(random.choice([low, high, low + step * random.randint(0, (high - low) // step)]))
    again(room.table_bytes(modules), struct.pack(f"<{len(values)}q", *values), f"random room {turn}")

# Without values the start values are meant, which pack writes for a module without any.
(folder / "b.table").write_bytes((EXAMPLES / "table").read_bytes())
starts = packed(script("unpack", folder / "b.table")[1])
expect(starts[1] == (EXAMPLES / "table").read_bytes() and starts[2][8 * 49:8 * 50] == bytes(8), "start values")

# The same in other words.
plain = packed(b'module tone-control-eq "T # 1"\n1 = -4\n2 = on\n4 = off\nmodule 7 "M" 2x3\n3>1 = A0000000\n')[1:]
other = packed(b'\xef\xbb\xbf# "a" remark\r\nmodule\t1 "T # 1" # first\r\n>1 = -4.0 # was -6\r\n\t2 =\tO\r\n4 = F\r\nmodule standard-mixer "M"  2x3\r\n4>(1,1) = on\r\n>4>(1,3) = O\r\n')[1:]
expect(plain == other, "a byte-order mark, tabs, remarks, `>1`, O and F")

# What is wrong, and on which line.
for text, line in [(b"1 = 2", 1), (b"module", 1), (b"module 1", 1), (b'module 8 "T"', 1), (b'module 7 "M"', 1), (b'module 7 "M" 0x1', 1), (b'module 7 "M" 1x33', 1), (b'module 1 "T" 1x1', 1),
                   (b'module 1 ""', 1), (b'module 1 "' + b"x" * 33 + b'"', 1), (b'module 1 "\xc3\xa9"', 1), (b'module 1 "T"\n7 = 1', 2), (b'module 1 "T"\n1 = 16', 2), (b'module 1 "T"\n1 = .5', 2),
                   (b'module 1 "T"\n1', 2), (b'module 1 "T"\n\n1 = 1\n1 = 2', 4), (b'module 4 "C"\n1>2 = -3.2', 2), (b'module 7 "M" 1x1\n4>(1,2) = on', 2), (b'module 7 "M" 1x1\n3>1 = C0000000', 2),
                   (b'module 7 "M" 1x1\n3>1 = 80000000\n4>(1,1) = on', 3), (b'module 7 "M" 1x1\n4>(1,1) = on\n3>1 = 80000000', 3), (b'module 2 "S"\n' * 65, 65)]:
    (folder / "wrong.room").write_bytes(text)
    status, _, message = script("pack", folder / "wrong.room", folder / "none")
    expect(status == 1 and message.startswith(f"{folder / 'wrong.room'}:{line}: "), f"{text[:40]}: {message}")
    expect(not (folder / "none").exists(), f"{text[:40]}: a table was written")
for content in (b"\x02S", b"\x08" + b"S".ljust(32, b"\0"), b"\x02" + b"\0" * 32, b"\x07" + b"M".ljust(32, b"\0") + b"\1\0"):
    (folder / "wrong.table").write_bytes(content)
    expect(script("unpack", folder / "wrong.table")[0] == 1, f"{content}: it is unpacked")
(folder / "short").write_bytes(bytes(8))
expect(script("unpack", EXAMPLES / "table", folder / "short")[:2] == (1, b""), "too few values")
expect(script("pack", "no.room", folder / "none")[0] == 1 and script()[0] == 2 and script("pack", "x")[0] == 2, "other arguments")

# The program `port`, as RULES.md tells to try it.
tried = "not tried"
if PORT.exists():
    given, right = b'GA"Commentary">1\rSA"Desk">2>1=-0.5\rGA"Desk">2>1\rGA"Microphones">1>1\r', b'GA"Commentary">1=0\r\x06\rGA"Desk">2>1=-0.5\rGA"Microphones">1>1=1\r'
    done = subprocess.run([PORT], cwd=EXAMPLES, input=given, capture_output=True, timeout=20)
    expect(done.stdout == right, f"port answers {done.stdout}")
    tried = "answers on examples/table"

for words in faults:
    print(f"FAILED: {words}")
print(f"room-files: {rooms} rooms come back the same; port {tried}" if not faults else f"room-files: {len(faults)} faults")
sys.exit(bool(faults))
