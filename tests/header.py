#!/usr/bin/env python3
"""Compares the header with the shared library and the proved source: the calls with their parameters, the version, and each limit, at which the library accepts and one past which it does not."""
import ctypes
import re
import subprocess
import sys

import library

text = (library.ROOT / "host/include/egrivundo.h").read_text()
limit = {name: int(value) for name, value in re.findall(r"^#define EGRIVUNDO_(\w+) (\d+)\b", text, re.M)}
faults = []


def expect(right, words):
    if not right:
        faults.append(words)


def smartbass(label, count=1):
    return (bytes([2]) + label.ljust(32, b"\0")) * count


def mixers(count, label=b"M"):
    return (bytes([7]) + label.ljust(32, b"\0") + bytes([32, 32])) * count


# The calls: those that the library has are those that the header declares.
symbols = subprocess.run(["nm", "-D", "--defined-only", str(library.PATH)], capture_output=True, text=True, check=True).stdout
has = set(re.findall(r" T (\w+)$", symbols, re.M))
declared = set(re.findall(r"^\w+ (egrivundo_\w+)\(", text, re.M))
expect(has == declared, f"calls of the library or of the header alone: {', '.join(sorted(has ^ declared))}")

# Each declaration is that of the proved source: a slice is a pointer and a count, a block of fixed size a pointer.
TYPES = {"u8": "uint8_t", "u64": "uint64_t", "i64": "int64_t"}


def in_c(parameter):
    """A parameter of the source, as C declares it."""
    name, kind = re.fullmatch(r"(\w+): (.+)", parameter).groups()
    slice_of, block = re.fullmatch(r"&(mut )?\[(\w+)\]", kind), re.fullmatch(r"&(mut )?\[(\w+); (\d+)\]", kind)
    if slice_of:
        return f"{'' if slice_of[1] else 'const '}{TYPES[slice_of[2]]} *{name}, size_t {name}_count"
    if block:
        return f"{'' if block[1] else 'const '}{TYPES[block[2]]} {name}[{block[3]}]"
    return f"{TYPES[kind]} {name}"


source = "".join(file.read_text() for file in sorted((library.ROOT / "crates/capi/src").glob("*.rt")))
written = re.sub(r"\[EGRIVUNDO_(\w+)\]", lambda name: f"[{limit[name[1]]}]", re.sub(r"\s+", " ", text))
for name, parameters, answer in re.findall(r'pub extern "C" fn (\w+)\((.*?)\)(?: -> (\w+))?\s+ensures', source, re.S):
    own = ", ".join(in_c(parameter.strip()) for parameter in parameters.split(",") if parameter.strip())
    expect(f" {TYPES[answer] if answer else 'void'} {name}({own});" in written, f"{name} is declared with other parameters")

# The version, in the header and in the names of the library.
version = re.search(r'^#define EGRIVUNDO_VERSION "(.*)"', text, re.M)[1]
numbers = [limit[f"VERSION_{part}"] for part in ("MAJOR", "MINOR", "PATCH")]
expect(version == ".".join(map(str, numbers)), "the version's text and numbers differ")
expect(library.PATH.resolve().name == f"libegrivundo.so.{version}", "the library has another version")
dynamic = subprocess.run(["readelf", "-d", str(library.PATH)], capture_output=True, text=True, check=True).stdout
expect(f"[libegrivundo.so.{numbers[0]}.{numbers[1]}]" in dynamic, "the library has another soname")

# Tables and values.
expect(library.sound(smartbass(b"S", limit["MODULES"])) and not library.sound(smartbass(b"S", limit["MODULES"] + 1)), "modules of a table")
expect(len(smartbass(b"S")) == limit["RECORD_BYTES"] and len(mixers(1)) == limit["MIXER_RECORD_BYTES"] and library.sound(mixers(1)), "bytes of a record")
expect(library.sound(smartbass(b"x" * limit["LABEL_BYTES"])) and not library.sound(bytes([2]) + b"x" * (limit["LABEL_BYTES"] + 1)), "bytes of a label")
longest = mixers(limit["MODULES"])
expect(len(longest) == limit["TABLE_BYTES"] and library.sound(longest) and not library.sound(longest + mixers(1)), "bytes of a table")
for table, name in ((longest, "VALUES"), (mixers(1), "ROWS")):
    for count, answer in ((limit[name] - 1, 2), (limit[name], 0), (limit[name] + 1, 2)):
        expect(library.feed(table, [0] * count, b"")[0] == answer, f"{name}: {count} values")

# Lines, ports and replies.
table = smartbass(b"S")
port, told = (ctypes.c_uint8 * limit["PORT_BYTES"])(), (ctypes.c_uint64 * limit["PORT_TOLD"])()


def call(port, given, room):
    reply = (ctypes.c_uint8 * 64)()
    return library.library.egrivundo_port(*library.lent(ctypes.c_uint8, table), *library.lent(ctypes.c_int64, [0]), port, *library.lent(ctypes.c_uint8, given), reply, ctypes.c_size_t(room), told)


expect(call(port, b"", limit["REPLY_BYTES"]) == 0 and call(port, b"", limit["REPLY_BYTES"] - 1) == 3, "bytes of a reply buffer")
port[0] = limit["HELD_BYTES"]
expect(call(port, b"", 64) == 0, "bytes that a port holds")
port[0] += 1
expect(call(port, b"", 64) == 4, "one byte more than a port holds")
for count, cause in ((limit["HELD_BYTES"], 2), (limit["HELD_BYTES"] + 1, 1)):
    call((ctypes.c_uint8 * 66)(), b"x" * count + b"\r", 64)
    expect(told[2] == cause, f"a line of {count} bytes")

# A row of connections: its bytes, the last of them, and what a turn tells.
count, size, all_bytes, misfit = (limit[name] for name in ("CONNECTIONS", "CONNECTION_BYTES", "CONNECTIONS_BYTES", "REFUSED_CONNECTIONS"))
fresh_row = bytes(all_bytes)
one_open = bytes((count - 1) * size) + bytes([1]) + bytes(size - 1)
expect(library.switch("open", fresh_row, count - 1) == (0, one_open), "the last connection is opened")
expect(library.switch("close", one_open, count - 1) == (0, fresh_row), "the last connection is closed")
for call, row, number in (("open", fresh_row, count), ("open", fresh_row[1:], 0), ("open", fresh_row + b"\0", 0), ("open", one_open, count - 1), ("close", one_open, 0)):
    expect(library.switch(call, row, number) == (misfit, row), f"{call} {number} of {len(row)} bytes")
waits = [0] * (count - 1) + [8]
for last in (0, count - 1):
    answer, row, reply, told_numbers = library.turn(table, [0], one_open, last, b'GA"S">1\r', waits)
    expect((answer, row, reply) == (0, one_open, b'GA"S">1=F\r') and told_numbers == [1, count - 1, 8, 10, 0, 0] + [9] * (7 - limit["TURN_TOLD"]), f"a turn after {last}")
for row, last, counts in ((one_open[1:], 0, waits), (one_open, count, waits), (one_open, 0, waits[1:]), (one_open, 0, [0] * count)):
    answer, after, reply, told_numbers = library.turn(table, [0], row, last, b'GA"S">1\r', counts)
    expect((answer, after, told_numbers[:limit["TURN_TOLD"]]) == (misfit, row, [0] * limit["TURN_TOLD"]), f"a turn over {len(row)} bytes after {last} with {len(counts)} counts")

# A panel change: its buffer, and the longest answer that it tells, that of the last input's word under the longest label.
most = limit["ROWS"] - 1
for size, answer in ((limit["REPLY_BYTES"] - 1, 3), (limit["REPLY_BYTES"], 0)):
    expect(library.panel(table, [0], 0, 0, 1, size)[0] == answer, "bytes of a panel's reply buffer")
expect(len(library.panel(mixers(1, b"#" * 32), [0] * limit["ROWS"], 0, most, 3)[2]) == limit["LIST_LINE_BYTES"], "bytes that are told of a panel change")
expect(library.panel(mixers(1), [0] * limit["ROWS"], 0, most + 1, 0)[0] == limit["REFUSED_ROW"], "rows of a module, for a panel")
expect(library.panel(longest, [0] * limit["VALUES"], limit["MODULES"], 0, 0)[0] == limit["REFUSED_ROW"], "modules, for a panel")

# The longest line of a restore list: two outputs of the last input's word, under the longest label. Its size is told, and a buffer of that size is just enough.
longest_wish = mixers(1, b"x" * 32), [0] * limit["ROWS"], [1], [0] * (limit["ROWS"] - 1) + [3]
longest_line = (0, limit["LIST_LINE_BYTES"], 1)
expect(library.restore_size(*longest_wish) == longest_line, "bytes of a list's line, as its size")
expect(library.restore_write(*longest_wish, limit["LIST_LINE_BYTES"])[:3] == longest_line, "bytes of a list's line")
expect(library.restore_write(*longest_wish, limit["LIST_LINE_BYTES"] - 1) == (limit["REFUSED_LIST"], 0, 0, b""), "a buffer that is shorter than a list's line")

# The words of each answer: ASCII with a zero byte behind, and all different; any other number has one text.
answers = re.findall(r"^#define EGRIVUNDO_(?:OK|REFUSED_\w+) (\d+)", text, re.M)
expect([int(number) for number in answers] == list(range(len(answers))), "the answers' numbers")
told_words = [library.words(number) for number in range(256)]
expect(all(len(block) == limit["REFUSAL_BYTES"] and re.fullmatch(rb"[ -~]+\0+", block) for block in told_words), "the words of an answer are no text")
expect(len(set(told_words)) == len(answers) + 1 == len(set(told_words[:len(answers) + 1])), "words of several answers are the same, or an answer has none")

for words in faults:
    print(f"FAILED: {words}")
print(f"header: {len(declared)} calls, version {version} and the limits are the library's" if not faults else f"header: {len(faults)} faults")
sys.exit(bool(faults))
