"""The shared library as `make` builds it, called from Python: what the tests beside this file share."""
import ctypes
import os
import pathlib
import sys

ROOT = pathlib.Path(__file__).resolve().parent.parent
sys.path.insert(0, str(ROOT / "examples"))
sys.dont_write_bytecode = True
sys.stdout.reconfigure(line_buffering=True)

PATH = pathlib.Path(os.environ.get("EGRIVUNDO_SHARED", ROOT / "target/c/libegrivundo.so"))
if not PATH.exists():
    sys.exit(f"{PATH} is missing: run `make`")
library = ctypes.CDLL(str(PATH))
for call in ("table", "port", "turn", "open", "close", "panel", "restore_size", "restore_write", "value_count", "starts", "place", "row"):
    getattr(library, f"egrivundo_{call}").restype = ctypes.c_uint8


def lent(kind, content):
    """A slice: a pointer, which is not null, and a count."""
    return (kind * max(len(content), 1))(*content), ctypes.c_size_t(len(content))


def sound(table):
    return library.egrivundo_table(*lent(ctypes.c_uint8, table)) == 0


def feed(table, values, given):
    """One port call on a fresh port: the answer, the values afterwards, and the reply."""
    numbers, count = lent(ctypes.c_int64, values)
    reply, told = (ctypes.c_uint8 * 64)(), (ctypes.c_uint64 * 4)()
    answer = library.egrivundo_port(*lent(ctypes.c_uint8, table), numbers, count, (ctypes.c_uint8 * 66)(), *lent(ctypes.c_uint8, given), reply, ctypes.c_size_t(64), told)
    return answer, list(numbers)[:len(values)], bytes(reply)[:told[1]]


def switch(call, row, number):
    """Opening or closing a connection: the answer, and the row's bytes afterwards."""
    held, count = lent(ctypes.c_uint8, row)
    return getattr(library, f"egrivundo_{call}")(held, count, ctypes.c_uint64(number)), bytes(held)[:len(row)]


def turn(table, values, row, last, given, counts):
    """A turn: the answer, the row's bytes afterwards, the reply, and the numbers told, with one more behind them that must stay 9."""
    held, count = lent(ctypes.c_uint8, row)
    reply, told = (ctypes.c_uint8 * 64)(), (ctypes.c_uint64 * 7)(*[9] * 7)
    answer = library.egrivundo_turn(*lent(ctypes.c_uint8, table), *lent(ctypes.c_int64, values), held, count, ctypes.c_uint64(last),
                                    *lent(ctypes.c_uint8, given), *lent(ctypes.c_uint64, counts), reply, ctypes.c_size_t(64), told)
    return answer, bytes(held)[:len(row)], bytes(reply)[:told[3]], list(told)


def panel(table, values, owner, row, value, room=64):
    """A panel change: the answer, the values afterwards, and what is told of it."""
    numbers, count = lent(ctypes.c_int64, values)
    reply, told = (ctypes.c_uint8 * max(room, 1))(), (ctypes.c_uint64 * 1)()
    answer = library.egrivundo_panel(*lent(ctypes.c_uint8, table), numbers, count, ctypes.c_uint64(owner), ctypes.c_uint64(row), ctypes.c_int64(value), reply, ctypes.c_size_t(room), told)
    return answer, list(numbers)[:len(values)], bytes(reply)[:told[0]]


def wish(table, present, selection, wanted):
    """What both restore calls are given."""
    return *lent(ctypes.c_uint8, table), *lent(ctypes.c_int64, present), *lent(ctypes.c_uint8, selection), *lent(ctypes.c_int64, wanted)


def restore_size(table, present, selection, wanted):
    """The size of a restore list: the answer, the bytes told, and the lines told."""
    told = (ctypes.c_uint64 * 2)(9, 9)
    answer = library.egrivundo_restore_size(*wish(table, present, selection, wanted), told)
    return answer, told[0], told[1]


def restore_write(table, present, selection, wanted, size):
    """A restore list in a buffer of this size: the answer, the bytes told, the lines told, and the list."""
    space, told = (ctypes.c_uint8 * max(size, 1))(), (ctypes.c_uint64 * 2)(9, 9)
    answer = library.egrivundo_restore_write(*wish(table, present, selection, wanted), space, ctypes.c_size_t(size), told)
    return answer, told[0], told[1], bytes(space)[:told[0]]


def value_count(table):
    """The answer, and the number told."""
    told = (ctypes.c_uint64 * 1)(9)
    return library.egrivundo_value_count(*lent(ctypes.c_uint8, table), told), told[0]


def starts(table, count):
    """The start values put into a list of so many entries, each 77 before: the answer, and the list."""
    values, size = lent(ctypes.c_int64, [77] * count)
    return library.egrivundo_starts(*lent(ctypes.c_uint8, table), values, size), list(values)[:count]


def place(table, owner, row):
    """The answer, and the place told."""
    told = (ctypes.c_uint64 * 1)(9)
    return library.egrivundo_place(*lent(ctypes.c_uint8, table), ctypes.c_uint64(owner), ctypes.c_uint64(row), told), told[0]


def row(table, owner, row):
    """The answer, and the seven numbers told."""
    told = (ctypes.c_int64 * 7)(*[9] * 7)
    return library.egrivundo_row(*lent(ctypes.c_uint8, table), ctypes.c_uint64(owner), ctypes.c_uint64(row), told), list(told)


def words(number):
    """The words of an answer's number: the whole block."""
    text = (ctypes.c_uint8 * 64)(*[9] * 64)
    library.egrivundo_refusal(ctypes.c_uint8(number), text)
    return bytes(text)
