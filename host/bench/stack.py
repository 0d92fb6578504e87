#!/usr/bin/env python3
"""The stack that each call for C takes at most, read off the object code: the frame of every function, and the deepest way down from the call.

A frame is the return address, the registers and arguments pushed, and what is taken off the stack pointer or used below it. A function that calls itself is
counted once, and told so.

    host/bench/stack.py [ARCHIVE [CALL..]]
"""
import pathlib
import re
import subprocess
import sys

archive = sys.argv[1] if len(sys.argv) > 1 else str(pathlib.Path(__file__).parents[2] / "target/staticlib/libcapi.a")
code = subprocess.run(["objdump", "-dr", "--no-show-raw-insn", archive], capture_output=True, text=True, check=True).stdout


def frame(body):
    """The most that a function has on the stack. What it takes at its start is there again behind each return or jump."""
    depth, most, start = 8, 8, None
    for word, size in re.findall(r":\t(push|pop|ret|jmp|(?:sub|add)(?= +\$0x[0-9a-f]+,%rsp)|\w+)(?: +\$0x([0-9a-f]+),%rsp)?", body):
        if start is None and word != "push":
            start = depth + (int(size, 16) if word == "sub" and size else 0)
        depth += {"push": 8, "pop": -8}.get(word, 0)
        depth += int(size, 16) * {"sub": 1, "add": -1}.get(word, 0) if size else 0
        most = max(most, depth)
        depth = start if word in ("ret", "jmp") else depth
    return most + max((int(place, 16) for place in re.findall(r"-0x([0-9a-f]+)\(%rsp", body)), default=0)


frames, calls = {}, {}
for name, body in re.findall(r"^[0-9a-f]+ <(.+)>:\n((?:.+\n)*)", code, re.M):
    frames[name] = frame(body)
    calls[name] = set(re.findall(r"\b(?:call|jmp) .*\n.*R_X86_64_\w+\s+(?:\.text\.)?(\S+?)-0x4$", body, re.M)) | set(re.findall(r"\bcall +\w+ <([^+>]+)>", body))


def deepest(name, above=()):
    """The bytes and the functions of the deepest way down."""
    inner = [deepest(called, (*above, name)) for called in sorted(calls[name]) if called in frames and called not in (*above, name)]
    size, way = max(inner, default=(0, []))
    return frames[name] + size, [name, *way]


for call in sys.argv[2:] or sorted(name for name in frames if name.startswith("egrivundo_")):
    size, way = deepest(call)
    print(f"{call}: {size} bytes")
    for name in way:
        print(f"    {frames[name]:6} {name}{', which calls itself' if name in calls[name] else ''}")
