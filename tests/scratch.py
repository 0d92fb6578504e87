#!/usr/bin/env python3
"""Searches the source for an array in anything that reads a value text, and so a level.

It begins at `syntax::value_text::read_value` and follows every function, type and constant that is named there, across modules and crates, whatever file it stands in. In all these an
opening bracket has to be an index or a part of a slice (`s[i]`, `&s[1..]`), or the type of a lent slice (`&[u8]`). Anything else in brackets is an array's type or literal, lent or not,
and a fault, and so is a string. A call that cannot be followed is a fault too.

Then arrays, and a call of nothing, are planted in a copy of the source, one at a time: each that the reader reaches must be found, and none that it does not reach.

    tests/scratch.py [ROOT]
"""
import pathlib
import re
import sys
import tempfile

FIRST, LEVEL = ("syntax", "value_text", "read_value"), ("text", "level", "read_level")
ITEMS = {"fn", "struct", "enum", "const", "static", "type", "impl"}
WORDS = ITEMS | {"if", "else", "while", "loop", "for", "in", "match", "return", "let", "mut", "as", "pub", "break", "continue", "crate"}
# What the library has of calls: the cases of Option and Result, and methods and a macro that have no array.
LIBRARY = {("", "Some"), ("", "Ok"), ("", "Err"), (".", "len"), (".", "is_ascii_digit"), ("", "matches")}
PLAIN = {"u8", "u16", "u32", "u64", "usize", "i8", "i16", "i32", "i64", "isize", "bool"}
TOKEN = re.compile(r"""b?"(?:[^"\\]|\\.)*"|b?'(?:\\.[^']*|[^'\\])'|'\w+|\w+|->|=>|::|[^\s\w]""")

# A file, a text that stands in it once, what is planted in its place, and whether the reader reaches it.
PLANTED = [
    ("text/src/level.rt", "let mut reading = Reading::Start;", "let mut reading = Reading::Start; let mut held = [0; 5];", True),
    ("text/src/level.rt", "let mut reading = Reading::Start;", "let mut reading = Reading::Start; let held: [u8; 5];", True),
    ("text/src/level.rt", "let mut reading = Reading::Start;", "let mut reading = Reading::Start; gather(s);", True),
    ("text/src/level.rt", "fn read_end(reading: Reading)", "fn read_end(reading: Reading, held: &[u8; 5])", True),
    ("text/src/level.rt", "Point(bool, u64),", "Point(bool, [u8; 5]),", True),
    ("text/src/level.rt", "let tenth = magnitude(v) % 10;", "let held = [0; 5]; let tenth = magnitude(v) % 10;", False),
    ("text/src/digit.rt", "b.is_ascii_digit()", 'b <= b"0123456789"[9]', True),
    ("text/src/sign.rt", "return -v;", "return [v, -v][1];", True),
    ("text/src/word.rt", "1 << (32 - output)", "1 << (32 - (&[output])[0])", True),
    ("text/src/written.rt", "    buffer[at] = b;", "    let held = [b]; buffer[at] = held[0];", False),
    ("syntax/src/value_text.rt", "if !row.settable {", "if !catalogue::table::all_rows()[0].row.settable {", True),
    ("catalogue/src/row.rt", "let low = row.low;", "let low = crate::table::all_rows()[0].row.low;", True),
    ("catalogue/src/row.rt", "pub settable: bool,", "pub settable: bool, pub bounds: [i64; 2],", True),
    ("catalogue/src/row.rt", "if permits(row, 0) {", "let held = [0; 5]; if permits(row, 0) {", False),
]


def closed(tokens, at):
    """Where the bracket at `at` is closed."""
    depth = 0
    for place in range(at, len(tokens)):
        depth += (tokens[place] in "([{") - (tokens[place] in ")]}")
        if not depth:
            return place
    sys.exit("FAILED: a bracket is not closed")


def tokens_of(text):
    """The tokens of a file, without comments and contracts."""
    tokens = TOKEN.findall(re.sub(r"//.*|^ghost .*|^\s*#!?\[.*\]$", "", text, flags=re.M))
    for at in reversed([place for place, token in enumerate(tokens) if token in ("requires", "ensures")]):
        del tokens[at : closed(tokens, tokens.index("{", at)) + 1]
    return tokens


def paths(tokens):
    """The paths that a `use` names, of which one may end in several names in braces."""
    if "{" not in tokens:
        return [[token for token in tokens if token != "::"]]
    at = tokens.index("{")
    head, listed = tokens[:at], " ".join(tokens[at + 1 : closed(tokens, at)]).split(" , ")
    return [path for words in listed for path in paths([*head, *words.split()])]


class Source:
    """Every item of the crates, by crate, module and name; a method has its type's name before its own."""

    def __init__(self, crates):
        self.items, self.uses, self.methods = {}, {}, {}
        for file in sorted(crates.glob("*/src/**/*.rt")):
            crate, _, *folders = file.relative_to(crates).parts
            module = "::".join([*folders[:-1], *([] if file.stem in ("lib", "main") else [file.stem])])
            self.read((crate, module), tokens_of(file.read_text()))

    def read(self, scope, tokens, owner=""):
        at = 0
        while at < len(tokens):
            if tokens[at] == "use":
                end = tokens.index(";", at)
                for path in paths(tokens[at + 1 : end]):
                    if not all(token.isidentifier() for token in path) or {"as", "self", "super"} & set(path):
                        sys.exit(f"FAILED: {shown(scope)}: a `use` of this form is not followed")
                    self.uses[scope, path[-1]] = [scope[0], *path[1:]] if path[0] == "crate" else path
                at = end
            elif tokens[at] in ITEMS:
                end = at
                while tokens[end] not in ("{", ";"):
                    end = closed(tokens, end) + 1 if tokens[end] in ("(", "[") else end + 1
                end = closed(tokens, end) if tokens[end] == "{" else end
                name = tokens[at + 1]
                if tokens[at] == "impl":
                    self.read(scope, tokens[tokens.index("{", at) + 1 : end], name)
                else:
                    item = (*scope, f"{owner}::{name}" if owner else name)
                    self.items[item] = tokens[at : end + 1]
                    self.methods.setdefault(name, []).extend([item] if owner else [])
                at = end
            at += 1

    def named(self, item, path):
        """The item that a path names where `item` names it, and its type where it is a method."""
        crate, module, own = item
        if path[0] == "Self":
            path = [own.split("::")[0], *path[1:]]
        if ((crate, module), path[0]) in self.uses:
            ways = [[*self.uses[(crate, module), path[0]], *path[1:]]]
        else:
            ways = [[crate, *path[1:]]] if path[0] == "crate" else [[crate, *filter(None, module.split("::")), *path], [crate, *path], path]
        for head, *rest in ways:
            # the longest beginning that is an item: behind a type may stand a variant
            for end in range(len(rest), 0, -1):
                for cut in range(end):
                    found = (head, "::".join(rest[:cut]), "::".join(rest[cut:end]))
                    if found in self.items:
                        return [found, *([(*found[:2], rest[cut])] if "::" in found[2] else [])]
        return []


def shown(item):
    return "::".join(filter(None, item))


def look(source, item):
    """What an item names, and its faults."""
    tokens, named, faults = source.items[item], [], []
    at = 0
    while at < len(tokens):
        token, before, start = tokens[at], tokens[at - 1] if at else "", at
        if token.endswith('"'):
            faults.append(f"{shown(item)} has {token}")
        elif token == "[":
            inner = tokens[at + 1 : closed(tokens, at)]
            index = before in (")", "]") or before.isidentifier() and before not in WORDS
            lent = re.search(r"& (?:'\w+ )?(?:mut )?$", " ".join(tokens[max(at - 3, 0) : at]) + " ")
            if not index and not (lent and len(inner) == 1 and (inner[0] in PLAIN or source.named(item, inner))):
                faults.append(f"{shown(item)} has [{' '.join(inner[:20])}]")
        elif token.isidentifier() and token not in WORDS:
            while tokens[at + 1 : at + 2] == ["::"]:
                at += 2
            path = tokens[start : at + 1 : 2]
            found = source.methods.get(token, []) if before == "." else [] if before in ITEMS else source.named(item, path)
            called = tokens[at + 1 : at + 2] == ["("] and tokens[0] != "enum" and before not in ITEMS
            macro = tokens[at + 1 : at + 2] == ["!"] and tokens[at + 2 : at + 3] != ["="]
            if (macro or called and not found) and ("." if before == "." else "", token) not in LIBRARY:
                faults.append(f"{shown(item)} calls {'::'.join(path)}, which cannot be followed")
            named += found
        at += 1
    return named, faults


def search(crates):
    """What is reached, and the faults in it."""
    source, reached, faults, left = Source(crates), set(), [], [FIRST]
    while left:
        item = left.pop()
        if item not in reached:
            reached.add(item)
            named, wrong = look(source, item)
            left, faults = left + named, faults + wrong
    return reached, faults if LEVEL in reached else [*faults, f"{shown(LEVEL)} is not reached"]


crates = pathlib.Path(sys.argv[1] if len(sys.argv) > 1 else pathlib.Path(__file__).parent.parent).resolve() / "crates"
reached, faults = search(crates)
with tempfile.TemporaryDirectory() as folder:
    copy = pathlib.Path(folder)
    for file in crates.glob("*/src/**/*.rt"):
        (copy / file.relative_to(crates)).parent.mkdir(parents=True, exist_ok=True)
        (copy / file.relative_to(crates)).write_text(file.read_text())
    for name, old, new, found in [] if faults else PLANTED:
        right = (copy / name).read_text()
        if right.count(old) != 1:
            faults.append(f"{name} has {right.count(old)} places for: {new}")
        (copy / name).write_text(right.replace(old, new))
        if bool(search(copy)[1]) != found:
            faults.append(f"{name}: {'not found' if found else 'found, though nothing reaches it'}: {new}")
        (copy / name).write_text(right)

for words in faults:
    print(f"FAILED: {words}")
print(f"scratch: {len(reached)} functions and types read a value text, and none has an array; {len(PLANTED)} planted faults told apart" if not faults else f"scratch: {len(faults)} faults")
sys.exit(bool(faults))
