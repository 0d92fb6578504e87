#!/usr/bin/env python3
"""Lists every place where a crate opens a definition of another (`unfolding NAME`, `unfold NAME in ..`), and fails on one that is not on the short list below.

A crate knows those below it by their contracts and laws. What may be opened all the same stands here, each with its reason; an entry that nothing needs fails too.

    tests/layers.py [ROOT]
"""
import fnmatch
import pathlib
import re
import sys

# a definition, as `crate Module.name`; the files that may open it; why
OPEN = [
    ("*", "line/specs/Worked*.antt", "the worked lines compute"),
    ("*", "restore/specs/Worked*.antt", "the worked lists compute"),
    ("*", "panel/specs/Worked.antt", "the worked changes compute"),
    ("text Every.every", "catalogue/specs/Catalogue/*", "a test computed over the constant catalogue"),
    ("text Every.pairs", "catalogue/specs/Catalogue/*", "a test computed over the constant catalogue"),
    ("syntax Shape.line_limit", "*", "a limit: 64 bytes of a line"),
    ("serial_port Refusal.reply_limit", "*", "a limit: 64 bytes of a reply buffer"),
    ("room Table.record_limit", "*", "a limit: 64 records of a table"),
    ("catalogue Catalogue.row_limit", "*", "a limit: 160 rows of a module"),
]

root = pathlib.Path(sys.argv[1] if len(sys.argv) > 1 else pathlib.Path(__file__).parent.parent).resolve()
crates = root / "crates"


def imported(text):
    """The definitions of crates that a file names: by its own name for each, crate and path. An alias stands for its module."""
    names = {}
    for crate, module, alias, listed in re.findall(r"^(?:pub |unfoldable )*use Rattle\.(\w+)\.(?:specs|proofs\.Laws)\.([\w.'-]+?)(?: as (\w+)|\.\{([^}]*)\})", text, re.M):
        if alias:
            names[alias] = (crate, module)
        for name in listed.replace("\n", " ").split(","):
            names[name.strip()] = (crate, f"{module}.{name.strip()}")
    return names


def opened(text):
    """Every name after `unfolding`, also on the lines that go on, and between `unfold` and `in`."""
    for words in re.findall(r"^[ \t]*unfolding ((?:.*\n)(?:[ \t]{4,}[\w. ]+\n)*)", text, re.M) + re.findall(r"\bunfold ([\w. -]+?) in\b", text):
        yield from words.split()


places, faults, used = 0, [], set()
for file in sorted([*crates.glob("*/specs/**/*.antt"), *crates.glob("*/proofs/**/*.antt")]):
    path = str(file.relative_to(crates))
    text = file.read_text()
    names = imported(text)
    for name in sorted(set(opened(text))):
        head, _, rest = name.partition(".")
        crate, definition = names.get(name) or names.get(head) or ("", "")
        if name not in names and rest:
            definition = f"{definition}.{rest}"
        if crate in ("", path.split("/")[0]):
            continue
        places += 1
        fits = [entry for entry in OPEN if fnmatch.fnmatchcase(f"{crate} {definition}", entry[0]) and fnmatch.fnmatchcase(path, entry[1])]
        used.update(fits)
        if not fits:
            faults.append(f"{path} opens {crate} {definition}")

faults += [f"nothing needs the entry {entry[0]} in {entry[1]}" for entry in OPEN if entry not in used]
for words in faults:
    print(f"FAILED: {words}")
print(f"layers: {places} definitions opened above their crate, by {len(OPEN)} entries; {len(faults)} faults")
sys.exit(bool(faults))
