#!/usr/bin/env python3
"""Counts the places of the design pass in src/ and proofs/, by point (docs/DESIGN-PASS.md).

    tools/places.py [COMMIT] [--list]     at the top of the repository; without a commit the files as they stand

Each point is counted by the patterns below, one place for each line or name that a pattern finds. --list also prints where.
"""
import collections
import glob
import pathlib
import re
import subprocess
import sys

words = [word for word in sys.argv[1:] if word != "--list"]
show = "--list" in sys.argv


def files():
    """Path and text of each file of src/, and of each file of proofs/ by function."""
    if words:
        names = subprocess.run(["git", "ls-tree", "-r", "--name-only", words[0], "crates"], capture_output=True, text=True, check=True).stdout.split("\n")
        for name in names:
            if re.search(r"/src/.*\.rt$|/proofs/.*/(Proof|Answers|Invariants)\.antt$", name):
                yield name, subprocess.run(["git", "show", f"{words[0]}:{name}"], capture_output=True, text=True, check=True).stdout
    else:
        for name in sorted(glob.glob("crates/*/src/**/*.rt", recursive=True) + glob.glob("crates/*/proofs/**/*.antt", recursive=True)):
            if re.search(r"/src/.*\.rt$|/(Proof|Answers|Invariants)\.antt$", name):
                yield name, pathlib.Path(name).read_text()


SIGNATURE = r"(?:pub(?:\(crate\))? )?(?:extern \"C\" )?fn (?P<name>\w+)"
POINTS = [
    ("1 enums with a variant for 'none' or 'refused'", r"^    (?:Wrong|Nothing|NotOne|Nobody|Beyond|Missing\(.*\)|Malformed\(.*\)),$"),
    ("1 numbers for refusals, codes and kinds", r"^.*(?:\b(?:number|code|kind)): u8\b.*$|^.*-> u8\b.*$|^    Code\(u8\),$"),
    ("3 loops that are no `for`", r"^ *(?:'\w+: )?(?:while|loop)\b.*$"),
    ("3 `for` over a range of indices", r"^ *for \w+ in .*\.\..*$"),
    ("4 conversions, equality and tests written out", r"^ *" + SIGNATURE.replace("?P<name>\\w+", "?:same_indices|same_bytes|is_digit|is_hex_digit|is_word|is_fixed|kind_from|indices_from|kind_number|cause_byte|cause_number|number_of|byte_of|count|flag_byte|label_byte|size_right|is_change|is_place") + r"\b.*$"),
    ("6 a buffer with a place beside it", r"^.*\bat: usize\b.*$"),
    ("7 a flag or a letter that says which step to run", r"^.*\b(?:want: bool|verb: u8)\b.*$"),
]
FACTS = r"\((?:sound table\.\w+ ≡ true|rows\.now ≡ numbers|values_sound \(room_of table\.now\) \w+\.\w+ ≡ true|known_layout [\w.]+ ≡ true|fixed [\w.]+ ≡ \w+|size ≡ length \(label table\.now [\w.]+\)|[\w.]*place \+ 33 ≤ length table\.now)\)"

found = collections.defaultdict(list)
names = collections.defaultdict(list)
for path, text in files():
    if "/src/" not in path:
        found["8 proof files"].append(path)
        found["8 answers in them"] += [path] * len(re.findall(r"^ *\(λ c|^[\w-]+ (?:g )?(?:t )?c .*=", text, re.M))
        continue
    for point, pattern in POINTS:
        found[point] += [f"{path}: {match.group().strip()}" for match in re.finditer(pattern, text, re.M)]
    for match in re.finditer(r"^ *requires .*$", text, re.M):
        for fact in re.findall(FACTS, match.group()):
            fact = re.sub(r"[\w.]+(?= ≡ true| \+ 33)", lambda word: word.group().split(".")[-1], fact)
            found["5 a fact in a contract: " + fact.strip("()")].append(path)
    for match in re.finditer(r"^ *" + SIGNATURE, text, re.M):
        names[match["name"]].append(path)
for name, paths in names.items():
    if len({path.split("/")[1] for path in paths}) > 1 and not name.startswith("egrivundo") and name != "main":
        found["2 a function's name in two crates"] += [f"{name}: {', '.join(paths)}"]
for point in sorted(found):
    print(f"{len(found[point]):5}  {point}")
    if show and point[0] != "8":
        print(*(f"         {place}" for place in found[point]), sep="\n")
