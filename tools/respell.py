#!/usr/bin/env python3
"""Brings the repository's own definitions and lemmas to the spelling of today's Rattle.

    tools/respell.py [--try]      at the top of the repository, once, after the port's own script

A definition's name is in snake case (`readLevel` becomes `read_level`). A lemma's words are joined by `_`; a dash stands only
behind the name of a definition or of a type that the lemma is about (`length-parametersOf` becomes `length-parameters_of`). A
lemma that would then have a definition's name ends in `_lem`. The proof of a function `f` is `f_spec`. Functions of src/, strings
and paths of modules keep their names. With --try nothing is written: the names are listed, and those that fall together.
"""
import glob
import re
import sys
from pathlib import Path

TOKEN = re.compile(r"[^\s(){}\[\],;.`]+")
MADE = re.compile(r"^(invariant|decreases|returns|loop|c|tie|goal)-")
# Words of the standard library that lemmas here are about.
WORDS = {"length", "take", "drop", "append", "get_or", "map", "sum", "concat"}
DECLARED = re.compile(
    r"^\s*(?P<kind>(?:abbrev\s+|unfoldable\s+)?)(?:pub\s+)?(?P<also>(?:abbrev\s+|unfoldable\s+)?)(?P<set>(?:ruleset\s+)?)"
    r"(?P<name>[A-Za-z][^\s:(){}.,]*)\s*(?:=|(?:[({].*)?:)(?:\s|$)")
# Names that fall together in some file though the rule tells them apart nowhere.
OWN_CHOICE = {}


def snake(word):
    return word if word[:1].isupper() else re.sub(r"(?<=[a-z0-9])([A-Z])", lambda m: "_" + m.group(1).lower(), word)


def antt():
    return sorted(glob.glob("crates/*/specs/**/*.antt", recursive=True) + glob.glob("crates/*/proofs/**/*.antt", recursive=True))


def declared(path):
    """The names that a file declares, each with whether it is a definition."""
    here = {}
    for line in open(path):
        if line.lstrip().startswith("--") or line.startswith("use "):
            continue
        made = re.match(r"^\s*(?:pub\s+)?(?:record|data)\s+(\S+)", line)
        if made:
            here[made.group(1)] = True
            continue
        found = DECLARED.match(line)
        if found and found["name"] not in ("use", "module", "where", "record"):
            here[found["name"]] = here.get(found["name"], False) or bool(found["kind"] or found["also"])
    return here


def table():
    own, definitions = set(), set(WORDS)
    for path in antt():
        for name, is_definition in declared(path).items():
            if MADE.match(name):
                continue
            own.add(name)
            if is_definition or name[:1].isupper() or ("-" not in name and snake(name) != name):
                definitions.add(snake(name))
    turned = {}
    for name in own:
        parts = [snake(part) for part in name.split("-")]
        if name.endswith("-spec"):
            turned[name] = "_".join(parts)
            continue
        new = "_".join(parts)
        if len(parts) > 1:
            if new in definitions:
                new += "_lem"
            else:
                for k in range(len(parts) - 1, 0, -1):
                    if "_".join(parts[:k]) in definitions:
                        new = "_".join(parts[:k]) + "-" + "_".join(parts[k:])
                        break
        elif new == name and name in {snake(o) for o in own if o != name and "-" not in o}:
            new = name + "_lem"  # the lemma is_digit, beside the definition isDigit
        turned[name] = OWN_CHOICE.get(name, new)
    return {name: new for name, new in turned.items() if name != new}


def in_antt(text, turned):
    out = []
    for line in text.splitlines(keepends=True):
        if re.match(r"^\s*(pub )?use ", line):
            # of a path only what its braces hold
            head, brace, rest = line.partition("{")
            out.append(head + brace + TOKEN.sub(lambda m: turned.get(m.group(0), m.group(0)), rest) if brace else line)
            continue
        if re.match(r"^\s*(pub )?mod ", line):
            out.append(line)
            continue
        code, dashes, comment = line.partition("-- ")
        code = TOKEN.sub(lambda m: turned.get(m.group(0), m.group(0)), code)
        comment = TOKEN.sub(lambda m: turned.get(m.group(0), m.group(0)) if re.search(r"[a-z][A-Z]", m.group(0)) else m.group(0), comment)
        out.append(code + dashes + comment)
    return "".join(out)


def in_source(text, turned):
    """Sources, edits and pages: names of definitions alone, which no Rust name has the form of."""
    camel = {name: new for name, new in turned.items() if re.match(r"^[a-z][a-z0-9]*[A-Z]", name)}
    return re.sub(r"(?<![\w-])[a-z][A-Za-z0-9]*[A-Z][A-Za-z0-9]*(?![\w-])", lambda m: camel.get(m.group(0), m.group(0)), text)


def in_page(text, turned):
    """Of a page also the names with a dash, where they stand in backticks: an underscore may be a function's."""
    dashed = {name: new for name, new in turned.items() if "-" in name}
    return re.sub(r"`([^`\s]+)`", lambda m: "`" + dashed.get(m.group(1), m.group(1)) + "`", in_source(text, turned))


def clashes(turned):
    for path in antt():
        seen = {}
        text = open(path).read()
        names = set(declared(path)) | {n for braces in re.findall(r"^\s*(?:pub )?use [^{\n]*\{([^}]*)\}", text, re.M) for n in re.split(r"[,\s]+", braces) if n}
        for name in names:
            seen.setdefault(turned.get(name, name), set()).add(name)
        for new, olds in seen.items():
            if len(olds) > 1:
                print(f"{path}: {sorted(olds)} all become {new}")
        # a bound variable that hides a definition
        bound = {n for group in re.findall(r"[({]([^(){}:]+):", text) for n in group.split()} | {n for group in re.findall(r"λ ([^.]*)\.", text) for n in group.split()}
        for old in names:
            if turned.get(old, old) in bound and old not in bound and old in turned:
                print(f"{path}: bound variable {turned[old]} hides {old}")


def main():
    turned = table()
    if "--try" in sys.argv:
        for name, new in sorted(turned.items()):
            print(name, new)
        print("-- clashes")
        clashes(turned)
        return
    for path in antt():
        text = Path(path).read_text()
        new = in_antt(text, turned)
        if new != text:
            Path(path).write_text(new)
    for pattern, turn in (("crates/*/src/**/*.rt", in_source), ("crates/*/must-fail/*.edit", in_source), ("docs/**/*.md", in_page), ("README.md", in_page)):
        for path in sorted(glob.glob(pattern, recursive=True)):
            text = Path(path).read_text()
            new = turn(text, turned)
            if new != text:
                Path(path).write_text(new)
    print(f"respell: {len(turned)} names")


if __name__ == "__main__":
    main()
