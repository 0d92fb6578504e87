#!/usr/bin/env python3
"""Asks what the checker says of each must-fail edit, and that every wrong program in it is refused for itself, at the promise.

`rt ci` asks that each edit is refused, and tells the first error alone. Here each edit is applied to a copy of its crate in a temporary folder and checked there, over what
`rt check` kept of the crate as it stands, so that the checker tells of every function. What it says is kept as target/must-fail/CRATE/EDIT.log, and serves until something changes
that it stands on.

An edit holds wrong programs of functions that do not call each other. Each begins with a line '# NAME: WHAT': WHAT is the one function that it makes wrong, or the
law, where it changes specs/. Asked is:

- the functions that the checker refuses for themselves are those named, no more and no fewer; those that call them are told apart by the checker's own words. Where
  specs/ is changed, the laws named are among those refused;
- each is refused at its promise: what the function ensures, or the invariant of its loop. A refusal at what a callee requires, at a side fact (an index, a sum, the bounds of a
  part) or because the proof file no longer fits the code shows less than the edit says. A program's `main` has no promise: it is refused at what a callee requires;
- every function that other crates or C can call has two wrong programs of its own;
- docs/WRONG-PROGRAMS.md names each wrong program, and no other.

    tests/refusals.py [--where] [CRATE..]        --where also tells of each wrong program where it was refused; with names, these crates alone
"""
import collections
import concurrent.futures
import hashlib
import json
import os
import pathlib
import queue
import re
import shutil
import subprocess
import sys
import tempfile

root = pathlib.Path(__file__).resolve().parent.parent
asked = [word for word in sys.argv[1:] if word != "--where"]
edits = [edit for edit in sorted(root.glob("crates/*/must-fail/*.edit")) if not asked or edit.parent.parent.name in asked]
faults = []

PROMISE, INVARIANT, LAW = "the promise", "the invariant", "the law"
REQUIRES, SIDE, UNFIT, NOTHING = "a callee's requires", "a side fact", "an unfit proof file", "nothing"
# Of several places where a function is refused the first of these counts.
PLACES = [PROMISE, INVARIANT, LAW, REQUIRES, SIDE, UNFIT, NOTHING]


def wrong_programs(edit):
    """The wrong programs of an edit: what each makes wrong, by name."""
    first, *parts = re.split(r"^# ", edit.read_text(), flags=re.M)
    heads = [re.match(r"(\w+): (\S+)\n(?:file: \S+\n|old: .*\n|new: .*\n|\n)+\Z", part) for part in parts]
    if first or not heads or None in heads:
        faults.append(f"{edit.relative_to(root)}: it is no list of wrong programs, each under a line '# NAME: WHAT'")
        return {}
    return {head[1]: head[2] for head in heads}


def below():
    """By crate, itself and all those below it, lowest first."""
    found = {}
    lines = [line.partition(":") for line in (root / "crates.txt").read_text().splitlines() if line.strip() and not line.startswith("#")]
    named = {words[0].split()[0]: words[2].split() for words in lines}

    def over(crate):
        if crate not in found:
            found[crate] = []
            for low in [crate for crate in named[crate] if crate in named]:
                found[crate] += [it for it in over(low) if it not in found[crate]]
            found[crate].append(crate)
        return found[crate]

    for crate in named:
        over(crate)
    return found


def sum_of(crate, *more):
    """Of all that the check of a crate stands on."""
    found = hashlib.sha256(repr((kit, more)).encode())
    for name in crates[crate]:
        for part in ("src", "specs", "proofs"):
            for file in sorted(file for file in (root / "crates" / name / part).rglob("*") if file.is_file()):
                found.update(repr((str(file.relative_to(root)), file.read_bytes())).encode())
    return found.hexdigest()


def copied(one, other):
    """A file's copy: what a check made is linked where that can be, since it is never written into, but replaced."""
    if "/out/" in one:
        try:
            return os.link(one, other)
        except OSError:
            pass
    return shutil.copy2(one, other)


class Lane:
    """A copy of the repository in which one edit at a time is checked."""

    def __init__(self, room):
        self.room = room

        def without(folder, names):
            # of out/ only the libraries: the kept work is taken anew for each edit
            return [name for name in names if name in ("must-fail", "data") or pathlib.Path(folder).name == "out" and name != "rlib"]

        shutil.copytree(root / "crates", room / "crates", ignore=without, copy_function=copied)
        shutil.copy2(root / "crates.txt", room)

    def check(self, crate, texts):
        """What `rt check` says of the crate with these texts in place of its own."""
        folder, kept = self.room / "crates" / crate, "out/incremental"
        shutil.rmtree(folder / kept, ignore_errors=True)
        if (root / "crates" / crate / kept).is_dir():
            shutil.copytree(root / "crates" / crate / kept, folder / kept, copy_function=copied)
        own = {file: (folder / file).read_text() for file in texts}
        try:
            for file, text in texts.items():
                (folder / file).write_text(text)
            return subprocess.run(["rt", "check", "--jobs", "1"], cwd=folder, stdout=subprocess.PIPE, stderr=subprocess.STDOUT, stdin=subprocess.DEVNULL, text=True, errors="replace").stdout
        finally:
            for file, text in own.items():
                (folder / file).write_text(text)


def edited(edit):
    """The texts that an edit makes, by file, or none where an 'old:' text does not stand once in its file."""
    crate, texts, file, old = edit.parent.parent, {}, None, None
    for line in edit.read_text().splitlines():
        kind, _, words = line.partition(": ")
        if kind == "file":
            file = words
            texts.setdefault(file, (crate / file).read_text())
        elif kind == "old":
            old = words
        elif kind in ("new", "new:"):
            if texts[file].count(old) != 1:
                faults.append(f"{edit.relative_to(root)}: {file} has {texts[file].count(old)} places for: {old}")
                return {}
            texts[file] = texts[file].replace(old, words)
    return texts


def kept(file, total, make):
    """What `make` says, or what the file has of it where the sum is the same."""
    if not (file.exists() and file.read_text().startswith(f"{total}\n")):
        file.parent.mkdir(parents=True, exist_ok=True)
        said = make()
        file.write_text(f"{total}\n{said}")
    return file.read_text().partition("\n")[2]


def goals(crate):
    """The goals of the functions whose proof file gives the answers in order (`tie.spec`): by the file, the names of what it is given, None for an invariant or a measure."""
    if not any(re.search(r"\btie\.spec\b", file.read_text()) for file in (root / "crates" / crate / "proofs").rglob("Proof.antt")):
        return {}

    def make():
        lane = lanes.get()
        try:
            with tempfile.TemporaryDirectory() as folder:
                subprocess.run(["rt", "names", folder], cwd=lane.room / "crates" / crate, stdout=subprocess.DEVNULL, check=True)
                return (pathlib.Path(folder) / "names.json").read_text()
        finally:
            lanes.put(lane)

    told = json.loads(kept(root / "target/must-fail" / crate / "goals", sum_of(crate), make))
    return {f"proofs/{'/'.join(name.split('.')[1:-1])}/Proof.antt": [None, None] * len(it["loops"]) + [new for _, new in it["needs"]] for name, it in told.items() if name.endswith(".Lts")}


def given_at(text, line, column):
    """Which of the words behind `tie.spec` stands at this place of a proof file."""
    text = re.sub(r"--.*", lambda words: " " * len(words[0]), text)
    at = sum(len(it) + 1 for it in text.split("\n")[:line - 1]) + column - 1
    place, depth, number = re.search(r"\btie\.spec\b", text).end(), 0, -1
    while place < len(text) and place <= at:
        sign = text[place]
        if not depth and not sign.isspace() and (text[place - 1].isspace() or sign == "(") and sign != ")":
            number += 1
        depth += (sign in "([{") - (sign in ")]}")
        if depth < 0:
            break
        place += 1
    return number


def place_of(goal):
    """Where a function is refused, by the name of the goal that was left."""
    if re.fullmatch(r"returns(-.*)?", goal):
        return PROMISE
    if "-requires" in goal:
        return REQUIRES
    return INVARIANT if re.search(r"-(init|preserved)(-|$)", goal) else SIDE


def error_place(crate, file, line, column, name, words):
    """Where an error in a proof file of a function refuses it."""
    text = (root / "crates" / crate / file).read_text() if (root / "crates" / crate / file).exists() else ""
    if "no proof of `" not in words.partition("\n")[0] and re.search(r"has no field|is not in scope|has no `|Lts\.Closed|that can be named from here", words):
        return UNFIT
    if file.endswith("Answers.antt"):
        return place_of(name)
    answer = re.search(rf"^{re.escape(name)} : tie\.Need-(\S+)", text, re.M)
    if answer:
        return place_of(answer[1])
    if re.search(r"\btie\.spec\b", text):
        names, number = goals(crate).get(file, []), given_at(text, int(line), int(column))
        if 0 <= number < len(names) and names[number]:
            return place_of(names[number])
    return UNFIT


def refusals(edit, log):
    """What the checker refused: by function or law, where. A function that only waits for another is left out."""
    crate, places = edit.parent.parent.name, {}

    def found(what, place):
        places[what] = min(places.get(what, NOTHING), place, key=PLACES.index)

    # what is said of an error goes on in the lines behind it that are indented
    for file, line, column, name, words in re.findall(r"^(?:\./)?(\S+?):(\d+):(\d+): error: `?([^`\s:]*)`?:?(.*(?:\n  .*)*)", log, re.M):
        if re.search(r"^.* that depends? on .* not checked", words):
            continue
        if file.startswith(("specs/", "proofs/Laws/")):
            found(name, LAW)
        elif file.startswith("proofs/"):
            found(pathlib.Path(file).parent.name.removeprefix("+"), error_place(crate, file, line, column, name, words))
    for function, words in re.findall(r"^fn \S*?(\w+): (not proved$|no proof: (?!it calls ).*)", log, re.M):
        left = re.search(r"did not prove (.*)|does not close (.*)", words)
        for goal in re.findall(r"`([^`]+)`", left[0]) if left else []:
            found(function, place_of(goal))
        found(function, SIDE if not left and function not in places else NOTHING)
    return places


def functions(crate):
    """The functions of a crate that other crates or C can call; a program's are its own."""
    if (crate / "src/main.rt").exists():
        return set()
    return {name for file in crate.glob("src/**/*.rt") for name in re.findall(r'^\s*pub (?:extern "C" )?fn (\w+)', file.read_text(), re.M)}


kit = subprocess.run(["rt", "version"], capture_output=True, text=True, check=True).stdout
crates = below()
sums = {crate: sum_of(crate) for crate in {edit.parent.parent.name for edit in edits}}
lanes, logs = queue.Queue(), {}


def said_of(edit):
    """What the checker says of the crate with the edit."""
    crate, texts = edit.parent.parent.name, edited(edit)
    if not texts:
        return ""

    def make():
        lane = lanes.get()
        try:
            return lane.check(crate, texts)
        finally:
            lanes.put(lane)

    log = root / "target/must-fail" / crate / f"{edit.stem}.log"
    said = kept(log, hashlib.sha256(repr((sums[crate], sorted(texts.items()))).encode()).hexdigest(), make)
    if not re.search(r"^logic=(not-)?proved", said, re.M):
        log.unlink()
        faults.append(f"{edit.relative_to(root)}: the checker came to no verdict: {said[-600:]}")
    elif not re.search(r"^logic=not-proved", said, re.M):
        faults.append(f"{edit.relative_to(root)}: it is still proved")
    return said


# One check takes a processor, and up to four gigabytes.
memory = int(re.search(r"MemAvailable:\s+(\d+)", pathlib.Path("/proc/meminfo").read_text())[1]) >> 20
with tempfile.TemporaryDirectory(prefix="refusals-") as room:
    for words, folder in [(["check"], f"crates/{crate}") for crate in asked] or [(["all", "check"], ".")]:
        if subprocess.run(["rt", *words], cwd=root / folder, stdout=subprocess.DEVNULL).returncode:
            sys.exit(f"FAILED: as it stands not all is proved: `rt {' '.join(words)}` in {folder}")
    count = max(1, min(len(os.sched_getaffinity(0)), memory // 4))
    for number in range(count):
        (pathlib.Path(room) / str(number)).mkdir()
        lanes.put(Lane(pathlib.Path(room) / str(number)))
    with concurrent.futures.ThreadPoolExecutor(count) as pool:
        list(pool.map(goals, sorted(sums)))
        logs = dict(zip(edits, pool.map(said_of, edits)))

found, own = {}, collections.Counter()
for edit in edits:
    wrong, crate, label = wrong_programs(edit), edit.parent.parent, str(edit.relative_to(root))
    places = refusals(edit, logs[edit])
    of_specs = "file: specs/" in edit.read_text()
    refused = {what for what, place in places.items() if (place == LAW) == of_specs}
    if not (set(wrong.values()) <= refused if of_specs else sorted(wrong.values()) == sorted(refused)):
        faults.append(f"{label}: refused for {', '.join(sorted(refused)) or 'nothing'}")
    for name, what in wrong.items():
        place = places.get(what, NOTHING)
        found[crate.name, name] = place
        own[crate.name, what] += place in (PROMISE, INVARIANT)
        if place not in (PROMISE, INVARIANT, LAW) and (what, place) != ("main", REQUIRES):
            faults.append(f"{label}: {name} is refused at {place}")
        if "--where" in sys.argv:
            print(f"{crate.name}/{edit.stem}: {name}, of {what}: {place}")

for crate in sorted((root / "crates").iterdir()):
    for function in sorted(functions(crate)) if not asked or crate.name in asked else ():
        if own[crate.name, function] < 2:
            faults.append(f"{crate.name}: {function} has {own[crate.name, function]} wrong programs of its own")

table = (root / "docs/WRONG-PROGRAMS.md").read_text()
told = set(re.findall(r"`([a-z]\w*)`", re.sub(r"^\| [^|]*\|", "", table, flags=re.M)))
for crate, name in found:
    if name not in told:
        faults.append(f"{crate}: {name} is not in docs/WRONG-PROGRAMS.md")
for name in () if asked else told - {name for _, name in found}:
    faults.append(f"docs/WRONG-PROGRAMS.md: {name} is no wrong program")

for words in faults:
    print(f"FAILED: {words}")
print(f"refusals: {len(found)} wrong programs in {len(edits)} edits, each refused where it must be; {len(faults)} faults" if not faults else f"refusals: {len(faults)} faults")
sys.exit(bool(faults) or not edits)
