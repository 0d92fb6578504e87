#!/bin/bash
# Runs the program `turns` on random commands, whole and cut off, and compares every byte with what the independent implementation plays.
# usage: tests/turns.sh [PROGRAM]
set -u
here=$(cd "$(dirname "$0")/.." && pwd)
program=${1:-$here/target/bin/turns}
[ -x "$program" ] || { echo "turns: no program at $program"; exit 2; }
cargo build --quiet --manifest-path "$here/host/Cargo.toml" --release --offline -p reference --example turns || exit 2
reference=$here/host/target/release/examples/turns
folder=$(mktemp -d)
trap 'rm -rf "$folder"' EXIT
cd "$folder" || exit 2
cp "$here/crates/turns/data/table" table
failed=0

# plays the file `commands` by both
same() { # WHAT
    timeout 60 "$program" <commands >got || { echo "FAILED: $1: the program ended with status $? (124: not within 60 seconds)"; exit 1; }
    "$reference" <commands >wanted || exit 1
    if cmp -s got wanted; then echo "ok: $1, $(wc -c <wanted) bytes"; else echo "FAILED: $1"; failed=1; fi
}

# connections that open and close, most of them within the row; turns with the bytes that wait for some, each consumed where the turn serves it
random() { # SEED COMMANDS
    python3 - "$1" "$2" <<'P' >commands
import random, sys
random.seed(int(sys.argv[1]))
lines = [b'SA"T">1=15', b'SA "T">01=-04', b'SA"T">1=-0', b'SA"T">2=T', b'GA"S">1', b'GA"T">1', b'SA"Q">9=x', b'SA"T">9=x', b'SA"T">1', b'', b'\n',
         b'SA"S">1=O', b'GA"T">2', b'x' * 64, b'x' * 65, b'SA"T>1=1', b'GA"T">1=']
out = sys.stdout.buffer
for _ in range(int(sys.argv[2])):
    kind = random.random()
    if kind < 0.25:
        out.write(random.choice([b'o', b'o', b'c']) + bytes([random.choice([random.randrange(8), random.randrange(32), random.randrange(256)])]))
        continue
    parts = [b''] * 32
    for _ in range(random.choice([0, 1, 3, 32])):
        text = b''.join(random.choice(lines) + b'\r' for _ in range(random.randrange(3))) + random.choice(lines)
        parts[random.choice([random.randrange(8), random.randrange(32)])] = text[random.randrange(4):random.randrange(255)]
    out.write(b't' + bytes(map(len, parts)) + b''.join(parts))
P
}
cp "$here/crates/turns/stdin" commands
same "the commands of the gate"
for seed in 1 2 3; do
    random $seed 4000
    same "4,000 random commands ($seed)"
done
random 4 50
cp commands whole
for length in 0 1 2 3 33 34 100 500 1000; do
    head -c "$length" whole >commands
    same "cut off after $length bytes"
done
printf 'o\001x\002o\002' >commands
same "an unknown command ends the program"
printf 't\377%s' "$(head -c 31 /dev/zero | tr '\0' '\377')" >commands
head -c 8160 /dev/zero | tr '\0' 'x' >>commands
printf 'o\001' >>commands
same "the longest command"
[ $failed = 0 ] && echo "turns: all as it must be"
exit $failed
