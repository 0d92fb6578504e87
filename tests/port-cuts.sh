#!/bin/bash
# Runs the program `port` on one input cut in three ways, on one of many reads, with an output that takes nothing, and on tables that it must
# refuse, and compares every byte. A run that fails, or has not ended after 20 seconds, ends the test.
# usage: tests/port-cuts.sh [PROGRAM]
set -u
here=$(cd "$(dirname "$0")/.." && pwd)
program=${1:-$here/target/bin/port}
[ -x "$program" ] || { echo "port-cuts: no program at $program"; exit 2; }
folder=$(mktemp -d)
trap 'rm -rf "$folder"' EXIT
cd "$folder" || exit 2
failed=0

# runs the program on its standard input
run() { # WHAT TO
    timeout 20 "$program" >"$2" || { echo "FAILED: $1: the program ended with status $? (124: not within 20 seconds)"; exit 1; }
}

# runs it so, and compares what it writes with a file
replies() { # WHAT WANTED
    run "$1" got
    if cmp -s got "$2"; then echo "ok: $1"; else echo "FAILED: $1"; failed=1; fi
}

# the table A, and some hundred lines: right, wrong, overrun, and an unfinished last one
cp "$here/crates/port/data/table" table
python3 - <<'P'
import random
random.seed(7)
lines = [b'SA"T">1=15', b'SA "T">01=-04', b'SA"T">1=-0', b'SA"T">2=T', b'GA"S">1', b'GA"T">1', b'SA"Q">9=x', b'SA"T">9=x',
         b'SA"T">1', b'', b'\n', b'SA"S">1=O', b'GA"T">2', b'x' * 64, b'x' * 65, b'SA"T">1=1' + b' ' * 60, b'y' * 200]
with open("input", "wb") as f:
    for _ in range(400):
        f.write(random.choice(lines) + b"\r")
    f.write(b'GA"T">1')
P
run "some hundred lines" whole <input
grep -aq 'GA"T">1=' whole || { echo "FAILED: the program answered nothing"; failed=1; }
ends=$(tr -dc '\r' <input | wc -c)
answers=$(tr -dc '\r' <whole | wc -c)
if [ "$ends" = "$answers" ]; then echo "ok: one reply to each of $ends lines"; else echo "FAILED: $answers replies to $ends lines"; failed=1; fi

# a line of 65 bytes gets one 99, and the one after it its own answer
python3 -c 'import sys; sys.stdout.buffer.write(b"x" * 65 + b"\rGA\"T\">1\r")' >long
printf '\02599\rGA"T">1=0\r' >afresh
replies "a line of 65 bytes gets one 99, and the next is read afresh" afresh <long

# the whole input, cut byte by byte and at random
writer() { # SEED: 0 for single bytes
    python3 - "$1" <<'P'
import random, sys, time
seed = int(sys.argv[1])
random.seed(seed)
data = open("input", "rb").read()
at = 0
while at < len(data):
    size = 1 if seed == 0 else random.randint(1, 200)
    sys.stdout.buffer.write(data[at:at + size])
    sys.stdout.buffer.flush()
    at += size
    if random.random() < 0.02:
        time.sleep(0.001)
P
}
replies "byte by byte gives the same replies" whole < <(writer 0)
for seed in 1 2 3; do
    replies "random cuts ($seed) give the same replies" whole < <(writer $seed)
done

# an input of hundreds of reads, each as long as the buffer: every reply to every read is written
python3 - <<'P'
lines = [(b'SA"T">1=-4', b'\x06'), (b'GA"T">1', b'GA"T">1=-4'), (b'SA"T">1=99', b'\x1503'), (b'x' * 65, b'\x1599'),
         (b'SA"T">1=0', b'\x06'), (b'GA"T">1', b'GA"T">1=0')]
with open("much", "wb") as much, open("wanted", "wb") as wanted:
    for _ in range(3000):
        for line, reply in lines:
            much.write(line + b"\r")
            wanted.write(reply + b"\r")
P
replies "an input of $(wc -c <much) bytes gets all its replies" wanted <much

# where the output takes nothing the program ends, though the input does not
run "an output that takes nothing" /dev/full < <(yes "$(printf 'GA"T">1\r')" 2>/dev/null)
echo "ok: the program ends where the output takes nothing"

# a reply comes before the program waits for more
python3 - "$program" <<'P' || failed=1
import subprocess, sys
p = subprocess.Popen(["timeout", "20", sys.argv[1]], stdin=subprocess.PIPE, stdout=subprocess.PIPE)
for line, reply in [(b'GA"S">1\r', b'GA"S">1=F\r'), (b'SA"S">1=O\r', b'\x06\r'), (b'GA"S">1\r', b'GA"S">1=O\r')]:
    p.stdin.write(line)
    p.stdin.flush()
    got = p.stdout.read(len(reply))
    if got != reply:
        print("FAILED: a reply before more input:", got)
        sys.exit(1)
p.stdin.close()
rest = p.stdout.read()
right = p.wait() == 0 and rest == b""
print("ok: each reply comes before more input" if right else "FAILED: bytes after the last reply, or no end")
sys.exit(not right)
P

# tables that are refused
printf 'refused 1\r' >refused
rm table
replies "refused: no table" refused <input
mkdir table
replies "refused: a folder for a table" refused <input
rmdir table
python3 -c 'import sys; sys.stdout.buffer.write(b"".join(bytes([2]) + b"S" + bytes(31) for _ in range(64)) + bytes([2]))' >table
replies "refused: a table of 2,113 bytes" refused <input
python3 -c 'import sys; sys.stdout.buffer.write(b"".join(bytes([2]) + b"S" + bytes(31) for _ in range(65)))' >table
replies "refused: 65 records" refused <input
printf '\7T' >table
replies "refused: an unknown kind" refused <input
if [ "$(id -u)" != 0 ]; then
    cp "$here/crates/port/data/table" table
    chmod 000 table
    replies "refused: a table that may not be read" refused <input
    rm -f table
fi

# the longest table, and the empty one
python3 -c 'import sys; sys.stdout.buffer.write(b"".join(bytes([5]) + b"R%02d" % i + bytes(29) for i in range(64)))' >table
printf 'GA"R63">2>18=F\rGA"R00">0>8=-6\r' >wanted
replies "64 records of 33 rows" wanted < <(printf 'GA"R63">2>18\rGA"R00">0>8\r')
: >table
printf '\02501\r\02599\r' >wanted
replies "an empty table" wanted < <(printf 'GA"T">1\rx\r')

[ $failed = 0 ] && echo "port-cuts: all as it must be"
exit $failed
