#!/usr/bin/env bash
# Builds the C examples with the static library, runs them on the example room, and compares every byte that they write.
set -euo pipefail
cd "$(dirname "${BASH_SOURCE[0]}")/.."
out=$(mktemp -d)
trap 'rm -rf "$out"' EXIT
for example in serve restore knob; do
    "${CC:-cc}" -std=c99 -Wall -Wextra -Wpedantic -Werror -O2 -Ihost/include "examples/c/$example.c" target/c/libegrivundo.a -o "$out/$example"
done

compare() { # WHAT GOT WANTED
    cmp -s "$2" "$3" || { echo "FAILED: $1 writes:"; cat -A "$2"; echo "and not:"; cat -A "$3"; exit 1; }
}

# The port: lines right and wrong over several reads, and an unfinished one. Its values are kept.
examples/room.py pack examples/viewing-room.room "$out/table" "$out/values"
cp "$out/values" "$out/now"
{
    printf 'GA"Commentary">1\rSA"Commentary">1=-'
    sleep 0.2
    printf '4\rSA"Commentary">1\rSA"Commentary">1=99\rGA"Nobody">1\rGA"Desk">2>3\rGA'
} | "$out/serve" "$out/table" "$out/now" >"$out/replies" 2>"$out/reports"
printf 'GA"Commentary">1=-6.5\r\006\r\02599\r\02503\r\02501\rGA"Desk">2>3=0\r' >"$out/wanted"
compare "serve" "$out/replies" "$out/wanted"
echo '99: no =, at byte 16' >"$out/wanted"
compare "serve, of the 99," "$out/reports" "$out/wanted"
examples/room.py unpack "$out/table" "$out/now" >"$out/room"
sed 's/^    1 = -6.5$/    1 = -4/' < <(examples/room.py unpack "$out/table" "$out/values") >"$out/wanted"
compare "serve, of its values," "$out/room" "$out/wanted"

# Without a file of values: the start values, which are written.
printf 'GA"Commentary">1\rGA"Microphones">1>1\r' | "$out/serve" "$out/table" "$out/started" >"$out/replies"
printf 'GA"Commentary">1=0\rGA"Microphones">1>1=1\r' >"$out/wanted"
compare "serve, of the start values," "$out/replies" "$out/wanted"
[[ $(stat -c %s "$out/started") == $(stat -c %s "$out/values") ]] || { echo "FAILED: serve starts with another number of values"; exit 1; }

# The restore list back to the values before, played by the port; then a module that did not change, and one that is not there.
"$out/restore" "$out/table" "$out/now" "$out/values" 1 >"$out/list" 2>"$out/reports"
printf 'SA"Commentary">1=-6.5\r' >"$out/wanted"
compare "restore" "$out/list" "$out/wanted"
echo '22 bytes, lines: 1' >"$out/wanted"
compare "restore, of its list," "$out/reports" "$out/wanted"
printf '\006\r' >"$out/wanted"
"$out/serve" "$out/table" "$out/now" <"$out/list" >"$out/replies"
compare "serve, of the list," "$out/replies" "$out/wanted"
compare "serve, of the values after the list," "$out/now" "$out/values"
: >"$out/wanted"
"$out/restore" "$out/table" "$out/now" "$out/values" 2 >"$out/list" 2>"$out/reports"
compare "restore, of nothing," "$out/list" "$out/wanted"
echo '0 bytes, lines: 0' >"$out/wanted"
compare "restore, of a list of nothing," "$out/reports" "$out/wanted"

# Knobs: told of where the label has a # and the value changed, and silent else; the one value is set.
sed 's/"Commentary"/"#Commentary"/' examples/viewing-room.room >"$out/marked.room"
examples/room.py pack "$out/marked.room" "$out/marked" "$out/turned"
"$out/knob" "$out/marked" "$out/turned" 0 0 -40 >"$out/replies"
printf 'GA"#Commentary">1=-4\r' >"$out/wanted"
compare "knob" "$out/replies" "$out/wanted"
{ "$out/knob" "$out/marked" "$out/turned" 0 0 -40 && "$out/knob" "$out/marked" "$out/turned" 1 0 20; } >"$out/replies"
: >"$out/wanted"
compare "knob, of nothing to tell," "$out/replies" "$out/wanted"
examples/room.py unpack "$out/marked" "$out/turned" >"$out/room"
sed -e 's/^    1 = -6.5$/    1 = -4/' -e 's/^    1 = 1.5$/    1 = 2/' < <(examples/room.py unpack "$out/marked" "$out/values") >"$out/wanted"
compare "knob, of its values," "$out/room" "$out/wanted"

# What is refused, with its status.
status() { # WANTED COMMAND..
    local got=0
    "${@:2}" >"$out/list" 2>/dev/null </dev/null || got=$?
    [[ $got == "$1" && ! -s $out/list ]] || { echo "FAILED: ${*:2}: status $got"; exit 1; }
}
head -c 8 "$out/values" >"$out/short"
status 1 "$out/restore" "$out/table" "$out/now" "$out/values" 8
status 1 "$out/restore" "$out/table" "$out/short" "$out/values" 1
status 1 "$out/restore" "$out/short" "$out/now" "$out/values" 1
status 2 "$out/restore"
status 1 "$out/serve" "$out/nothing" "$out/values"
status 2 "$out/serve"
cp "$out/turned" "$out/before"
for knob in '0 6 0' '7 0 0' '-1 0 0' '0 0 151' '5 0 0'; do
    # shellcheck disable=SC2086
    status 1 "$out/knob" "$out/marked" "$out/turned" $knob
done
status 1 "$out/knob" "$out/marked" "$out/short" 0 0 0
status 2 "$out/knob" "$out/marked" "$out/turned" 0 0 loud
status 2 "$out/knob"
compare "knob, refused," "$out/turned" "$out/before"
printf 'x' | "$out/serve" "$out/table" "$out/short" >"$out/list" 2>"$out/reports" && { echo "FAILED: serve takes a short list of values"; exit 1; }
echo 'refused with 2: values: wrong length, or one that is not permitted' >"$out/wanted"
compare "serve, of a short list of values," "$out/reports" "$out/wanted"
"$out/restore" "$out/table" "$out/now" "$out/short" 1 2>"$out/reports" && { echo "FAILED: restore takes a short list of wanted values"; exit 1; }
echo 'refused with 6: wanted: wrong length, or a chosen entry is not permitted' >"$out/wanted"
compare "restore, of a short list of wanted values," "$out/reports" "$out/wanted"
echo "c-examples: serve, restore and knob write what they must"
