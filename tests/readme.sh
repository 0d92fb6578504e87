#!/usr/bin/env bash
# Builds and runs the two programs that README.md shows, and the four lines that put a module back over the network, as they stand there, and compares what they write with what their
# comments say.
set -euo pipefail
cd "$(dirname "${BASH_SOURCE[0]}")/.."
root=$PWD
out=$(mktemp -d)
box=
trap 'if [[ -n $box ]]; then kill "$box" 2>/dev/null || true; fi; rm -rf "$out"' EXIT

block() { # LANGUAGE
    sed -n "/^\`\`\`$1\$/,/^\`\`\`\$/p" README.md | sed '1d;$d'
}
compare() { # WHAT GOT WANTED
    [[ -n $3 && $2 == "$3" ]] || { echo "FAILED: $1 writes '$2', and its comment says '$3'"; exit 1; }
}

holder() { # PORT: which program listens there
    local inode link
    inode=$(awk -v port="$(printf ':%04X' "$1")" '$4 == "0A" && substr($2, length($2) - 4) == port { print $10; exit }' /proc/net/tcp /proc/net/tcp6)
    for link in /proc/[0-9]*/fd/*; do
        if [[ $(readlink "$link") == "socket:[$inode]" ]]; then
            link=${link%/fd/*}
            echo "process ${link#/proc/}: $(tr '\0' ' ' <"$link/cmdline")"
            return
        fi
    done 2>/dev/null
    echo "a process that cannot be seen"
}

block c >"$out/readme.c"
"${CC:-cc}" -std=c99 -Wall -Wextra -Wpedantic -Werror -Ihost/include "$out/readme.c" target/c/libegrivundo.a -o "$out/readme"
compare "the program in C" "$("$out/readme")" "$(sed -n 's|.*printf.*/\* \(.*\) \*/$|\1|p' "$out/readme.c")"

mkdir "$out/src"
block rust >"$out/src/main.rs"
printf '[package]\nname = "readme"\nversion = "0.0.0"\nedition = "2021"\n[dependencies]\negrivundo = { path = "%s" }\n[workspace]\n' "$root/host/egrivundo" >"$out/Cargo.toml"
compare "the program in Rust" "$(cargo run --quiet --offline --manifest-path "$out/Cargo.toml")" "$(sed -n 's|.*println!.*// \(.*\)$|\1|p' "$out/src/main.rs")"

# The first line beside the others, as in another terminal; in a folder of its own, where the room file is put.
mapfile -t lines < <(sed -n '/^## On the network/,/^## In C/s/^    //p' README.md)
((${#lines[@]} == 4)) || { echo "FAILED: README.md shows ${#lines[@]} lines for the network, and not 4"; exit 1; }
mkdir "$out/network"
cp egrivundo "$out/network"
ln -s "$root/host" "$root/examples" "$out/network"
cd "$out/network"
: >"$out/words"
bash -c "exec ${lines[0]}" >"$out/log" 2>"$out/words" &
box=$!
while kill -0 "$box" 2>/dev/null && ! grep -q '^Listening on' "$out/words"; do sleep 0.1; done
if grep -q 'in use' "$out/words"; then echo "FAILED: $(tail -n 1 "$out/words"), by $(holder 10055)"; exit 1; fi
grep -q '^Listening on' "$out/words" || { echo "FAILED: the box does not start: $(cat "$out/words")"; exit 1; }
for line in "${lines[@]:1}"; do
    told=$(echo y | timeout 60 bash -c "$line" 2>"$out/words") || { echo "FAILED: $line: $(cat "$out/words")"; exit 1; }
    if [[ $line == *' # '* ]]; then compare "$line" "$(tail -n 1 <<<"${told#*\[y/N] }")" "${line##* \# }"; fi
done
kill "$box"
wait "$box" || { echo "FAILED: the box ends with $?"; exit 1; }
box=
cd "$root"

lines=$(wc -l <README.md)
((lines < 120)) || { echo "FAILED: README.md has $lines lines, and must have under 120"; exit 1; }
echo "readme: both programs, and the four lines of the network, write what their comments say"
