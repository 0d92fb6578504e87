#!/usr/bin/env bash
# Instructions a call, counted by callgrind, as a table with ratios.
#   host/bench/instructions.sh [CASE-PATTERN]
# The pattern is a part of a case's name, as "port-" or "/largest".
set -euo pipefail
cd "$(dirname "${BASH_SOURCE[0]}")/.."
pattern=${1:-}
calls=${CALLS:-20}

command -v valgrind >/dev/null || { echo "valgrind is not installed" >&2; exit 1; }
cargo build --release --offline --quiet -p bench
bench=${CARGO_TARGET_DIR:-target}/release/bench
out=$(mktemp -d)
trap 'rm -rf "$out"' EXIT

# Instructions of one case on one core, for all its calls.
count() {
    valgrind --tool=callgrind --toggle-collect='*measured_calls*' \
        --callgrind-out-file="$out/callgrind" "$bench" one "$1" "$2" "$calls" \
        2>"$out/log" >/dev/null || { cat "$out/log" >&2; exit 1; }
    awk '/Collected/ { print $NF }' "$out/log"
}

echo "instructions a call, over $calls calls"
printf '%-28s %12s %12s %8s\n' case archive reference ratio
for name in $("$bench" list); do
    [[ $name == *"$pattern"* ]] || continue
    archive=$(count "$name" archive)
    reference=$(count "$name" reference)
    awk -v name="$name" -v a="$archive" -v r="$reference" -v n="$calls" 'BEGIN {
        printf "%-28s %12.0f %12.0f %8.2f\n", name, a / n, r / n, a / r
    }'
done
