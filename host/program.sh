#!/usr/bin/env bash
# Makes the proved archive where that is needed, builds a program of this folder, and becomes it.
#   program.sh PACKAGE NAME WHAT WORD..      WHAT it is goes into what is said of it
set -euo pipefail
host=$(cd "$(dirname "${BASH_SOURCE[0]}")" && pwd -P)
package=$1 name=$2 what=$3
shift 3

missing() { echo "$1" >&2; exit 1; }
command -v cargo >/dev/null || missing "cargo is not installed: it builds $what"
command -v cc >/dev/null || missing "cc is not installed: cargo links with it"

# The proved archive.
[[ -n ${EGRIVUNDO_ARCHIVE:-} ]] || "$host/story/archive.sh"

[[ -x ${CARGO_TARGET_DIR:-$host/target}/release/$name ]] || echo "Building $what; some seconds." >&2
exec cargo run --manifest-path "$host/Cargo.toml" --release --offline --quiet -p "$package" --bin "$name" -- "$@"
