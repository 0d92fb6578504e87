#!/usr/bin/env bash
# Builds the C example with the archive and runs it.
set -euo pipefail
cd "$(dirname "${BASH_SOURCE[0]}")"
archive=${EGRIVUNDO_ARCHIVE:-../../target/staticlib/libcapi.a}
if [[ ! -f $archive ]]; then
    echo "The archive is missing: run host/archive.sh at the repository's root." >&2
    exit 1
fi
out=$(mktemp -d)
trap 'rm -rf "$out"' EXIT
"${CC:-cc}" -std=c99 -Wall -Wextra -Wpedantic -Werror -O2 -I../include \
    worked.c "$archive" -o "$out/worked"
"$out/worked"
