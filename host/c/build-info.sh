#!/usr/bin/env bash
# Tells what a package was made of: version, commit, the kit that proved it, and the compiler that made the shared library.
#   host/c/build-info.sh VERSION ARCHIVE CC
set -euo pipefail
version=$1 archive=$2 cc=$3

commit=$(git rev-parse HEAD 2>/dev/null || echo unknown)
if [[ $commit != unknown && -n $(git status --porcelain) ]]; then
    commit+=", and changes that are not committed"
fi
kit=$(rt version)
[[ -n $kit ]] || { echo "rt does not tell its kit" >&2; exit 1; }

echo "version: $version"
echo "machine: x86-64, Linux"
echo "commit: $commit"
echo "kit: $kit"
echo "shared library by: $($cc --version | head -n 1)"
echo "proved archive, sha256: $(sha256sum <"$archive" | cut -d ' ' -f 1)"
