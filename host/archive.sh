#!/usr/bin/env bash
# Proves the core and makes its archive, target/staticlib/libcapi.a: `rt lib` in the folder of the crate capi, which proves the crates below it first. What the checker says is passed on.
set -euo pipefail
cd "$(dirname "${BASH_SOURCE[0]}")/.."
(cd crates/capi && rt lib)
mkdir -p target/staticlib
cp crates/capi/out/libcapi.a target/staticlib/libcapi.a
