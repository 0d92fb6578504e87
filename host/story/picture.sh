#!/usr/bin/env bash
# Draws docs/page.png, the page of the example room, with Debian's chromium.
set -euo pipefail
cd "$(dirname "${BASH_SOURCE[0]}")/../.."
command -v chromium >/dev/null || { echo "chromium is not installed: it draws the picture" >&2; exit 1; }
out=$(mktemp -d)
trap 'rm -rf "$out"' EXIT
./run --html "$out/page.html" >/dev/null
timeout 60 chromium --headless --no-sandbox --disable-gpu --hide-scrollbars --no-first-run --user-data-dir="$out/profile" \
    --window-size=1080,1060 --screenshot=docs/page.png "file://$out/page.html" 2>/dev/null
echo "docs/page.png: $(stat -c %s docs/page.png) bytes"
