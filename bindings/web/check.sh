#!/usr/bin/env bash
# Tests the module in Node over the cases, the page in a headless browser against the program, and the module against the browser's Temporal.
# Prints a note if Node with 64-bit memories or the browser is missing, and runs the remaining tests; with CI=true that is a failure. With a
# file's name it writes a picture of the page there.
set -eu
top=$(cd "$(dirname "${BASH_SOURCE[0]}")/../.." && pwd)
. "$top/build/lacks.sh"
picture=${1:--}
# Node 20 to 23 have 64-bit memories behind a flag, later ones have them without.
memory=
if ! command -v node >/dev/null; then
  lacks "everything, since there is no node"
  exit 0
fi
if ! node -e 'new WebAssembly.Module(new Uint8Array([0, 97, 115, 109, 1, 0, 0, 0, 5, 3, 1, 4, 1]))' 2>/dev/null; then
  memory=--experimental-wasm-memory64
  if ! node "$memory" -e 'new WebAssembly.Module(new Uint8Array([0, 97, 115, 109, 1, 0, 0, 0, 5, 3, 1, 4, 1]))' 2>/dev/null; then
    lacks "everything, since node $(node --version) has no 64-bit memories"
    exit 0
  fi
fi
"$top/bindings/web/build.sh" >/dev/null
# The word is a flag or nothing.
# shellcheck disable=SC2086
node $memory --test "$top"/bindings/web/tests/*.test.mjs
for browser in "${BROWSER:-}" chromium chromium-browser google-chrome; do
  if [ -n "$browser" ] && command -v "$browser" >/dev/null; then
    node "$top/bindings/web/tests/browser.mjs" "$(command -v "$browser")" "$top/bindings/web/calendars.html" "$top/crates/calspan/out/calspan" "$picture"
    node "$top/bindings/web/tests/temporal.mjs" "$(command -v "$browser")" "$top/bindings/web/icu_calendar.wasm"
    exit
  fi
done
lacks "the page, since there is no Chromium"
