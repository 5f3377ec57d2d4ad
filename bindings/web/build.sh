#!/usr/bin/env bash
# Builds the WebAssembly module bindings/web/icu_calendar.wasm of the crate icu_calendar_wasm, which is proved first, and from it and the page's files
# bindings/web/calendars.html, which has all in one file and needs no server. bindings/web/books.json has the books of countries for the page on a
# server.
set -eu
top=$(cd "$(dirname "${BASH_SOURCE[0]}")/../.." && pwd)
module=$top/bindings/web/icu_calendar.wasm
. "$top/build/made.sh"

make_fresh "$module" icu_calendar_wasm --progress
python3 "$top/bindings/web/books.py" > "$top/bindings/web/books.json"
python3 "$top/bindings/web/one_file.py" "$module" > "$top/bindings/web/calendars.html"
echo "$module"
