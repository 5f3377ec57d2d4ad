#!/usr/bin/env bash
# Tests the calls from C: the examples under the address and undefined-behaviour sanitizers over all cases, and the Python package. Prints a
# note if the C compiler or Python is missing, and runs the remaining tests; with CI=true that is a failure.
set -eu
top=$(cd "$(dirname "${BASH_SOURCE[0]}")/../.." && pwd)
. "$top/build/lacks.sh"
cc=${CC:-cc}
if ! command -v "$cc" >/dev/null; then
  lacks "everything, since there is no C compiler ($cc)"
  exit 0
fi
shared=$("$top/bindings/c/build.sh" | tail -n 1)
archive=$top/crates/icu_calendar_c/out/libicu_calendar_c.a
heap=$(dirname "$(dirname "$(readlink -f "$(command -v rt)")")")/c/liblibc_c.a
room=$(mktemp -d)
trap 'rm -rf "$room"' EXIT
for name in calspan dates columns lists; do
  "$cc" -std=c11 -Wall -Wextra -Werror -g -fsanitize=address,undefined -fno-sanitize-recover=all -I "$top/bindings/c/include" \
    "$top/bindings/c/examples/$name.c" "$archive" "$heap" -o "$room/$name"
done
for name in dates columns lists; do
  "$room/$name" | diff - "$top/bindings/c/examples/$name.out"
done
if command -v "${CXX:-c++}" >/dev/null; then
  "${CXX:-c++}" -std=c++11 -Wall -Wextra -Werror -fsyntax-only -x c++ "$top/bindings/c/include/icu_calendar.h"
else
  lacks "the header as C++, since there is no ${CXX:-c++}"
fi
if ! command -v python3 >/dev/null; then
  lacks "the cases and the Python package, since there is no python3"
  exit 0
fi
python3 "$top/cases/compare.py" --program "$room/calspan"
if command -v parallel >/dev/null; then
  for name in solar east_asian; do
    cat "$top"/rows/*.rows "$top/cases/$name.in" | "$room/calspan" span >"$room/wanted" || [ $? -eq 1 ]
    CALSPAN=$room/calspan BLOCK=50k "$top/examples/parallel.sh" "$top"/rows/*.rows <"$top/cases/$name.in" >"$room/got" || [ $? -eq 1 ]
    cmp "$room/wanted" "$room/got"
  done
else
  lacks "examples/parallel.sh, since there is no GNU parallel"
fi
echo "bindings/c/check: the examples in C agree with the cases"
ICU_CALENDAR_LIBRARY=$shared "$top/bindings/python/check.sh"
