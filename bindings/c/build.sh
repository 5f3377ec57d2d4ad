#!/usr/bin/env bash
# Builds the calls from C: the archive crates/icu_calendar_c/out/libicu_calendar_c.a, which is proved first, and by the system's C compiler
# ($CC or cc) the shared object libicu_calendar.so beside it, which wants the C library alone. The toolchain's functions over malloc are copied
# beside the archive, so that the two can be linked without the toolchain.
set -eu
top=$(cd "$(dirname "${BASH_SOURCE[0]}")/../.." && pwd)
crate=$top/crates/icu_calendar_c
archive=$crate/out/libicu_calendar_c.a
shared=$crate/out/libicu_calendar.so
. "$top/build/made.sh"
rt=$(command -v rt) || { echo "the toolchain's command rt is not on the PATH" >&2; exit 1; }
# The toolchain's three functions over malloc, realloc and free.
heap=$(dirname "$(dirname "$(readlink -f "$rt")")")/c/liblibc_c.a

make_fresh "$archive" icu_calendar_c --progress
cp "$heap" "$crate/out/"
"${CC:-cc}" -shared -o "$shared" -Wl,-soname,libicu_calendar.so -Wl,--whole-archive "$archive" -Wl,--no-whole-archive "$heap" -Wl,--exclude-libs,liblibc_c.a
echo "$shared"
