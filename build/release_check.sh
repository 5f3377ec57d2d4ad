#!/usr/bin/env bash
# Tests what build/release.sh makes, without the toolchain on the path: two makes are the same bytes; the archive installs; the installed program
# wants the C library alone, and answers examples/first.txt as examples/first.out has it; C, by pkg-config, and Python work over the installed
# library; the package for Debian has the same files; the man page has no faults. It names what it can't test for want of a program.
set -eu
top=$(cd "$(dirname "${BASH_SOURCE[0]}")/.." && pwd)
room=$(mktemp -d)
trap 'rm -rf "$room"' EXIT
here=$room/empty
prefix=$room/prefix
mkdir "$here" "$room/a name of another length"

fail() {
  echo "build/release_check: $1" >&2
  exit 1
}

not_tested() {
  echo "build/release_check: not tested: $1" >&2
}

# Runs a command in an empty folder, with the system's programs alone.
alone() {
  (cd "$here" && env -i HOME="$here" PATH=/usr/bin:/bin LC_ALL=C "$@")
}

"$top/build/release.sh" "$room/one" >/dev/null
(umask 077 && TMPDIR="$room/a name of another length" TZ=Asia/Tokyo "$top/build/release.sh" "$room/two" >/dev/null 2>&1)
diff -r "$room/one" "$room/two" || fail "two makes differ"
(cd "$room/one" && sha256sum --quiet -c SHA256SUMS) || fail "SHA256SUMS has other sums"

tar -xzf "$room"/one/calspan-*.tar.gz -C "$room"
alone "$room"/calspan-*/install.sh "$prefix" >/dev/null
program=$prefix/bin/calspan
for it in "$program" "$prefix/lib/libicu_calendar.so"; do
  wanted=$(objdump -p "$it" | sed -n 's/^ *NEEDED *//p' | grep -v '^ld-linux' || true)
  [ "$wanted" = libc.so.6 ] || fail "$it wants other libraries: $wanted"
done

# `answers NAME IN OUT`: the installed program answers IN as OUT has it; its status is 1 if an answer is an error.
answers() {
  local status=0
  alone "$program" span <"$top/$1" >"$room/got" || status=$?
  if [ "$status" -gt 1 ] || ! cmp "$room/got" "$top/$2"; then
    fail "the installed program answers $1 otherwise, with status $status"
  fi
}

answers examples/first.txt examples/first.out
answers cases/first_path.in cases/first_path.out

flags() {
  alone env PKG_CONFIG_PATH="$prefix/lib/pkgconfig" pkg-config "$@" icu_calendar
}

is_dates() {
  diff "$room/got" "$prefix/share/doc/calspan/examples/dates.out" || fail "dates.c over $1 prints something else"
}

if command -v pkg-config >/dev/null && command -v "${CC:-cc}" >/dev/null; then
  dates=$prefix/share/doc/calspan/examples/dates.c
  # The words that pkg-config prints are many.
  # shellcheck disable=SC2046
  alone "${CC:-cc}" "$dates" $(flags --cflags --libs) -o "$room/dates"
  alone env LD_LIBRARY_PATH="$prefix/lib" "$room/dates" >"$room/got"
  is_dates libicu_calendar.so
  # shellcheck disable=SC2046
  alone "${CC:-cc}" "$dates" $(flags --cflags) "$(flags --variable=libdir)/libicu_calendar.a" -o "$room/dates"
  alone "$room/dates" >"$room/got"
  is_dates libicu_calendar.a
else
  not_tested "C, since there is no pkg-config or no ${CC:-cc}"
fi

python=$prefix/share/calspan/python
for it in "$python"/*.whl; do
  if [ -f "$it" ]; then
    python=$room/python
    python3 -m pip install --quiet --no-index --no-deps --disable-pip-version-check --root-user-action ignore --target "$python" "$it"
  fi
done
said=$(cd "$here" && env -u ICU_CALENDAR_LIBRARY PYTHONPATH="$python" python3 -B -c '
from icu_calendar import Calendar, Date
print(Date.of_fields(Calendar.HEBREW, year=5784, month=1, day=1).to_calendar(Calendar.ISO))')
case $said in *2023*09*16*) ;; *) fail "Python prints $said" ;; esac

dpkg-deb -x "$room"/one/calspan_*.deb "$room/debian"
rm -rf "$room/archive" && mv "$room"/calspan-*-x86_64-linux "$room/archive"
rm "$room/archive/install.sh" "$room/archive/LICENSE"
diff -r "$room/debian/usr" "$room/archive" || fail "the package for Debian has other files than the archive"

page=$prefix/share/man/man1/calspan.1
if command -v mandoc >/dev/null; then
  mandoc -T lint -W warning "$page" || fail "the man page has faults"
elif command -v man >/dev/null; then
  [ -z "$(man --warnings -l "$page" 2>&1 >/dev/null)" ] || fail "the man page has faults"
else
  not_tested "the man page, since there is no mandoc and no man"
fi
echo "build/release_check: the archive and the package install, and two makes are the same bytes"
