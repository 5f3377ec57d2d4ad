#!/usr/bin/env bash
# Makes what is handed out, for x86-64 Linux: build/release.sh [OUT], in OUT or in dist/. The program and the library are proved and built first.
#
# The archive calspan-VERSION-x86_64-linux.tar.gz has the program, the library for C with its header and its page for pkg-config, rows, books,
# the man page, examples, the Python package, the browser's module if it is built, and install.sh. The package for Debian has the same files
# below /usr. SHA256SUMS has the sums of both. The same commit, toolchain and C compiler make the same bytes: all times are that of the
# commit, or SOURCE_DATE_EPOCH. VERSION is that of the crate whose port this is, with the day and the commit.
set -eu
umask 022
export LC_ALL=C TZ=UTC
top=$(cd "$(dirname "${BASH_SOURCE[0]}")/.." && pwd)
out=${1:-$top/dist}
. "$top/build/made.sh"
program=$top/crates/calspan/out/calspan
module=$top/bindings/web/icu_calendar.wasm

fail() {
  echo "build/release: $1" >&2
  exit 1
}

for tool in git dpkg-deb ar objdump python3; do
  command -v "$tool" >/dev/null || fail "there is no $tool"
done
commit=$(git -C "$top" rev-parse HEAD)
changed=$(git -C "$top" status --porcelain)
[ -z "$changed" ] && unlike= || unlike=', with changes to it'
port=$(sed -n 's/^version = "\(.*\)"/\1/p' "$top/bindings/rust/icu_calendar_proved/Cargo.toml")
SOURCE_DATE_EPOCH=${SOURCE_DATE_EPOCH:-$(git -C "$top" log -1 --format=%ct)}
export SOURCE_DATE_EPOCH
version=$port+$(date -d "@$SOURCE_DATE_EPOCH" +%Y%m%d).${commit:0:12}${changed:+.changed}
name=calspan-$version-x86_64-linux

# Both are found by what they are made of, whatever the times of the files.
attended python3 "$top/build/program.py" --progress calspan icu_calendar_c >&2
shared=$("$top/bindings/c/build.sh" | tail -n 1)
archive=$(dirname "$shared")/libicu_calendar_c.a
heap=$(dirname "$shared")/liblibc_c.a

room=$(mktemp -d)
trap 'rm -rf "$room"' EXIT
tree=$room/$name
put() {
  install -D -m "$1" "$2" "$tree/$3"
}

put_library() {
  put 644 "$shared" lib/libicu_calendar.so
  put 644 "$top/bindings/c/include/icu_calendar.h" include/icu_calendar.h
  mkdir "$room/objects" "$tree/lib/pkgconfig"
  (cd "$room/objects" && ar x "$archive" && ar x "$heap" && ar rcsD "$tree/lib/libicu_calendar.a" ./*.o)
  cat >"$tree/lib/pkgconfig/icu_calendar.pc" <<PC
prefix=\${pcfiledir}/../..
libdir=\${prefix}/lib
includedir=\${prefix}/include

Name: icu_calendar
Description: Dates in twenty calendars, proved
Version: $port
Libs: -L\${libdir} -licu_calendar
Cflags: -I\${includedir}
PC
}

put_texts() {
  local it docs=share/doc/calspan
  put 644 "$top/LICENSE" $docs/copyright
  for it in examples/first.txt examples/holidays.csv bindings/c/examples/dates.c bindings/c/examples/dates.out; do
    put 644 "$top/$it" "$docs/examples/$(basename "$it")"
  done
  for it in "$top"/rows/*.rows "$top/rows/README.md" "$top"/books/*.csv "$top/books/README.md" \
    "$top"/books/countries/*.csv "$top/books/countries/README.md"; do
    put 644 "$it" "share/calspan/${it#"$top"/}"
  done
  mkdir -p "$tree/share/man/man1"
  python3 "$top/build/man_page.py" "$port" "$(date -d "@$SOURCE_DATE_EPOCH" +%F)" >"$tree/share/man/man1/calspan.1"
  cat >"$tree/$docs/PROVED" <<TEXT
The program calspan and the library libicu_calendar, version $version.

Commit      $commit$unlike
Toolchain   $(rt version)
C compiler  $("${CC:-cc}" --version | head -n 1), for the shared object alone

Every function of the program and of the library was proved to do what its contract says before it was built: what
isn't proved isn't built. docs/PROVED.md of the sources says what is promised, clause by clause, and what is trusted:
the toolchain, LLVM, the C library and the system. No contract covers the Python package, the scripts or this archive.

To repeat it: check out the commit and call build/release.sh with this toolchain and C compiler. The bytes are the same.
TEXT
}

# The first Python that can build a wheel.
python_for_wheel() {
  local it
  for it in "${PYTHON:-python3}" python3 /usr/bin/python3; do
    if "$it" -c 'import setuptools, wheel' 2>/dev/null; then
      echo "$it"
      return
    fi
  done
  return 1
}

# The wheel, if the sources have what builds it, or else the module's files, with the shared object beside them.
put_python() {
  local python place=$tree/share/calspan/python
  mkdir -p "$place"
  if [ -f "$top/bindings/python/pyproject.toml" ]; then
    python=$(python_for_wheel) || fail "the wheel needs a Python with setuptools and wheel"
    # A copy, so that the build leaves nothing beside the sources.
    mkdir "$room/package"
    (cd "$top" && git ls-files bindings/python | xargs -d '\n' cp --parents -t "$room/package")
    (cd "$room/package/bindings/python" && ICU_CALENDAR_LIBRARY=$shared "$python" -c '
import sys
import setuptools.build_meta
setuptools.build_meta.build_wheel(sys.argv[1])' "$place" >&2)
  else
    mkdir "$place/icu_calendar"
    install -m 644 "$top"/bindings/python/icu_calendar/*.py "$shared" "$place/icu_calendar"
  fi
}

# The browser's module and page, if they are built.
put_web() {
  local it
  if ! is_fresh "$module" icu_calendar_wasm; then
    echo "build/release: without the browser's module, which bindings/web/build.sh builds" >&2
    return
  fi
  python3 "$top/bindings/web/one_file.py" "$module" >"$room/calendars.html"
  python3 "$top/bindings/web/books.py" >"$room/books.json"
  for it in "$module" "$top"/bindings/web/*.mjs "$room/calendars.html" "$room/books.json"; do
    put 644 "$it" "share/calspan/web/$(basename "$it")"
  done
}

# Gives all files of a folder one time.
date_all() {
  find "$1" -exec touch -h -d "@$SOURCE_DATE_EPOCH" {} +
}

make_archive() {
  date_all "$tree"
  tar --sort=name --format=gnu --mtime="@$SOURCE_DATE_EPOCH" --owner=0 --group=0 --numeric-owner -C "$room" -cf - "$name" |
    gzip -9n >"$out/$name.tar.gz"
}

# The newest version of the C library that a symbol of the program or of the shared object asks for.
least_libc() {
  objdump -T "$program" "$shared" | sed -n 's/.*GLIBC_\([0-9.]*\).*/\1/p' | sort -V | tail -n 1
}

make_package() {
  local root=$room/package_of_debian
  mkdir -p "$root/DEBIAN"
  cp -R "$tree" "$root/usr"
  rm "$root/usr/install.sh" "$root/usr/LICENSE"
  cat >"$root/DEBIAN/control" <<CONTROL
Package: calspan
Version: $version
Architecture: amd64
Maintainer: the Lemdoshi authors <lemdoshi@localhost>
Installed-Size: $(find "$root/usr" -type f -printf '%s\n' | awk '{ sum += int(($1 + 1023) / 1024) } END { print sum }')
Depends: libc6 (>= $(least_libc))
Section: utils
Priority: optional
Description: dates in twenty calendars, proved
 The program calspan converts dates, subtracts them and lists days in twenty
 calendars. The library libicu_calendar does the same for C and for Python.
 Every function was proved to do what its contract says before it was built.
CONTROL
  echo 'activate-noawait ldconfig' >"$root/DEBIAN/triggers"
  date_all "$root"
  dpkg-deb --root-owner-group -Zxz --build "$root" "$out/calspan_${version}_amd64.deb" >&2
}

put 755 "$program" bin/calspan
put 644 "$top/LICENSE" LICENSE
put 755 "$top/build/install.sh" install.sh
put_library
put_texts
put_python
put_web
mkdir -p "$out"
rm -f "$out"/calspan[-_]*.tar.gz "$out"/calspan[-_]*.deb "$out/SHA256SUMS"
make_archive
make_package
(cd "$out" && sha256sum calspan[-_]* >SHA256SUMS)
cat "$out/SHA256SUMS"
