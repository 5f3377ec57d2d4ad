# shellcheck shell=bash
# Builds the extension and starts a server that has it, in a temporary folder, for check.sh and bench/postgres.sh, which read this file. Nothing is
# installed outside of the folder: the server is a copy of the installed one, which finds its files beside itself. It listens on a socket in
# the folder only, and runs as an unprivileged user. Leaving the script stops it and removes the folder.
#
# PG_CONFIG may name a pg_config, and ICU_CALENDAR_LIB an archive; otherwise bindings/c/build.sh makes it. With SANITIZE=1 the extension is built
# with the sanitizer of undefined behaviour, and a finding ends the server. SERVER_UNDER may be a command that runs the server, such as valgrind.

top=$(cd "$(dirname "${BASH_SOURCE[0]}")/../.." && pwd)

# Returns whether a pg_config belongs to a server with the files that extensions are built with.
has_all() {
  command -v "$1" >/dev/null && [ -f "$("$1" --pgxs 2>/dev/null)" ] && [ -x "$("$1" --bindir 2>/dev/null)/initdb" ]
}

# Sets `config` to a pg_config that has all.
find_config() {
  for config in ${PG_CONFIG:-} pg_config $(find /usr/lib/postgresql -path '*/bin/pg_config' 2>/dev/null | sort -rV); do
    if has_all "$config"; then
      return 0
    fi
  done
  return 1
}

# The packages of Debian that lack: those of the server that is installed, or else of version 15, a compiler and make.
packages() {
  local version
  command -v make >/dev/null || echo make
  command -v "${CC:-cc}" >/dev/null || echo gcc
  ! find_config || return 0
  version=$(find /usr/lib/postgresql -path '*/bin/initdb' 2>/dev/null | sort -rV | head -n 1 | cut -d / -f 5)
  [ -n "$version" ] || echo postgresql-15
  echo "postgresql-server-dev-${version:-15}"
}

install_packages() {
  local wanted
  mapfile -t wanted < <(packages)
  if [ "$(id -u)" -ne 0 ] || ! command -v apt-get >/dev/null; then
    return 0
  fi
  echo "$1: installing ${wanted[*]} by apt-get"
  DEBIAN_FRONTEND=noninteractive apt-get install -qq -y --no-install-recommends "${wanted[@]}" >/dev/null 2>&1 ||
    { apt-get update -qq && DEBIAN_FRONTEND=noninteractive apt-get install -qq -y --no-install-recommends "${wanted[@]}" >/dev/null; } || true
}

# Finds a server, a compiler and make, or installs the packages that lack. If something lacks still, says so for the script that is named, and
# ends it: with an error if CI is `true`.
need_server() {
  local lacking
  [ -z "$(packages)" ] || install_packages "$1"
  lacking=$(packages | tr '\n' ' ')
  if [ -n "$lacking" ]; then
    echo "$1: not tested, since this lacks: $lacking"
    [ "${CI:-}" != true ] || exit 1
    exit 0
  fi
  find_config
}

# Runs a command as the user of the server.
as_user() {
  if [ "$(id -u)" -eq 0 ]; then
    HOME=$room runuser -u "$user" -- "$@"
  else
    HOME=$room "$@"
  fi
}

stop_server() {
  [ ! -f "$room/data/postmaster.pid" ] || as_user "$bin/pg_ctl" -D "$room/data" -m fast -s stop || true
  [ -n "${KEEP_ROOM:-}" ] || rm -rf "$room"
}

# Copies the server, and what the build and the tests read, into a folder of the user's.
make_room() {
  local it
  room=$(mktemp -d)
  trap stop_server EXIT
  user=$(id -un)
  [ "$(id -u)" -ne 0 ] || user=$(getent passwd postgres nobody | head -n 1 | cut -d : -f 1)
  for it in --bindir --pkglibdir --sharedir; do
    it=$("$config" $it)
    mkdir -p "$room$it"
    cp -r "$it/." "$room$it"
  done
  bin=$room$("$config" --bindir)
  mkdir -p "$room/top/bindings/c"
  cp -r "$top/cases" "$top/books" "$top/rows" "$room/top"
  cp -r "$top/bindings/postgres" "$room/top/bindings"
  cp -r "$top/bindings/c/include" "$room/top/bindings/c"
  find "$room/top/bindings/postgres" \( -name '*.o' -o -name '*.so' \) -delete
}

# Builds the extension, and installs it for the copy of the server.
build_extension() {
  local archive=${ICU_CALENDAR_LIB:-$top/crates/icu_calendar_c/out/libicu_calendar_c.a} flags=
  [ -n "${ICU_CALENDAR_LIB:-}" ] || "$top/bindings/c/build.sh" >/dev/null
  extension=$room/top/bindings/postgres
  if [ -n "${SANITIZE:-}" ]; then
    flags='-fsanitize=undefined -fno-sanitize-recover=all'
  fi
  make -s -C "$extension" PG_CONFIG="$config" ICU_CALENDAR_LIB="$archive" MORE_CFLAGS="$flags" MORE_LDFLAGS="$flags" DESTDIR="$room" all install
  [ "$(id -u)" -ne 0 ] || chown -R "$user" "$room"
}

# Starts the server, with options that are given in one word.
start_server() {
  as_user "$bin/initdb" -D "$room/data" -U postgres -A trust -E UTF8 --locale=C --no-sync --no-instructions >/dev/null
  export PGHOST=$room PGPORT=5432 PGUSER=postgres PGDATABASE=postgres
  printf '#!/bin/sh\nexec %s "%s/postgres" "$@"\n' "${SERVER_UNDER:-}" "$bin" >"$room/postgres"
  chmod +x "$room/postgres"
  as_user "$bin/pg_ctl" -D "$room/data" -p "$room/postgres" -l "$room/log" -w -s -o "-k $room -c listen_addresses='' -c fsync=off ${1:-}" start
}
