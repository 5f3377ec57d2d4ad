#!/usr/bin/env bash
# Tests the extension for PostgreSQL on a server of its own (server.sh): builds it with warnings as errors, runs the regression tests, and dumps and
# restores a table with an expression index. What lacks is installed by apt-get if root may, which is said. If it lacks still, that is a
# note, and an error if CI is `true`.
set -eu
# shellcheck source=bindings/postgres/server.sh
. "$(dirname "${BASH_SOURCE[0]}")/server.sh"
need_server bindings/postgres/check
make_room
build_extension
start_server ""
regression() {
  as_user make -s -C "$extension" PG_CONFIG="$config" installcheck
}
if ! regression >"$room/regression.log" 2>&1; then
  cat "$room/regression.log" "$extension/regression.diffs" >&2 || true
  exit 1
fi

# A dump of all that the tests made comes back, with tables that have expression indexes, and the indexes are used.
as_user "$bin/pg_dump" -d contrib_regression -f "$room/dump.sql"
as_user "$bin/psql" -Xq -v ON_ERROR_STOP=1 -c 'CREATE DATABASE restored'
as_user "$bin/psql" -Xq -v ON_ERROR_STOP=1 -d restored -f "$room/dump.sql" >/dev/null
counted="SELECT count(*), sum(calendar_anniversary_key('hebrew', born)) FROM people"
for name in contrib_regression restored; do
  as_user "$bin/psql" -XAtq -v ON_ERROR_STOP=1 -d "$name" -c "$counted" -c 'TABLE born_in ORDER BY id' -c 'TABLE calendars ORDER BY code' -c 'SET enable_seqscan = off' \
    -c "EXPLAIN (COSTS off) SELECT * FROM people WHERE calendar_anniversary_key('hebrew', born) = 1010" >"$room/$name.txt"
done
cmp "$room/contrib_regression.txt" "$room/restored.txt"
grep -q people_hebrew "$room/restored.txt"

# Whoever owns a database may create the extension there, in a schema of its own, and drop it.
as_user "$bin/psql" -Xq -v ON_ERROR_STOP=1 -c 'CREATE ROLE someone LOGIN' -c 'CREATE DATABASE theirs OWNER someone'
as_user "$bin/psql" -XAtq -v ON_ERROR_STOP=1 -U someone -d theirs -c 'CREATE SCHEMA cal' -c 'CREATE EXTENSION icu_calendar SCHEMA cal' \
  -c "SELECT cal.calendar_text('iso', '2024-03-01')" -c 'SET search_path = cal' \
  -c "SELECT name, calendar_text(name, '2024-03-01') FROM calendars WHERE name = 'hebrew'" -c 'DROP EXTENSION icu_calendar' >"$room/theirs.txt"
grep -qx 'hebrew|am 5784-M05L-21' "$room/theirs.txt"
echo "bindings/postgres/check: the extension for $("$config" --version) agrees with the cases, and comes back from a dump"
