#!/usr/bin/env bash
# Measures the extension for PostgreSQL on a server of its own (bindings/postgres/server.sh): a scan of ten million rows that converts each date to
# Hebrew beside the same scan with `extract(year from d)`, by one process and with two parallel workers. Each is run five times, and the
# shortest counts. Nothing else should run beside it. ROWS sets another number of rows; 10 statements take some three minutes.
set -eu
# shellcheck source=bindings/postgres/server.sh
. "$(dirname "${BASH_SOURCE[0]}")/../bindings/postgres/server.sh"
rows=${ROWS:-10000000}
need_server bench/postgres
make_room
build_extension
start_server "-c shared_buffers=1GB -c max_wal_size=4GB -c jit=off -c autovacuum=off"
run() {
  as_user "$bin/psql" -XAtq -v ON_ERROR_STOP=1 "$@"
}
run -c 'CREATE EXTENSION icu_calendar' \
  -c "CREATE UNLOGGED TABLE people AS SELECT date '1900-01-01' + (n * 7919 % 45000)::integer AS born FROM generate_series(1::bigint, $rows) AS n" \
  -c 'VACUUM ANALYZE people' -c 'SELECT count(born) FROM people' >/dev/null

# The shortest time of a statement in milliseconds, by so many workers beside the first process.
shortest() {
  for _ in 1 2 3 4 5; do
    run -c "SET max_parallel_workers_per_gather = $1" -c '\timing on' -c "$2"
  done | sed -n 's/^Time: \([0-9.]*\) ms.*/\1/p' | sort -n | head -n 1
}
# Measures an expression, and prints its nanoseconds a row beyond the same scan with `extract`, and which part of the time two workers need.
extracting=
measure() {
  local one two
  one=$(shortest 0 "SELECT count($1) FROM people")
  two=$(shortest 2 "SELECT count($1) FROM people")
  extracting=${extracting:-$one}
  awk -v name="$1" -v one="$one" -v two="$two" -v extracting="$extracting" -v rows="$rows" \
    'BEGIN { printf "%-44s %9.0f ms %9.0f ms %8.1f ns %6.2f\n", name, one, two, (one - extracting) * 1e6 / rows, two / one }'
}
printf '%-44s %12s %12s %11s %6s\n' "$rows rows" 'one process' 'two workers' 'more a row' 'part'
for expression in 'extract(year FROM born)' born "calendar_part('year', 'hebrew', born)" "calendar_part('year', 'chinese', born)" \
  "calendar_part('year', 'islamic-umalqura', born)" "calendar_part('year', 'iso', born)" "calendar_anniversary_key('hebrew', born)" \
  "calendar_text('hebrew', born)" "calendar_parts('hebrew', born)" "calendar_add(born, 'hebrew', 1)"; do
  measure "$expression"
done
