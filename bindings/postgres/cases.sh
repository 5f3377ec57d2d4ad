#!/usr/bin/env bash
# Writes files of cases/, books/ and rows/ in the form that COPY reads, for the regression tests: `requests`, `lists`, `rules`, `books`, `holidays` or
# `rows`;
# or the `examples` of the table of functions in README.md, with their results.
set -eu
top=$(cd "$(dirname "${BASH_SOURCE[0]}")/../.." && pwd)
export LC_ALL=C

# The lines of a file, escaped for COPY. A text of PostgreSQL has no zero bytes, so another byte stands for them that is in no code either.
escaped() {
  tr '\000' '?' <"$1" | sed 's/\\/\\\\/g; s/\t/\\t/g; s/\r/\\r/g'
}

# The lines of a file, behind its name and their numbers.
numbered() {
  escaped "$2" | awk -v name="$1" '{ print name "\t" NR "\t" $0 }'
}

case $1 in
requests)
  for name in first_path arithmetic bags grammar solar hebrew hijri east_asian type1; do
    paste <(numbered "$name" "$top/cases/$name.in") <(escaped "$top/cases/$name.out")
  done
  ;;
lists) numbered lists "$top/cases/lists.jsonl" ;;
rules) numbered rules "$top/cases/rrule.jsonl" ;;
books) for book in "$top"/books/*.csv "$top"/books/countries/*.csv; do numbered "$(basename "$book" .csv)" "$book"; done ;;
holidays) for days in "$top"/books/expected/*.txt "$top"/books/expected/countries/*.txt; do numbered "$(basename "$days" .txt)" "$days"; done ;;
examples)
  # The columns: the function, what it returns, an example, and its result, each in backquotes.
  awk -F ' [|] ' 'NF == 4 && /^[|] `/ { sub(/ [|]$/, "", $4); print substr($3, 2, length($3) - 2) "\t" substr($4, 2, length($4) - 2) }' \
    "$top/bindings/postgres/README.md"
  ;;
rows) for rows in "$top"/rows/*.rows; do numbered "$(basename "$rows" .rows)" "$rows"; done ;;
esac
