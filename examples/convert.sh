#!/usr/bin/env bash
# Shows one date in another calendar, with the published years of rows/:
#   examples/convert.sh CALENDAR SHOWN KEY=VALUE..
# The program takes two dates a request; this gives it the same one twice, and prints the date in the calendar SHOWN, or the refusal.
set -u
top=$(cd "$(dirname "${BASH_SOURCE[0]}")/.." && pwd)
[ $# -ge 3 ] || { echo 'usage: examples/convert.sh CALENDAR SHOWN KEY=VALUE..' >&2; exit 2; }
fields="${*:3}"
answer=$({ cat "$top"/rows/*.rows; echo "span $1 $2 none reject none from $fields to $fields"; } | "$top/calspan" span)
status=$?
case $answer in
  'ok '*) read -r _ _ shown _ <<<"$answer" && echo "$shown" ;;
  *) echo "$answer" ;;
esac
exit "$status"
