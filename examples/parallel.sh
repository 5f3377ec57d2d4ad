#!/usr/bin/env bash
# Answers lines on all processors, in their order, with GNU parallel: examples/parallel.sh [ROWS..] < LINES
# COMMAND is `span`, or a `convert` with its words. Each block of lines is a run of its own, behind the row lines of the files ROWS, and the
# status is the greatest of these runs. The number in `err line N` counts in the run: the row lines first, then the lines of the block
# (docs/MANUAL.md). CALSPAN is another program in place of ./calspan. BLOCK is the size of a block: by default a file is cut evenly, for
# `span` into blocks of at most 14 MB, which leaves room for rows.
set -u
top=$(cd "$(dirname "${BASH_SOURCE[0]}")/.." && pwd)
[[ ${COMMAND-} == convert* ]] && is_convert=1 || is_convert=0
most=14000000
least=1000000
room=$(mktemp -d) || exit 70
trap 'rm -rf "$room"' EXIT
export ROWS=$room/rows
cat "$@" </dev/null >"$ROWS" || exit 2
# The first run builds the program where it must; the others need no script.
export COMMAND=${COMMAND:-span}
# shellcheck disable=SC2086
"${CALSPAN:-$top/calspan}" $COMMAND <"$ROWS" || exit
export CALSPAN=${CALSPAN:-$top/crates/calspan/out/calspan}

# Answers the lines of a block. An empty line ends the rows of `convert`, so that no line of the block is taken for one; its answer is dropped.
# COMMAND is several words.
# shellcheck disable=SC2086
answer() {
  set -o pipefail
  case $COMMAND in
    convert*) cat "$ROWS" <(echo) - | "$CALSPAN" $COMMAND | tail -n +2 ;;
    *) cat "$ROWS" - | "$CALSPAN" $COMMAND ;;
  esac
}
export -f answer

# A file is read in parts, each by the run that answers it, if nothing of it is read yet. Any other input is cut by one process.
if [ -f /dev/stdin ] && grep -q '^pos:[[:space:]]*0$' /proc/self/fdinfo/0; then
  part=$(($(stat -L -c %s /dev/stdin) / $(nproc) + 1))
  block=$((part > most && ! is_convert ? most : part < least ? least : part))
  how=(--pipepart --arg-file "/proc/$$/fd/0")
else
  block=$most
  how=(--pipe)
fi
PARALLEL_SHELL=$BASH parallel --will-cite "${how[@]}" --keep-order --block "${BLOCK:-$block}" --joblog "$room/log" answer
[ $? -le 101 ] || exit 70
awk 'NR > 1 { it = $8 ? 128 + $8 : $7 } it > most { most = it } END { exit most }' "$room/log"
