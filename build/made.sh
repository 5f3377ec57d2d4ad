# shellcheck shell=bash
# For the scripts that build: whether what was made of a crate is fresh, and runs of commands that end when the script is ended.
# `top` is the folder of the checkout.
: "${top:?}"

# Prints the lines of crates.txt of a crate and of all that it stands on, without comments. A library stands before those above it.
lines_below() {
  local wanted=" $1 " lines line place
  mapfile -t lines <"$top/crates.txt"
  for ((place = ${#lines[@]} - 1; place >= 0; place--)); do
    line=${lines[place]%%#*}
    if [[ $line == *:* && $wanted == *" ${line%%[ :]*} "* ]]; then
      wanted+="${line#*:} "
      echo "$line"
    fi
  done
}

# Whether MADE is newer than the files of CRATE and of all that it stands on, and their lines in crates.txt are those of its build.
is_fresh() {
  local made=$1 lines folders=() line
  [ -f "$made" ] || return 1
  lines=$(lines_below "$2")
  if [ -f "$made.lines" ]; then
    [ "$lines" = "$(<"$made.lines")" ] || return 1
  elif [ "$top/crates.txt" -nt "$made" ]; then
    return 1
  fi
  while read -r line; do
    folders+=("$top/crates/${line%%[ :]*}"/{src,specs,proofs})
  done <<<"$lines"
  [ -z "$(find "${folders[@]}" -type f -newer "$made" -print -quit 2>/dev/null)" ]
}

# Runs a command, and ends it when a signal ends this script. Returns its status.
attended() {
  local child status caught=
  # Without job control a command in the background has no standard input, unless one is named. The subshell is replaced by the command.
  "$@" <&0 &
  child=$!
  trap 'caught=TERM; kill -s TERM "$child" 2>/dev/null' TERM
  trap 'caught=INT; kill -s TERM "$child" 2>/dev/null' INT
  trap 'caught=HUP; kill -s TERM "$child" 2>/dev/null' HUP
  wait "$child"
  status=$?
  if [ -n "$caught" ]; then
    wait "$child" 2>/dev/null
    trap - TERM INT HUP
    kill -s "$caught" $$
  fi
  trap - TERM INT HUP
  return "$status"
}

# Builds CRATE unless MADE is fresh: make_fresh MADE CRATE OPTION... A file that changes during the build is newer than what is made.
make_fresh() {
  local made=$1 crate=$2 began lines
  ! is_fresh "$made" "$crate" || return 0
  printf -v began '%(%s)T' -1
  lines=$(lines_below "$crate")
  attended python3 "$top/build/program.py" "${@:3}" "$crate" || return
  [ -f "$made" ] && touch -d "@$began" "$made" && echo "$lines" >"$made.lines"
}
