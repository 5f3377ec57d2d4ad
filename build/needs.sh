#!/usr/bin/env bash
# Names Debian's packages of build/needs.txt that aren't installed. With `--install`, installs them by apt (as root); with `--check`, the status
# is 1 if one is missing. A program that is on the path from elsewhere, such as cargo, counts as installed.
set -eu
here=$(cd "$(dirname "${BASH_SOURCE[0]}")" && pwd)
# Packages whose program is enough, wherever it comes from.
programs=' gcc g++ cargo valgrind parallel shellcheck mypy make '

is_there() {
  case $programs in *" $1 "*) command -v "$1" >/dev/null && return ;; esac
  case $1 in
    nodejs) command -v node >/dev/null && return ;;
    chromium) { command -v chromium || command -v google-chrome; } >/dev/null && return ;;
  esac
  [ "$(dpkg-query --show --showformat '${db:Status-Status}' "$1" 2>/dev/null)" = installed ]
}

missing=()
while read -r name _; do
  case $name in '' | '#'*) continue ;; esac
  is_there "$name" || missing+=("$name")
done <"$here/needs.txt"

if [ ${#missing[@]} -eq 0 ]; then
  echo "build/needs: nothing is missing"
  exit 0
fi
echo "build/needs: missing: ${missing[*]}"
case ${1:-} in
  --install)
    DEBIAN_FRONTEND=noninteractive
    export DEBIAN_FRONTEND
    apt-get update -qq
    apt-get install --yes --no-install-recommends "${missing[@]}"
    ;;
  --check) exit 1 ;;
esac
