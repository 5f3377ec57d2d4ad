# shellcheck shell=bash
# For the scripts that test: `lacks TEXT` prints that a part isn't tested and, with CI=true, fails. build/needs.sh installs what is missing.

lacks() {
  echo "$(basename "$(dirname "$0")")/$(basename "$0" .sh): not tested: $1 (build/needs.sh --install)" >&2
  if [ "${CI:-}" = true ]; then
    exit 1
  fi
}
