#!/usr/bin/env bash
# Tests the crate for Rust, offline: its tests, its examples and those of its docs, without `std` and without `alloc`, then its docs, clippy, the
# form of the code, and the tests once more under valgrind. Prints a note if cargo, clippy, rustfmt or valgrind is missing, and runs the rest;
# with CI=true that is a failure.
# ICU_CALENDAR_LIB may name an archive; otherwise bindings/c/build.sh makes it.
set -eu
top=$(cd "$(dirname "${BASH_SOURCE[0]}")/../.." && pwd)
. "$top/build/lacks.sh"
if ! command -v cargo >/dev/null; then
  lacks "everything, since there is no cargo"
  exit 0
fi
if [ -z "${ICU_CALENDAR_LIB:-}" ]; then
  "$top/bindings/c/build.sh" >/dev/null
fi
export CARGO_NET_OFFLINE=true RUSTFLAGS="-D warnings" RUSTDOCFLAGS="-D warnings"
cd "$top/bindings/rust/icu_calendar_proved"
# Features are added one by one: dates alone, with counted calendars, lists of holidays and rows, and with `std`.
cargo check --quiet --no-default-features
cargo check --quiet --no-default-features --features alloc
cargo test --quiet
cargo doc --quiet --no-deps
if cargo clippy --version >/dev/null 2>&1; then
  cargo clippy --quiet --all-targets -- -D warnings
  cargo clippy --quiet --manifest-path "$top/bench/from_rust/Cargo.toml" -- -D warnings
else
  lacks "what clippy tests, since there is no clippy"
fi
if cargo fmt --version >/dev/null 2>&1; then
  cargo fmt --check
  cargo fmt --check --manifest-path "$top/bench/from_rust/Cargo.toml"
else
  lacks "what rustfmt tests, since there is no rustfmt"
fi
if command -v valgrind >/dev/null; then
  # Each test is a program of its own, whose path cargo prints.
  for name in dates cases program; do
    program=$(cargo test --test "$name" --no-run 2>&1 | sed -n 's/.*Executable.*(\(.*\))$/\1/p')
    valgrind --quiet --error-exitcode=1 "$program" --quiet --test-threads=1 >/dev/null
  done
else
  lacks "what valgrind tests, since there is no valgrind"
fi
echo "bindings/rust/check: the crate for Rust agrees with the cases and with the program"
