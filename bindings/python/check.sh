#!/usr/bin/env bash
# Tests the Python package: its types by mypy, its tests, and a wheel that is installed into a fresh virtual environment without an index, where
# the lines of its README run. $PYTHON is the Python (default python3); with NumPy and pandas their tests run, too. What is missing is named, and
# with CI=true that is a failure.
set -eu
top=$(cd "$(dirname "${BASH_SOURCE[0]}")/../.." && pwd)
. "$top/build/lacks.sh"
here=$top/bindings/python

# The first Python that has NumPy, or else the first one.
for python in "${PYTHON:-}" python3 /usr/bin/python3; do
  [ -n "$python" ] && "$python" -c 'import numpy' 2>/dev/null && break
  python=python3
done
if ! command -v "$python" >/dev/null; then
  lacks "everything, since there is no $python"
  exit 0
fi
if [ -z "${ICU_CALENDAR_LIBRARY:-}" ]; then
  ICU_CALENDAR_LIBRARY=$("$top/bindings/c/build.sh" | tail -n 1)
fi
export ICU_CALENDAR_LIBRARY
for name in numpy pandas; do
  "$python" -c "import $name" 2>/dev/null || lacks "columns, since $python has no $name"
done
"$python" -c 'import icalendar' 2>/dev/null || lacks "iCalendar files by another reader, since $python has no icalendar"
if command -v mypy >/dev/null; then
  (cd "$here" && mypy --config-file pyproject.toml icu_calendar)
else
  lacks "types, since there is no mypy"
fi
PYTHONPATH=$here "$python" -m unittest discover -s "$here/tests" -q

room=$(mktemp -d)
trap 'rm -rf "$room"' EXIT
if "$python" -c 'import ensurepip, setuptools, wheel' 2>/dev/null; then
  "$python" -m venv --system-site-packages "$room/venv"
  # A copy, so that the build leaves nothing beside the sources. The library is named, and then in the wheel.
  cp -r "$here" "$room/package"
  extras=
  if "$python" -c 'import dask, distributed, numpy, pandas' 2>/dev/null; then
    extras='[arrays,pandas,dask]'
  else
    lacks "the extras of the wheel, since $python has no NumPy, pandas, Dask or distributed"
  fi
  "$room/venv/bin/pip" install --quiet --no-index --no-build-isolation "$room/package$extras"
  "$room/venv/bin/pip" wheel --quiet --no-deps --no-index --no-build-isolation --wheel-dir "$room" "$room/package"
  # From here on only the installed package is there.
  unset ICU_CALENDAR_LIBRARY
  cd "$room"
  "$room/venv/bin/python" - "$here/README.md" <<'LINES'
import doctest
import importlib.util
import sys

import icu_calendar
import icu_calendar.library

assert icu_calendar.__file__.startswith(sys.prefix), icu_calendar.__file__
assert icu_calendar.library.library._name.startswith(sys.prefix), icu_calendar.library.library._name
have = all(importlib.util.find_spec(it) for it in ("numpy", "pandas"))
result = doctest.testfile(sys.argv[1], module_relative=False) if have else doctest.TestResults(0, 1)
sys.exit(result.failed or not result.attempted)
LINES
  # The wheel alone, where there is no other library.
  "$python" -m venv "$room/plain"
  "$room/plain/bin/pip" install --quiet --no-index "$room"/*.whl
  "$room/plain/bin/python" - <<'LINES'
import importlib.util

from icu_calendar import Date

assert importlib.util.find_spec("numpy") is None
assert Date.of_fields("chinese", year=2024, month=1, day=1).isoformat() == "2024-02-10[u-ca=chinese]"
LINES
else
  lacks "the wheel, since $python has no ensurepip, setuptools or wheel"
fi
echo "bindings/python/check: the Python module agrees with the cases"
