#!/usr/bin/env python3
"""Runs a benchmark by its name, with the options that follow; `--help` behind a name lists them.

- `operations`: operations on dates in each calendar, in nanoseconds (build first: `rt run -- day iso 1000` in crates/dates_bench).
- `requests`: requests a second of the program, and instructions for each.
- `lists`: items a second of long lists of days, and of recurrence rules beside dateutil (for that, run it by /usr/bin/python3).
- `holidays`: a book of a hundred rules over a century.
- `from_c`: a conversion from C beside the same in Rattle (build first: the above, and bindings/c/build.sh).
- `arrays`: columns of dates from C and in NumPy beside the loop in Rattle (build first: the same).
- `beside`: columns in NumPy beside libraries of Python that Debian has (run it by /usr/bin/python3).
- `from_rust`: a conversion, a sum and a difference from Rust beside the same in Rattle (build first: the same).

Nothing else should run beside it.
"""

import importlib
import sys
from pathlib import Path

NAMES = ["operations", "requests", "lists", "holidays", "from_c", "arrays", "beside", "from_rust"]


def main() -> int:
    name = sys.argv[1] if len(sys.argv) > 1 else ""
    if name not in NAMES:
        print(__doc__)
        return 2
    sys.path.insert(0, str(Path(__file__).resolve().parent))
    del sys.argv[1]
    return importlib.import_module(name).main()


if __name__ == "__main__":
    sys.exit(main())
