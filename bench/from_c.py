#!/usr/bin/env python3
"""Compares a conversion from C with one in Rattle: nanoseconds to show a day in a calendar, by `icu_calendar_date_of_day` and by the operation
`day` of `dates_bench`, which turns the day number into fields and back.

The C call answers all that a date says, its era or cycle among it, where `day` reads the year, the month and the day. Both programs are run in
turns with two counts, as bench/operations.py has it, and the least time of each counts. Build them first: `rt run -- day iso 1000` in
crates/dates_bench, and bindings/c/build.sh.
"""

import argparse
import os
import shutil
import subprocess
import sys
import tempfile
from pathlib import Path

from operations import ALL_CALENDARS, FEW, LIKE_OTHERS, MANY, PROGRAM, ROUNDS, seconds

TOP = Path(__file__).resolve().parent.parent
LIBRARY = TOP / "crates/icu_calendar_c"
# The place of a calendar's name is its code. Leap years of both types take the same.
CODES = {name: code for code, name in enumerate(ALL_CALENDARS) if name not in LIKE_OTHERS | {"islamic-type1-friday"}}
# What a conversion from C may take more.
MOST = 20.0


def heap() -> Path:
    """The toolchain's functions over malloc, realloc and free."""
    rt = shutil.which("rt")
    if not rt:
        sys.exit("the toolchain's command rt is not on the PATH")
    return Path(rt).resolve().parent.parent / "c/liblibc_c.a"


def compiled(archive: Path, folder: Path) -> Path:
    program = folder / "from_c"
    words = ["-std=c11", "-O2", "-I", TOP / "bindings/c/include", TOP / "bench/from_c.c", archive, heap(), "-o", program]
    subprocess.run([os.environ.get("CC", "cc"), *words], check=True)
    return program


def both(rattle: Path, c: Path, calendar: str, given: argparse.Namespace) -> tuple[float, float]:
    """Nanoseconds of a conversion in Rattle and from C, the two measured in turns."""
    runs = {(program, words): [] for program, words in ((rattle, ("day", calendar)), (c, (str(CODES[calendar]),)))}
    least: dict[tuple, dict[int, float]] = {key: {} for key in runs}
    for _ in range(given.rounds):
        for count in (given.few, given.many):
            sums = set()
            for key in runs:
                taken, checksum = seconds(key[0], *key[1], count)
                least[key][count] = min(taken, least[key].get(count, taken))
                sums.add(checksum)
            if len(sums) != 1:
                sys.exit(f"{calendar} {count}: the checksums differ")
    of_rattle, of_c = ((it[given.many] - it[given.few]) / (given.many - given.few) * 1e9 for it in least.values())
    return of_rattle, of_c


def main() -> int:
    arguments = argparse.ArgumentParser(description=__doc__, formatter_class=argparse.RawDescriptionHelpFormatter)
    arguments.add_argument("--program", type=Path, default=PROGRAM, help="the built dates_bench (default: %(default)s)")
    arguments.add_argument("--archive", type=Path, default=LIBRARY / "out/libicu_calendar_c.a", help="the library (default: %(default)s)")
    arguments.add_argument("--few", type=int, default=FEW, help="the smaller count (default: %(default)s)")
    arguments.add_argument("--many", type=int, default=MANY, help="the larger count (default: %(default)s)")
    arguments.add_argument("--rounds", type=int, default=ROUNDS, help="of how many runs the best counts (default: %(default)s)")
    given = arguments.parse_args()
    worst = 0.0
    with tempfile.TemporaryDirectory() as room:
        program = compiled(given.archive, Path(room))
        print("| Calendar | in Rattle | from C | more |\n|---|---:|---:|---:|")
        for calendar in CODES:
            of_rattle, of_c = both(given.program, program, calendar, given)
            worst = max(worst, of_c - of_rattle)
            print(f"| `{calendar}` | {of_rattle:.1f} | {of_c:.1f} | {of_c - of_rattle:.1f} |", flush=True)
    print(f"\nAt most {worst:.1f} ns more from C; the aim is {MOST:.0f}.")
    return int(worst > MOST)


if __name__ == "__main__":
    sys.exit(main())
