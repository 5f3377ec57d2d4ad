#!/usr/bin/env python3
"""Compares columns of dates: nanoseconds a date to show days in a calendar, and to compute differences in years, by

- the loop of the operation `day` or `difference` of `dates_bench` in Rattle, in the calendar's own type (`published-day` over published years);
- the call on one date from C, over and over;
- the call on columns from C, in columns of 10000, whose days are computed as in Rattle and whose answers stay in the cache, and of a million;
- NumPy, a column of a million, with the memory for its answers.

Rattle's `difference` makes the dates of both days first, as the calls do. Programs are run in turns with two counts, as bench/operations.py has
it, and the least time of each counts. The aims: a column from C takes at most 1.1 of the loop in Rattle, and NumPy at most 1.3 of the column of a
million from C. Build first: `rt run -- day iso 1000` in crates/dates_bench, and bindings/c/build.sh; run it with a Python that has NumPy.
"""

import argparse
import os
import subprocess
import sys
import tempfile
import time
from pathlib import Path

from from_c import LIBRARY, heap
from operations import PROGRAM, seconds

TOP = Path(__file__).resolve().parent.parent
# A calendar's code, whether its years are published, and the operations of `dates_bench` with their calendars. Differences are compared with those
# over computed years: few of the days lie in published ones, and between published years Rattle compares the tables of both dates, too.
CALENDARS = {
    "iso": (13, 0, ("day", "iso"), ("difference", "iso")),
    "hebrew": (7, 0, ("day", "hebrew"), ("difference", "hebrew")),
    "islamic-civil": (9, 0, ("day", "islamic-civil"), ("difference", "islamic-civil")),
    "chinese, published": (1, 1, ("published-day", "chinese-published"), ("difference", "chinese")),
}
SHORT, LONG = 10_000, 1_000_000
FEW, MANY, ROUNDS = 1_000_000, 6_000_000, 5
MOST_OF_RATTLE, MOST_OF_C = 1.1, 1.3


def compiled(archive: Path, folder: Path) -> Path:
    program = folder / "arrays"
    words = ["-std=c11", "-O2", "-I", TOP / "bindings/c/include", TOP / "bench/arrays.c", archive, heap(), "-o", program]
    subprocess.run([os.environ.get("CC", "cc"), *words], check=True)
    return program


def nanoseconds(runs: dict, given: argparse.Namespace) -> dict:
    """Nanoseconds for each of some programs and their words, in turns."""
    least: dict = {key: {} for key in runs}
    for _ in range(given.rounds):
        for key, (program, before, behind) in runs.items():
            for count in (FEW, MANY):
                taken, _ = seconds(program, *before, count, *behind)
                least[key][count] = min(taken, least[key].get(count, taken))
    return {key: (it[MANY] - it[FEW]) / (MANY - FEW) * 1e9 for key, it in least.items()}


def of_numpy(calendar: int, years: int, rounds: int) -> "tuple[float, float]":
    """Nanoseconds a date in NumPy: days shown, and differences in years."""
    import numpy as np

    sys.path.insert(0, str(TOP / "bindings/python"))
    from icu_calendar import arrays

    turns = np.arange(LONG, dtype=np.int64)
    pairs = 600000 + turns * 7919 % 300000
    days = 698100 + turns * 7919 % 67800 if years else pairs
    others = pairs * 2 // 3

    def least(call) -> float:
        taken = []
        for _ in range(3 * rounds):
            begun = time.process_time()
            call()
            taken.append(time.process_time() - begun)
        return min(taken) / LONG * 1e9

    return least(lambda: arrays.dates(days, calendar, years)), least(lambda: arrays.until(others, pairs, calendar, "years", years))


def main() -> int:
    arguments = argparse.ArgumentParser(description=__doc__, formatter_class=argparse.RawDescriptionHelpFormatter)
    arguments.add_argument("--program", type=Path, default=PROGRAM, help="the built dates_bench (default: %(default)s)")
    arguments.add_argument("--archive", type=Path, default=LIBRARY / "out/libicu_calendar_c.a", help="the library (default: %(default)s)")
    arguments.add_argument("--rounds", type=int, default=ROUNDS, help="of how many runs the best counts (default: %(default)s)")
    given = arguments.parse_args()
    misses = 0
    with tempfile.TemporaryDirectory() as room:
        program = compiled(given.archive, Path(room))
        print("| Calendar | Work | Rattle | one by one | columns of 10000 | of Rattle | of a million | NumPy | of C |")
        print("|---|---|---:|---:|---:|---:|---:|---:|---:|")
        for name, (code, years, *operations) in CALENDARS.items():
            numpy = of_numpy(code, years, given.rounds)
            for work, operation, one, many, in_numpy in zip(("days", "differences"), operations, ("day", "until"), ("days", "untils"), numpy):
                runs = {
                    "rattle": (given.program, operation, ()),
                    "one": (program, (one, code, years), (SHORT,)),
                    "short": (program, (many, code, years), (SHORT,)),
                    "long": (program, (many, code, years), (LONG,)),
                }
                it = nanoseconds(runs, given)
                of_rattle, of_c = it["short"] / it["rattle"], in_numpy / it["long"]
                misses += (of_rattle > MOST_OF_RATTLE) + (of_c > MOST_OF_C)
                figures = f"{it['rattle']:.1f} | {it['one']:.1f} | {it['short']:.1f} | {of_rattle:.2f} | {it['long']:.1f} | {in_numpy:.1f} | {of_c:.2f}"
                print(f"| `{name}` | {work} | {figures} |", flush=True)
    print(f"\n{misses} figures miss the aims ({MOST_OF_RATTLE} of Rattle, {MOST_OF_C} of C).")
    return int(misses > 0)


if __name__ == "__main__":
    sys.exit(main())
