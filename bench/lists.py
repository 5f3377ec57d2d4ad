#!/usr/bin/env python3
"""Measures the built program on long lists of days: items a second, of the best of some runs.

The lists are the first days of all years from -999999 to 999999, in ISO and in Hebrew, and a million months from the last day of a January on. The
lists of `recur` also as rules of iCalendar, with others: fourth Thursdays and last days of months. Where Python has dateutil, it lists the same rules
from year 1 to 9999.
"""

import subprocess
import sys
import time
from datetime import datetime
from pathlib import Path

try:
    from dateutil.rrule import rrulestr
except ImportError:
    rrulestr = None

TOP = Path(__file__).resolve().parent.parent
# The script builds the program where a source is newer; what it built is run without it.
BUILD = [str(TOP / "calspan"), "span"]
PROGRAM = str(TOP / "crates/calspan/out/calspan")
# All valid days, and a million months from -50000-01-31 on.
ALL, MONTHS = "-365242499 365242134", "-18262460 12174383"
LISTS = [
    f"anniversary iso iso exact M01 1 {ALL}",
    f"anniversary hebrew hebrew exact M01 1 {ALL}",
    f"recur iso iso months 1 constrain {MONTHS} year=-50000 month=M01 day=31",
    f"rrule iso iso {MONTHS} year=-50000 month=M01 day=31 FREQ=MONTHLY;SKIP=BACKWARD",
    f"recur iso iso weeks 1 skip {MONTHS} year=-50000 month=M01 day=31",
    f"rrule iso iso {MONTHS} year=-50000 month=M01 day=31 FREQ=WEEKLY",
    f"recur iso iso years 1 skip {ALL} year=-999999 month=M01 day=1",
    f"rrule iso iso {ALL} year=-999999 month=M01 day=1 FREQ=YEARLY",
    f"rrule iso iso {ALL} year=-999999 month=M01 day=1 FREQ=YEARLY;BYMONTH=11;BYDAY=4TH",
    f"rrule hebrew hebrew {ALL} -365242499 FREQ=YEARLY;BYMONTH=11;BYDAY=4TH",
    f"rrule chinese chinese {ALL} -365242499 FREQ=YEARLY;BYMONTH=11;BYDAY=4TH",
    f"rrule iso iso {MONTHS} -18262460 FREQ=MONTHLY;BYMONTHDAY=-1",
    f"rrule hebrew hebrew {MONTHS} -18262460 FREQ=MONTHLY;BYMONTHDAY=-1",
    f"rrule chinese chinese {MONTHS} -18262460 FREQ=MONTHLY;BYMONTHDAY=-1",
]
# The days of `datetime`, 0001-01-01 to 9999-12-31.
FIRST, LAST = 1, 3652059
BESIDE = ["FREQ=YEARLY;BYMONTH=11;BYDAY=4TH", "FREQ=MONTHLY;BYMONTHDAY=-1", "FREQ=WEEKLY", "FREQ=YEARLY"]
ROUNDS = 5
CHUNK = 1 << 20


def size(words: list[str]) -> tuple[int, int]:
    """How many items and bytes the list has."""
    items = written = 0
    with subprocess.Popen([PROGRAM, *words], stdin=subprocess.DEVNULL, stdout=subprocess.PIPE) as run:
        while chunk := run.stdout.read(CHUNK):
            items, written = items + chunk.count(b"\n"), written + len(chunk)
    if run.returncode:
        raise SystemExit(f"{' '.join(words)}: status {run.returncode}")
    return items, written


def seconds(words: list[str]) -> float:
    start = time.perf_counter()
    subprocess.run([PROGRAM, *words], stdin=subprocess.DEVNULL, stdout=subprocess.DEVNULL, check=True)
    return time.perf_counter() - start


def measure(line: str) -> float:
    """Prints how fast the list is, and returns its items a second."""
    words = line.split()
    items, written = size(words)
    best = min(seconds(words) for _ in range(ROUNDS))
    print(f"{line}: {items} items, {written} bytes: {best:.3f} s, the best of {ROUNDS}")
    print(f"  {items / best:,.0f} items a second, {written / best / 1e6:.0f} MB a second", flush=True)
    return items / best


def beside_dateutil(rule: str) -> None:
    """Prints how fast dateutil lists the days of a rule, beside the program's list, which also writes the dates."""
    here = measure(f"rrule gregorian iso {FIRST} {LAST} {FIRST} {rule}")
    start = time.perf_counter()
    items = sum(1 for _ in rrulestr(rule, dtstart=datetime(1, 1, 1)))
    there = items / (time.perf_counter() - start)
    print(f"  dateutil: {items} items, {there:,.0f} items a second; here {here / there:.0f} times as many")


def main() -> int:
    subprocess.run(BUILD, stdin=subprocess.DEVNULL, check=False)
    for line in LISTS:
        measure(line)
    for rule in BESIDE if rrulestr else []:
        beside_dateutil(rule)
    return 0


if __name__ == "__main__":
    sys.exit(main())
