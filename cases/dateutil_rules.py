#!/usr/bin/python3
"""Compares the built program's `rrule gregorian` with dateutil (python3-dateutil) on some thousands of seeded rules with windows: days and indices.

Rules that dateutil understands otherwise, or gets wrong, aren't made:

- BYWEEKNO without BYDAY, BYMONTHDAY and BYYEARDAY: dateutil takes all seven days of the week, and not the start's weekday.
- BYWEEKNO with INTERVAL or BYSETPOS: dateutil counts calendar years, and not years of weeks.
- BYDAY with and without numbers in one list: dateutil takes the days that are in both parts, and not in either.
- WEEKLY with BYSETPOS: dateutil begins the first week at the start.
- BYDAY with a number above 5 in a month: dateutil fails.

With BYWEEKNO, days within a week of a year's ends aren't compared: dateutil counts the weeks of the year before with this year's length, and knows of
the next year's weeks only the first, by the number 1. So such rules have no COUNT, and their indices aren't compared. A rule without occurrences takes
dateutil to the year 9999; what takes it too long is left out, and counted.
"""

import argparse
import random
import signal
import subprocess
import sys
from concurrent.futures import ProcessPoolExecutor
from datetime import date, datetime
from pathlib import Path
from typing import NamedTuple

from dateutil.rrule import rrulestr

TOP = Path(__file__).resolve().parent.parent
PROGRAM = str(TOP / "crates/calspan/out/calspan")
SEED = 20260701
COUNT = 3000
# Seconds of the processor that dateutil may take for a rule.
MOST_SECONDS = 0.2
WEEKDAYS = ["MO", "TU", "WE", "TH", "FR", "SA", "SU"]
# How many days a window has at most, and how far from the start it begins.
LENGTHS = {"YEARLY": 12_000, "MONTHLY": 3000, "WEEKLY": 1000, "DAILY": 500}
FIRST_START, LAST_START = date(1600, 1, 1).toordinal(), date(2399, 12, 31).toordinal()
AT_AN_END = 7

Item = tuple[int, int]


class Case(NamedTuple):
    rule: str
    start: int
    first: int
    last: int

    def __str__(self) -> str:
        return f"rrule gregorian iso {self.first} {self.last} {self.start} '{self.rule}'"


class TooLong(Exception):
    pass


def signed(chance: random.Random, most: int) -> int:
    return chance.choice([1, 1, -1]) * chance.randint(1, most)


def some(chance: random.Random, most: int, count: int = 3) -> str:
    """A list of numbers of either sign."""
    return ",".join(str(signed(chance, most)) for _ in range(chance.randint(1, count)))


def weekdays(chance: random.Random, most: int) -> str:
    """A list of weekdays, all of them with a number up to this one, or none."""
    chosen = chance.sample(WEEKDAYS, chance.randint(1, 3))
    return ",".join(f"{signed(chance, most)}{it}" if most else it for it in chosen)


def by_parts(chance: random.Random, frequency: str) -> dict[str, str]:
    """Some BY-parts that the frequency allows."""
    parts: dict[str, str] = {}
    if chance.random() < 0.35:
        parts["BYMONTH"] = ",".join(map(str, chance.sample(range(1, 13), chance.randint(1, 4))))
    if frequency != "WEEKLY" and chance.random() < 0.35:
        parts["BYMONTHDAY"] = some(chance, 31, 6)
    if frequency == "YEARLY" and chance.random() < 0.25:
        parts["BYYEARDAY"] = some(chance, 366, 12)
    if frequency == "YEARLY" and chance.random() < 0.2:
        parts["BYWEEKNO"] = some(chance, 53, 4)
    if chance.random() < 0.45:
        in_month = frequency == "MONTHLY" or "BYMONTH" in parts
        has_number = frequency in ("YEARLY", "MONTHLY") and "BYWEEKNO" not in parts and chance.random() < 0.5
        parts["BYDAY"] = weekdays(chance, (5 if in_month else 53) if has_number else 0)
    if "BYWEEKNO" in parts and parts.keys().isdisjoint({"BYDAY", "BYMONTHDAY", "BYYEARDAY"}):
        parts["BYDAY"] = weekdays(chance, 0)
    if parts and frequency != "WEEKLY" and "BYWEEKNO" not in parts and chance.random() < 0.3:
        parts["BYSETPOS"] = some(chance, 6)
    return parts


def case_of(chance: random.Random) -> Case:
    frequency = chance.choice(["YEARLY", "YEARLY", "MONTHLY", "MONTHLY", "WEEKLY", "DAILY"])
    parts = {"FREQ": frequency, **by_parts(chance, frequency)}
    if "BYWEEKNO" not in parts and chance.random() < 0.4:
        parts["INTERVAL"] = str(chance.choice([2, 3, 4, 5, 7, 10, 13, 40]))
    if chance.random() < 0.3:
        parts["WKST"] = chance.choice(WEEKDAYS)
    start, length = chance.randint(FIRST_START, LAST_START), LENGTHS[frequency]
    first = start + chance.randint(-length // 4, length)
    last = first + chance.randint(0, length)
    end = chance.random()
    if end < 0.2 and "BYWEEKNO" not in parts:
        parts["COUNT"] = str(chance.randint(1, 60))
    elif end < 0.4:
        parts["UNTIL"] = date.fromordinal(max(1, last + chance.randint(-length, length // 8))).strftime("%Y%m%d")
    names = list(parts)
    chance.shuffle(names)
    return Case(";".join(f"{it}={parts[it]}" for it in names), start, first, last)


def stop(number: int, frame: object) -> None:
    raise TooLong


def by_dateutil(case: Case) -> "list[Item] | None":
    """The occurrences that dateutil finds, or None if that takes too long."""
    found: list[Item] = []
    signal.signal(signal.SIGVTALRM, stop)
    signal.setitimer(signal.ITIMER_VIRTUAL, MOST_SECONDS)
    try:
        start = datetime.combine(date.fromordinal(case.start), datetime.min.time())
        for index, moment in enumerate(rrulestr(case.rule, dtstart=start)):
            day = moment.toordinal()
            if day > case.last:
                break
            if day >= case.first:
                found.append((index, day))
    except TooLong:
        return None
    finally:
        signal.setitimer(signal.ITIMER_VIRTUAL, 0)
    return found


def by_program(program: str, case: Case) -> list[Item]:
    words = [program, "rrule", "gregorian", "iso", str(case.first), str(case.last), str(case.start), case.rule]
    run = subprocess.run(words, stdin=subprocess.DEVNULL, capture_output=True, text=True, timeout=60, check=False)
    if run.returncode or run.stderr:
        raise SystemExit(f"{case}: status {run.returncode}, {run.stdout[:80]!r}, {run.stderr[:80]!r}")
    return [(int(line.split(" ", 1)[0]), int(line.rsplit("@", 1)[1])) for line in run.stdout.splitlines()]


def is_inside(day: int) -> bool:
    """Whether a day isn't within a week of its year's ends."""
    return all(date.fromordinal(it).year == date.fromordinal(day).year for it in (day - AT_AN_END, day + AT_AN_END))


def compared(case: Case, items: list[Item]) -> list[Item]:
    """What is compared of a rule's occurrences."""
    return [(0, day) for _, day in items if is_inside(day)] if "BYWEEKNO" in case.rule else items


def outcome(program: str, case: Case) -> "tuple[str, int]":
    """What differs, if anything, and how many items agree, -1 if dateutil takes too long."""
    theirs = by_dateutil(case)
    if theirs is None:
        return "", -1
    wanted, got = compared(case, theirs), compared(case, by_program(program, case))
    if wanted == got:
        return "", len(got)
    place = next((at for at, (a, b) in enumerate(zip(wanted, got)) if a != b), min(len(wanted), len(got)))
    return f"{case}\n  dateutil {wanted[place : place + 3]}\n  program  {got[place : place + 3]}", 0


def main() -> int:
    arguments = argparse.ArgumentParser(description=__doc__, formatter_class=argparse.RawDescriptionHelpFormatter)
    arguments.add_argument("--program", default=PROGRAM, help="compare this program, in place of the built one")
    arguments.add_argument("--count", type=int, default=COUNT, help="how many rules (default: %(default)s)")
    arguments.add_argument("--seed", type=int, default=SEED, help="another seed makes other rules (default: %(default)s)")
    given = arguments.parse_args()
    chance = random.Random(given.seed)
    cases = [case_of(chance) for _ in range(given.count)]
    with ProcessPoolExecutor() as pool:
        outcomes = list(pool.map(outcome, [given.program] * len(cases), cases, chunksize=50))
    differing = [it for it, _ in outcomes if it]
    for it in differing[:10]:
        print(it, file=sys.stderr)
    counts = [count for _, count in outcomes]
    items, occurring = sum(it for it in counts if it > 0), sum(it > 0 for it in counts)
    print(f"dateutil: {len(cases)} rules, {occurring} with occurrences, {items} of them; {len(differing)} rules differ, {counts.count(-1)} took too long")
    return int(bool(differing))


if __name__ == "__main__":
    sys.exit(main())
