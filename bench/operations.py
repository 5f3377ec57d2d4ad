#!/usr/bin/env python3
"""Measures the calendars' operations one by one: nanoseconds for each operation and calendar.

A sum is measured on the date of a day number, and turned back into one, so what `day` takes is taken off; a difference is
measured between the dates of two day numbers, so what `pair` takes is taken off. One item of a list of anniversaries is
measured: each turn takes the next one, and a turn that finds the list's end begins it again, one of some 820, or of some 185
in published years. A published year is compared with a computed one by `published-day` and `published-anniversary`, whose
days lie in published years alone, in a calendar with its table and in the same one without: of the days of `day` and
`anniversary` less than a quarter lie in published Chinese and Korean years, and a good third in Umm al-Qura ones.

The program is run with two counts, and the difference of the times is divided by the difference of the counts, so that what
it takes to start doesn't count. The times are those that a processor worked for the program, without those in which it waited
for one. The program takes an operation, a calendar and a count, and prints a checksum.
"""

import argparse
import resource
import subprocess
import sys
from pathlib import Path

TOP = Path(__file__).resolve().parent.parent
sys.path.insert(0, str(TOP / "cases"))

from calendars import CALENDARS as ALL_CALENDARS  # noqa: E402

PROGRAM = TOP / "crates/dates_bench/out/dates_bench"
OPERATIONS = {
    "day": ("day number to fields and back", None),
    "year": ("addition of one year, less `day`", "day"),
    "month": ("addition of one month, less `day`", "day"),
    "add-day": ("addition of one day, less `day`", "day"),
    "add-months": ("addition of twelve months, less `day`", "day"),
    "add-far-months": ("addition of the months of nearly two million years, less `day`", "day"),
    "pair": ("two day numbers to fields", None),
    "difference": ("difference in years, some centuries apart, less `pair`", "pair"),
    "months": ("difference in months over a year, less `pair`", "pair"),
    "far-months": ("difference in months over nearly two million years, less `pair`", "pair"),
    "text": ("a plain ISO date text read, and its day number", None),
    "published-day": ("day number to fields and back, from 1912 to 2097", None),
    "anniversary": ("the next first day of a year, of a list of some eight centuries", None),
    "published-anniversary": ("the next first day of a year, of a list from 1912 to 2097", None),
    "occurrence": ("an occurrence of every month by its index, less `day`", "day"),
    "first-index": ("first index of every month, nearly two million years after the start, less `day`", "day"),
}
# Those that differ from another one in the number of a year or in the first day alone aren't measured.
LIKE_OTHERS = {"ethioaa", "islamic-simulated", "islamic-tbla", "islamic-type1-thursday"}
CALENDARS = [
    *[name for name in ALL_CALENDARS if name not in LIKE_OTHERS],
    *["islamic-umalqura-published", "chinese-published", "dangi-published"],
]
FEW = 1_000_000
MANY = 11_000_000
ROUNDS = 5


def seconds(program: Path, *words: str | int) -> tuple[float, bytes]:
    """How long a processor works for one run, and its checksum."""
    before = resource.getrusage(resource.RUSAGE_CHILDREN)
    run = subprocess.run([str(program), *map(str, words)], capture_output=True, check=False)
    after = resource.getrusage(resource.RUSAGE_CHILDREN)
    taken = after.ru_utime + after.ru_stime - before.ru_utime - before.ru_stime
    if run.returncode != 0 or not run.stdout.strip():
        raise SystemExit(f"{' '.join(map(str, words))}: status {run.returncode}, {run.stdout[:80]!r} {run.stderr[:200]!r}")
    return taken, run.stdout


def best(program: Path, operation: str, calendar: str, count: int, rounds: int) -> float:
    """The least time of some runs, which must all print the same checksum."""
    runs = [seconds(program, operation, calendar, count) for _ in range(rounds)]
    if len({checksum for _, checksum in runs}) != 1:
        raise SystemExit(f"{operation} {calendar} {count}: the checksums differ")
    return min(taken for taken, _ in runs)


def nanoseconds(program: Path, operation: str, calendar: str, few: int, many: int, rounds: int) -> float:
    more = best(program, operation, calendar, many, rounds) - best(program, operation, calendar, few, rounds)
    return more / (many - few) * 1e9


def with_those_taken_off(operations: list[str]) -> list[str]:
    """The operations, in the table's order, with those whose times are taken off theirs."""
    less = {OPERATIONS[it][1] for it in operations}
    return [it for it in OPERATIONS if it in operations or it in less]


def print_table(given: argparse.Namespace) -> None:
    print("| Operation | " + " | ".join(given.calendars) + " | What is done |")
    print("|---|" + "---:|" * len(given.calendars) + "---|")
    taken: dict[str, list[float]] = {}
    for operation in with_those_taken_off(given.operations):
        meaning, less = OPERATIONS[operation]
        taken[operation] = [
            nanoseconds(given.program, operation, calendar, given.few, given.many, given.rounds) for calendar in given.calendars
        ]
        off = taken[less] if less else [0.0] * len(given.calendars)
        figures = [f"{all_in - part:.1f}" for all_in, part in zip(taken[operation], off)]
        print(f"| `{operation}` | " + " | ".join(figures) + f" | {meaning} |", flush=True)


def main() -> int:
    arguments = argparse.ArgumentParser(description=__doc__, formatter_class=argparse.RawDescriptionHelpFormatter)
    arguments.add_argument("program", nargs="?", type=Path, default=PROGRAM, help="the built program (default: %(default)s)")
    arguments.add_argument("--few", type=int, default=FEW, help="the smaller count (default: %(default)s)")
    arguments.add_argument("--many", type=int, default=MANY, help="the larger count (default: %(default)s)")
    arguments.add_argument("--rounds", type=int, default=ROUNDS, help="of how many runs the best counts (default: %(default)s)")
    arguments.add_argument("--operations", nargs="+", choices=OPERATIONS, default=list(OPERATIONS), metavar="NAME", help="these alone")
    arguments.add_argument("--calendars", nargs="+", choices=CALENDARS, default=CALENDARS, metavar="NAME", help="these alone")
    given = arguments.parse_args()
    if given.few >= given.many:
        arguments.error("the larger count must be larger")
    if not given.program.is_file():
        raise SystemExit(f"{given.program} is not built")
    print(f"Nanoseconds for each operation, the best of {given.rounds}, counts {given.few} and {given.many}")
    print()
    print_table(given)
    return 0


if __name__ == "__main__":
    sys.exit(main())
