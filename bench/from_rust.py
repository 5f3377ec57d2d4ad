#!/usr/bin/env python3
"""Compares the crate of bindings/rust with the same operations in Rattle (`dates_bench`), in nanoseconds. Each operation begins with a day number:

- `day`: a conversion.
- `names`: a conversion that also reads the era and the month codes. It stands beside `day` of Rattle.
- `year`: the sum of a date and a year.
- `difference`: a difference in years.

One call returns a date with its day number and all its parts. Sums and differences convert their day numbers once more within the call. Both
programs run in turns with two counts, as in bench/operations.py, and the least time of each counts. Build first: `rt run -- day iso 1000` in
crates/dates_bench, and bindings/c/build.sh. `--only-rust` measures without dates_bench.
"""

import argparse
import os
import subprocess
import sys
import tempfile
from pathlib import Path

from from_c import CODES
from operations import FEW, MANY, PROGRAM, ROUNDS, seconds

TOP = Path(__file__).resolve().parent.parent
ARCHIVE = TOP / "crates/icu_calendar_c/out/libicu_calendar_c.a"
# Each operation, and the one of dates_bench that stands beside it.
OPERATIONS = {"day": "day", "names": "day", "year": "year", "difference": "difference"}
# What a conversion, a sum and a difference from Rust may take more; a Japanese year asks for its era.
AIMED_AT = {"day": "a conversion", "year": "a sum", "difference": "a difference"}
MOST = 15.0
MOST_JAPANESE = 30.0


def compiled(archive: Path, folder: Path) -> Path:
    env = {**os.environ, "ICU_CALENDAR_LIB": str(archive.resolve()), "CARGO_TARGET_DIR": str(folder)}
    words = ["cargo", "build", "--quiet", "--release", "--offline", "--manifest-path", TOP / "bench/from_rust/Cargo.toml"]
    subprocess.run(words, check=True, env=env)
    return folder / "release/from_rust"


def measured(programs: list[Path], operation: str, calendar: str, given: argparse.Namespace) -> list[float]:
    """Nanoseconds of an operation in each program, all measured in turns."""
    words = (operation, OPERATIONS[operation])
    least: list[dict[int, float]] = [{} for _ in programs]
    for _ in range(given.rounds):
        for count in (given.few, given.many):
            sums = set()
            for program, word, best in zip(programs, words, least):
                taken, checksum = seconds(program, word, calendar, count)
                best[count] = min(taken, best.get(count, taken))
                sums.add(checksum)
            if len(sums) != 1:
                sys.exit(f"{operation} {calendar} {count}: the checksums differ")
    return [(it[given.many] - it[given.few]) / (given.many - given.few) * 1e9 for it in least]


def main() -> int:
    arguments = argparse.ArgumentParser(description=__doc__, formatter_class=argparse.RawDescriptionHelpFormatter)
    arguments.add_argument("--program", type=Path, default=PROGRAM, help="the built dates_bench (default: %(default)s)")
    arguments.add_argument("--archive", type=Path, default=ARCHIVE, help="the library (default: %(default)s)")
    arguments.add_argument("--few", type=int, default=FEW, help="the smaller count (default: %(default)s)")
    arguments.add_argument("--many", type=int, default=MANY, help="the larger count (default: %(default)s)")
    arguments.add_argument("--rounds", type=int, default=ROUNDS, help="of how many runs the best counts (default: %(default)s)")
    arguments.add_argument("--only-rust", action="store_true", help="don't compare")
    given = arguments.parse_args()
    worst, is_over = dict.fromkeys(AIMED_AT, 0.0), False
    with tempfile.TemporaryDirectory() as room:
        programs = [compiled(given.archive, Path(room)), *([] if given.only_rust else [given.program])]
        heads = [f"{it}, {where}" for it in OPERATIONS for where in ("Rust", "Rattle")[: len(programs)]]
        print("| Calendar | " + " | ".join(heads) + " |\n|---" + "|---:" * len(heads) + "|")
        for calendar in CODES:
            times = {it: measured(programs, it, calendar, given) for it in OPERATIONS}
            print(f"| `{calendar}` | " + " | ".join(f"{it:.1f}" for each in times.values() for it in each) + " |", flush=True)
            for operation in AIMED_AT:
                more = times[operation][0] - times[operation][-1]
                worst[operation] = max(worst[operation], more)
                is_over |= more > (MOST_JAPANESE if calendar == "japanese" else MOST)
    if not given.only_rust:
        said = ", ".join(f"{AIMED_AT[it]} at most {more:.1f}" for it, more in worst.items())
        print(f"\nNanoseconds more from Rust: {said}. The aim is {MOST:.0f}, and {MOST_JAPANESE:.0f} in the Japanese calendar.")
    return int(is_over)


if __name__ == "__main__":
    sys.exit(main())
