#!/usr/bin/env python3
"""Lists the holidays of the books in `books/` by the built program, and compares them with the days that other programs have.

The days are in `books/expected/`, a file for each book; those of the books in `books/countries/` are in a folder of that name there. A day that
one side has alone is a fault, and so is another name for it. The rows of published years stand before each book: without a rule in their
calendars they change nothing.
"""

import re
import subprocess
import sys
from collections import Counter
from datetime import date
from pathlib import Path

TOP = Path(__file__).resolve().parent.parent
BOOKS = TOP / "books"
ROWS = b"".join(it.read_bytes() for it in sorted((TOP / "rows").glob("*.rows")))
# The books whose calendars have rows, and whose days are others without them.
WITH_ROWS = {
    *("chinese", "korean", "umm-al-qura", "countries/china", "countries/hong-kong", "countries/taiwan", "countries/south-korea"),
    *("countries/egypt", "countries/saudi-arabia", "countries/turkiye"),
}
# The script builds the program where a source is newer.
PROGRAM = [str(TOP / "calspan"), "holidays"]
HEAD = re.compile(r"# Days of (\d{4}) to (\d{4}), ")
HOLIDAY = re.compile(r"(\d{4})/default\.\1/M(\d\d)/(\d\d)@(\d+) (.+)")
Holiday = tuple[date, str]


def expected_of(path: Path) -> tuple[date, date, list[Holiday]]:
    """The first and the last day of the years of an expected file, and its holidays."""
    head, *lines = path.read_text(encoding="ascii").splitlines()
    first, last = map(int, HEAD.match(head).groups())
    days = (line.split(" ", 1) for line in lines if not line.startswith("#"))
    return date(first, 1, 1), date(last, 12, 31), [(date.fromisoformat(day), name) for day, name in days]


def holiday_of(line: str) -> Holiday:
    """What a line of the program says. It gives the day as an ISO date and by its number, which must be one day."""
    match = HOLIDAY.fullmatch(line)
    if not match:
        raise SystemExit(f"{line!r} is no holiday")
    year, month, day, number, name = match.groups()
    found = date(int(year), int(month), int(day))
    if found.toordinal() != int(number):
        raise SystemExit(f"{line!r}: {number} is another day")
    return found, name


def listed(book: Path, first: date, last: date, rows: bytes) -> list[Holiday]:
    words = [*PROGRAM, str(first.toordinal()), str(last.toordinal())]
    run = subprocess.run(words, input=rows + book.read_bytes(), capture_output=True, check=False)
    if run.returncode or run.stderr:
        raise SystemExit(f"{book.name}: status {run.returncode}, {run.stdout[:80]!r} and {run.stderr[-200:]!r}")
    return [holiday_of(line) for line in run.stdout.decode("ascii").splitlines()]


def compare(book: Path) -> int:
    """How many holidays of the book agree."""
    name = book.relative_to(BOOKS).with_suffix("").as_posix()
    first, last, wanted = expected_of(BOOKS / "expected" / f"{name}.txt")
    got = listed(book, first, last, ROWS)
    if (listed(book, first, last, b"") == got) == (name in WITH_ROWS):
        raise SystemExit(f"{name}: what the rows change is something else")
    lacking, more = Counter(wanted) - Counter(got), Counter(got) - Counter(wanted)
    faults = [f"  lacking {day} {name}" for day, name in sorted(lacking)] + [f"  no such {day} {name}" for day, name in sorted(more)]
    if faults:
        raise SystemExit("\n".join([f"{name}:", *faults[:20]]))
    if [day for day, _ in got] != sorted(day for day, _ in got):
        raise SystemExit(f"{name}: the days don't rise")
    return len(got)


def main() -> int:
    books = sorted(BOOKS.rglob("*.csv"))
    counts = [compare(book) for book in books]
    print(f"books: {sum(counts)} holidays of {len(books)} books agree with the days of other programs")
    return 0


if __name__ == "__main__":
    sys.exit(main())
