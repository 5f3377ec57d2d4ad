#!/usr/bin/env python3
"""Writes the published years as constant data: reads rows/*.rows, and writes the statics of crates/published_years/src.

A row is plain numbers. A Chinese or Korean one has the year's number, a bit for each month of 30 days, the first month's the lowest, the place
of the leap month, or 0, and how many days after January 19 it starts. An Umm al-Qura one has the number, the bits, and how many days the year
starts after the fifth day before the mean year. A Persian one is the corrected year's number. Constants beside each list are its first and its
last year, and of Chinese and Korean years how many have a leap month. With --check nothing is written: the files that differ are named, and
the status is 1 where there is one.
"""

import sys
from datetime import date
from pathlib import Path

TOP = Path(__file__).resolve().parent.parent
MOST_COLUMNS = 100


def rows_of(path: Path) -> list[list[str]]:
    """The words of each row line, without `row` and the calendar's name."""
    return [line.split()[2:] for line in path.read_text().splitlines() if line.startswith("row ")]


def january_19(year: int) -> int:
    return date(year, 1, 19).toordinal()


def mean_start(year: int) -> int:
    """The day on which a mean Hijri year starts, where the year is 1 or later."""
    return 227015 + (year - 1) * 10631 // 30


def length_bits(lengths: str) -> int:
    return sum(1 << place for place, letter in enumerate(lengths) if letter == "l")


def within(low: int, value: int, high: int) -> int:
    if not low <= value <= high:
        sys.exit(f"{value} isn't from {low} to {high}")
    return value


def east_asian_row(row: list[str]) -> str:
    year, start, lengths, leap = int(row[0]), int(row[1]), row[2], int(row[3])
    within(12, len(lengths), 13)
    offset = within(0, start - january_19(year), 34)
    return f"{year} {length_bits(lengths):#06x} {leap} {offset}"


def hijri_row(row: list[str]) -> str:
    year, start, lengths = int(row[0]), int(row[1]), row[2]
    within(12, len(lengths), 12)
    return f"{year} {length_bits(lengths):#05x} {within(0, start - mean_start(year) + 5, 10)}"


def list_of(words: list[str]) -> str:
    """The words of an array, in lines of at most so many columns."""
    lines, line = [], "   "
    for word in words:
        if len(line) + len(word) + 2 > MOST_COLUMNS:
            lines.append(line)
            line = "   "
        line += f" {word},"
    return "\n".join([*lines, line])


def static(name: str, kind: str, macro: str, text: str, words: list[str]) -> str:
    return f"/// {text}\npub(crate) static {name}: [{kind}; {len(words)}] = {macro}[\n{list_of(words)}\n];\n"


def ends(names: str, text: str, first: int, last: int) -> str:
    """The constants of the first and the last year."""
    lines = [f"/// The {end} {text}.\npub const {end.upper()}_{names}: i32 = {year};\n" for end, year in (("first", first), ("last", last))]
    return "\n".join(lines)


def years_of(rows: list[list[str]]) -> tuple[int, int]:
    """The first and the last year of rows that follow one another."""
    years = [int(row[0]) for row in rows]
    if years != list(range(years[0], years[-1] + 1)):
        sys.exit("years don't follow one another")
    return years[0], years[-1]


EAST_ASIAN_MACRO = """macro_rules! east_asian_rows {
    ($($year:literal $lengths:literal $leap:literal $start:literal,)*) => {
        [$(EastAsianRow {
            related_iso: $year,
            long_months: $lengths,
            leap_month: $leap,
            start_offset: $start,
        }),*]
    };
}
"""

HIJRI_MACRO = """macro_rules! hijri_rows {
    ($($year:literal $lengths:literal $start:literal,)*) => {
        [$(HijriRow {
            extended_year: $year,
            long_months: $lengths,
            start_offset: $start,
        }),*]
    };
}
"""


def east_asian(side: str, people: str) -> str:
    rows = rows_of(TOP / f"rows/{side}.rows")
    first, last = years_of(rows)
    constants = ends(f"{people.upper()}_YEAR", f"published {people} year", first, last)
    leaps = sum(row[3] != "0" for row in rows)
    constants += f"\n/// How many of the published {people} years have a leap month.\npub(crate) const {people.upper()}_LEAP_YEARS: u32 = {leaps};\n"
    text = f"The {people} years {first} to {last}."
    return constants + "\n" + static(side.upper(), "EastAsianRow", "east_asian_rows!", text, [east_asian_row(row) for row in rows])


def hijri() -> str:
    rows = rows_of(TOP / "rows/hijri.rows")
    first, last = years_of(rows)
    constants = ends("UMM_AL_QURA_YEAR", "published Umm al-Qura year", first, last)
    text = f"The Umm al-Qura years {first} to {last}."
    return constants + "\n" + static("UMM_AL_QURA", "HijriRow", "hijri_rows!", text, [hijri_row(row) for row in rows])


def persian() -> str:
    years = [row[0] for row in rows_of(TOP / "rows/persian.rows")]
    constants = ends("CORRECTED_PERSIAN_YEAR", "Persian year in which the rule of 33 years is corrected", int(years[0]), int(years[-1]))
    text = "The years in which the rule of 33 years is corrected by the astronomical Persian calendar."
    return constants + "\n" + static("CORRECTED_YEARS", "i32", "", text, years)


def file_of(head: str, *parts: str) -> str:
    return "\n".join([f"//! {head} Written by build/published.py: change rows/ and run it.\n", *parts])


def main(words: list[str]) -> int:
    source = TOP / "crates/published_years/src"
    east_asian_use, hijri_use = "use cal_east_asian::EastAsianRow;\n", "use cal_hijri::HijriRow;\n"
    files = {
        source / "east_asian_data.rt": file_of(
            "Chinese and Korean years.", east_asian_use, EAST_ASIAN_MACRO, east_asian("china", "Chinese"), east_asian("korea", "Korean")
        ),
        source / "hijri_data.rt": file_of("Umm al-Qura years.", hijri_use, HIJRI_MACRO, hijri()),
        source / "persian_data.rt": file_of("Corrected Persian years.", persian()),
    }
    if "--check" in words:
        differing = [path for path, text in files.items() if not path.exists() or path.read_text() != text]
        for path in differing:
            print(f"{path.relative_to(TOP)} isn't what build/published.py writes", file=sys.stderr)
        return int(bool(differing))
    for path, text in files.items():
        path.write_text(text)
    return 0


if __name__ == "__main__":
    sys.exit(main(sys.argv[1:]))
