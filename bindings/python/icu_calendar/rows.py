"""The published years as rows of the program, as the folder `rows/` of the repository has them."""

from __future__ import annotations

from functools import cache

from .codes import Calendar, Years
from .dates import Date

# The first and the last published year of each calendar that has them, and the word for it in a row.
PUBLISHED: dict[Calendar, tuple[str, int, int]] = {
    Calendar.CHINESE: ("china", 1912, 2099),
    Calendar.DANGI: ("korea", 1912, 2097),
    Calendar.ISLAMIC_UMALQURA: ("hijri", 1300, 1600),
    Calendar.PERSIAN: ("persian", 1502, 2987),
}


@cache
def published_rows(calendar: Calendar) -> bytes:
    """Returns the row lines of a calendar's published years, or none if it has none."""
    if calendar not in PUBLISHED:
        return b""
    word, first, last = PUBLISHED[calendar]
    row = _correction if calendar is Calendar.PERSIAN else _row
    lines = (row(calendar, word, year) for year in range(first, last + 1))
    return "".join(it for it in lines if it).encode()


def _first_day(calendar: Calendar, years: Years, year: int) -> int:
    return Date.of_fields(calendar, years, year=year, ordinal_month=1, day=1).day_number


def _correction(calendar: Calendar, word: str, year: int) -> str:
    """Returns the row of a leap year of the rule that is a common year, or nothing."""
    published, computed = (_first_day(calendar, it, year + 1) - _first_day(calendar, it, year) for it in (Years.PUBLISHED, Years.COMPUTED))
    return f"row {word} {year}\n" if published < computed else ""


def _row(calendar: Calendar, word: str, year: int) -> str:
    """Returns the row of a year: its first day, a letter for the length of each month and, of a calendar that has them, the leap month's place."""
    start = Date.of_fields(calendar, year=year, ordinal_month=1, day=1)
    places = range(1, start.months_in_year + 1)
    months = [Date.of_fields(calendar, year=year, ordinal_month=it, day=1) for it in places]
    ends = [*(it.day_number for it in months[1:]), _first_day(calendar, Years.PUBLISHED, year + 1)]
    lengths = "".join("l" if end - it.day_number == 30 else "s" for it, end in zip(months, ends))
    leap = next((place for place, it in zip(places, months) if it.month_is_leap), 0)
    ending = "" if calendar is Calendar.ISLAMIC_UMALQURA else f" {leap}"
    return f"row {word} {year} {start.day_number} {lengths}{ending}\n"
