#!/usr/bin/python3
"""Compares columns of days shown in a calendar with what else Debian has for Python: nanoseconds a date, and whether the years, months and days agree.

- `convertdate` (python3-convertdate), pure Python: Hebrew and Islamic civil dates.
- `lunardate` (python3-lunardate), pure Python: Chinese dates of 1900 to 2099.
- `icu` (python3-icu), a binding of ICU in C++: Hebrew, Islamic civil, Umm al-Qura and Chinese dates.

Each gets the same seeded days of 1912 to 2099, one by one, since none has columns. Here a column is one call of `icu_calendar.arrays`, and `Date` one
date in Python. Days on which a library differs are counted. Build first: bindings/c/build.sh. The libraries are for Debian's Python.
"""

import argparse
import datetime
import random
import sys
import time
from collections.abc import Callable
from pathlib import Path

import icu
import numpy as np
from convertdate import hebrew, islamic
from lunardate import LunarDate

sys.path.insert(0, str(Path(__file__).resolve().parent.parent / "bindings/python"))
from icu_calendar import Date, arrays  # noqa: E402

Fields = tuple[int, int, int]
FIRST, LAST = datetime.date(1912, 2, 18).toordinal(), datetime.date(2099, 12, 31).toordinal()
COUNT, ROUNDS = 20_000, 3
# UCAL_IS_LEAP_MONTH, which python3-icu doesn't name.
IS_LEAP_MONTH = 22
UNIX_EPOCH = datetime.date(1970, 1, 1).toordinal()


def by_convertdate_hebrew(day: datetime.date) -> Fields:
    """The year, the place of the month from Tishri on, and the day: convertdate counts months from Nisan."""
    year, month, number = hebrew.from_gregorian(day.year, day.month, day.day)
    behind = 7 if hebrew.leap(year) else 6
    return year, month - 6 if month > 6 else month + behind, int(number)


def by_convertdate_islamic(day: datetime.date) -> Fields:
    year, month, number = islamic.from_gregorian(day.year, day.month, day.day)
    return year, month, int(number)


def by_lunardate(day: datetime.date) -> Fields:
    """The month of a leap month is its number and 100."""
    it = LunarDate.fromSolarDate(day.year, day.month, day.day)
    return it.year, it.month + 100 * bool(it.isLeapMonth), it.day


def by_icu(locale: str, zone: str, with_leap: bool = False, from_tishri: bool = False) -> Callable[[datetime.date], Fields]:
    calendar = icu.Calendar.createInstance(icu.TimeZone.createTimeZone(zone), icu.Locale(locale))
    offset = calendar.getTimeZone().getRawOffset() / 1000
    fields = icu.UCalendarDateFields

    def shown(day: datetime.date) -> Fields:
        calendar.setTime((day.toordinal() - UNIX_EPOCH) * 86400.0 + 43200 - offset)
        year, month, number = calendar.get(fields.EXTENDED_YEAR), calendar.get(fields.MONTH) + 1, calendar.get(fields.DATE)
        if from_tishri and month > 6 and calendar.getActualMaximum(fields.DAY_OF_YEAR) < 370:
            month -= 1  # ICU leaves out Adar I in a common year
        return year, month + 100 * (with_leap and calendar.get(IS_LEAP_MONTH)), number

    return shown


LIBRARIES: dict[str, dict[str, Callable[[datetime.date], Fields]]] = {
    "hebrew": {"convertdate": by_convertdate_hebrew, "icu": by_icu("he@calendar=hebrew", "UTC", from_tishri=True)},
    "islamic-civil": {"convertdate": by_convertdate_islamic, "icu": by_icu("ar@calendar=islamic-civil", "UTC")},
    "islamic-umalqura": {"icu": by_icu("ar_SA@calendar=islamic-umalqura", "UTC")},
    "chinese": {"lunardate": by_lunardate, "icu": by_icu("zh@calendar=chinese", "Asia/Shanghai", with_leap=True)},
}


def fields_here(calendar: str, days: "np.ndarray") -> list[Fields]:
    shown = arrays.dates(days, calendar)
    if calendar != "chinese":
        return list(zip(shown.year.tolist(), shown.ordinal_month.tolist(), shown.day.tolist()))
    months = [int(code[1:3]) + 100 * code.endswith("L") for code in shown.month_code.tolist()]
    return list(zip(shown.year.tolist(), months, shown.day.tolist()))


def least(call: Callable[[], object], count: int, rounds: int) -> float:
    """The least nanoseconds a date of some rounds."""
    taken = []
    for _ in range(rounds):
        begun = time.process_time()
        call()
        taken.append(time.process_time() - begun)
    return min(taken) / count * 1e9


def differing(calendar: str, name: str, here: list[Fields], there: list[Fields]) -> int:
    """On how many days a library has other fields. ICU's Chinese extended year counts from another epoch."""
    without_year = calendar == "chinese" and name == "icu"
    return sum(a[without_year:] != b[without_year:] for a, b in zip(here, there))


def main() -> int:
    arguments = argparse.ArgumentParser(description=__doc__, formatter_class=argparse.RawDescriptionHelpFormatter)
    arguments.add_argument("--count", type=int, default=COUNT, help="how many days (default: %(default)s)")
    arguments.add_argument("--rounds", type=int, default=ROUNDS, help="of how many runs the best counts (default: %(default)s)")
    given = arguments.parse_args()
    numbers = [random.Random(it).randint(FIRST, LAST) for it in range(given.count)]
    dates = [datetime.date.fromordinal(it) for it in numbers]
    days = np.array(numbers, dtype=np.int64)
    many = np.tile(days, max(1, 1_000_000 // given.count))
    print("| Calendar | here, a column | here, `Date` | library | its dates | ratio to a column | days that differ |")
    print("|---|---:|---:|---|---:|---:|---:|")
    for calendar, libraries in LIBRARIES.items():
        column = least(lambda: arrays.dates(many, calendar), len(many), given.rounds)
        single = least(lambda: [Date.of_day(it, calendar).day for it in numbers], given.count, given.rounds)
        here = fields_here(calendar, days)
        for name, call in libraries.items():
            taken = least(lambda: [call(it) for it in dates], given.count, given.rounds)
            other = differing(calendar, name, here, [call(it) for it in dates])
            print(f"| `{calendar}` | {column:.0f} | {single:.0f} | `{name}` | {taken:.0f} | {taken / column:.0f} | {other} of {given.count} |", flush=True)
    return 0


if __name__ == "__main__":
    sys.exit(main())
