#!/usr/bin/env python3
"""Makes books of holidays with rules of all kinds, and compares the program's lists with the definition of the rules.

The definition is applied day by day, over all days of a window and some weeks beside it: whether a day is a rule's own day in a year in which
the rule is kept, and where its weekday moves it. Nothing is shared with the program. Dates are counted from the lengths of years and months
here; those of China, Korea and Umm al-Qura are read from the rows of published years. The occurrences of recurrence rules are those of
`rrule.jsonl`, which an independent implementation made.
"""

import datetime
import json
import random
import re
import subprocess
import sys
from pathlib import Path

TOP = Path(__file__).resolve().parent.parent
ROWS = {it.stem: it.read_text(encoding="ascii") for it in sorted((TOP / "rows").glob("*.rows"))}
BEFORE = "".join(ROWS.values())
# The script builds the program where a source is newer.
PROGRAM = [str(TOP / "calspan"), "holidays"]
WEEKDAYS = ["sunday", "monday", "tuesday", "wednesday", "thursday", "friday", "saturday"]
SEED, BOOKS, RULES = 20261201, 60, 12
# The days that have dates here, and those that windows have.
FIRST, LAST = 699500, 764500
MARGIN = 900
LINE = re.compile(r"-?\d+/default\.-?\d+/M\d\d/\d\d@(-?\d+) rule (\d+)")
# An occurrence in a list of `rrule`: the extended year and the day number of its date.
OCCURRENCE = re.compile(r"\d+ (-?\d+)/[^@]*@(-?\d+) ")
# A day moves by at most so many days.
REACH = 6

# A year's months by their codes, with their lengths, in order.
Months = list[tuple[str, int]]
# The year, the month's code, the day and the length of the month.
Date = tuple[int, str, int, int]


def plain(lengths: list[int]) -> Months:
    return [(f"M{i:02}", length) for i, length in enumerate(lengths, 1)]


def gregorian_leap(year: int) -> bool:
    return year % 4 == 0 and (year % 100 != 0 or year % 400 == 0)


def roman(leap: bool) -> Months:
    return plain([31, 29 if leap else 28, 31, 30, 31, 30, 31, 31, 30, 31, 30, 31])


def gregorian(year: int) -> Months:
    return roman(gregorian_leap(year))


def julian(year: int) -> Months:
    return roman(year % 4 == 0)


def coptic(year: int) -> Months:
    return plain([30] * 12 + [6 if year % 4 == 3 else 5])


def indian(year: int) -> Months:
    return plain([31 if gregorian_leap(year + 78) else 30] + [31] * 5 + [30] * 6)


def persian(year: int) -> Months:
    return plain([31] * 6 + [30] * 5 + [30 if (25 * year + 11) % 33 < 8 else 29])


def tabular(leap_years: str):
    leaps = {int(it) for it in leap_years.split()}

    def months(year: int) -> Months:
        return plain([30, 29] * 5 + [30, 30 if year % 30 in leaps else 29])

    return months


def hebrew_days(year: int) -> int:
    """The days from the first Tishri of year 1 to that of a year."""
    months = (235 * year - 234) // 19
    parts = 12084 + 13753 * months
    day = 29 * months + parts // 25920
    return day + 1 if (3 * (day + 1)) % 7 < 3 else day


def hebrew_start(year: int) -> int:
    """Delays of the new year: a year has neither 356 nor 382 days."""
    before, here, behind = (hebrew_days(it) for it in (year - 1, year, year + 1))
    if behind - here == 356:
        return here + 2
    return here + 1 if here - before == 382 else here


def hebrew(year: int) -> Months:
    length = hebrew_start(year + 1) - hebrew_start(year)
    leap = (7 * year + 1) % 19 < 7
    long_marheshvan, long_kislev = length % 10 == 5, length % 10 != 3
    adar = [("M05L", 30)] if leap else []
    head = plain([30, 30 if long_marheshvan else 29, 30 if long_kislev else 29, 29, 30])
    return head + adar + [("M06", 29), ("M07", 30), ("M08", 29), ("M09", 30), ("M10", 29), ("M11", 30), ("M12", 29)]


def from_start(start: int, year: int, months) -> dict[int, Date]:
    """The dates of days, from the first day of a year on."""
    dates, day = {}, start
    while day <= LAST + MARGIN:
        for code, length in months(year):
            if day + length > FIRST - MARGIN:
                dates |= {day + k: (year, code, k + 1, length) for k in range(length)}
            day += length
        year += 1
    return dates


def from_rows(name: str) -> dict[int, Date]:
    """The dates of the years that a file of rows has."""
    dates = {}
    for line in ROWS[name].splitlines():
        if line.startswith("#"):
            continue
        _, _, year, day, lengths, *leap = line.split()
        place, at, number = int(leap[0]) if leap else 0, int(day), 0
        for i, letter in enumerate(lengths, 1):
            number += i != place
            code = f"M{number:02}" + ("L" if i == place else "")
            length = 30 if letter == "l" else 29
            dates |= {at + k: (int(year), code, k + 1, length) for k in range(length)}
            at += length
    return dates


def renumbered(dates: dict[int, Date], years: int) -> dict[int, Date]:
    return {day: (year + years, *rest) for day, (year, *rest) in dates.items()}


TYPE_II = tabular("2 5 7 10 13 16 18 21 24 26 29")
TYPE_I = tabular("2 5 7 10 13 15 18 21 24 26 29")
# 0001-01-01 is day 1, -0001-12-30 in the Julian calendar; the other days are those of Calendrical Calculations.
ISO, COPTIC = from_start(1, 1, gregorian), from_start(103605, 1, coptic)
FRIDAY, THURSDAY = 227015, 227014
CALENDARS = {
    **dict.fromkeys(["iso", "gregorian", "japanese"], ISO),
    "buddhist": renumbered(ISO, 543),
    "roc": renumbered(ISO, -1911),
    "julian": from_start(-1, 1, julian),
    "coptic": COPTIC,
    "ethiopic": renumbered(COPTIC, 276),
    "ethioaa": renumbered(COPTIC, 5776),
    "indian": from_start(28570, 1, indian),
    "persian": from_start(226895, 1, persian),
    "hebrew": from_start(-1373427 + hebrew_start(1) - hebrew_days(1), 1, hebrew),
    **dict.fromkeys(["islamic-civil", "islamic-simulated"], from_start(FRIDAY, 1, TYPE_II)),
    "islamic-tbla": from_start(THURSDAY, 1, TYPE_II),
    "islamic-type1-friday": from_start(FRIDAY, 1, TYPE_I),
    "islamic-type1-thursday": from_start(THURSDAY, 1, TYPE_I),
    "islamic-umalqura": from_rows("hijri"),
    "chinese": from_rows("china"),
    "dangi": from_rows("korea"),
}
# The months that stand in for leap months in years that lack them.
STAND_INS = {"hebrew": {"M05L": "M06"}}


def easter(year: int, is_julian: bool) -> int:
    """The day number of Easter (Meeus, Astronomical Algorithms, chapter 8)."""
    if is_julian:
        a, b, c = year % 4, year % 7, year % 19
        d = (19 * c + 15) % 30
        e = (2 * a + 4 * b - d + 34) % 7
        month, day = divmod(d + e + 114, 31)
        return EASTER_DAYS["julian"][year, f"M{month:02}", day + 1]
    a, b, c = year % 19, year // 100, year % 100
    d, e = divmod(b, 4)
    g = (8 * b + 13) // 25
    h = (19 * a + b - d - g + 15) % 30
    i, k = divmod(c, 4)
    l = (32 + 2 * e + 2 * i - h - k) % 7
    m = (a + 11 * h + 19 * l) // 433
    n = (h + l - 7 * m + 90) // 25
    p = (h + l - 7 * m + 33 * n + 19) % 32
    return EASTER_DAYS["gregorian"][year, f"M{n:02}", p]


EASTER_DAYS = {name: {date[:3]: day for day, date in CALENDARS[name].items()} for name in ("gregorian", "julian")}
EASTERS = {
    name: {easter(year, name == "julian"): year for year in range(1914, 2096)} for name in ("gregorian", "julian")
}


class Rule:
    """A rule by the fields of its record."""

    def __init__(self, fields: list[str]):
        self.kind, _, self.calendar, self.month, self.value, self.last = fields[:6]
        self.since, self.until, self.every, moved = (fields[6:] + [""] * 4)[:4]
        self.moves = {WEEKDAYS.index(it[:-2]): int(it[-2:]) for it in moved.split(" ") if it}
        self.dates = CALENDARS[self.calendar]
        self.months = {date[:2] for date in self.dates.values()}

    def own_year(self, day: int) -> int | None:
        """The year in which a day is the rule's own one."""
        if self.kind == "easter":
            return EASTERS[self.calendar].get(day - int(self.value))
        if self.kind == "span":
            return self.span_year(day)
        year, code, number, length = self.dates[day]
        fits = self.is_date(year, code, number, length) if self.kind == "fixed" else self.is_nth(day, code, number, length)
        return year if fits else None

    def is_date(self, year: int, code: str, number: int, length: int) -> bool:
        if self.last == "exact":
            return code == self.month and number == int(self.value)
        month = self.month
        if (year, month) not in self.months:
            month = STAND_INS.get(self.calendar, {}).get(month, month.rstrip("L"))
        return code == month and number == min(int(self.value), length)

    def is_nth(self, day: int, code: str, number: int, length: int) -> bool:
        if code != self.month or WEEKDAYS[day % 7] != self.last:
            return False
        return number + 7 > length if self.value == "-1" else (number + 6) // 7 == int(self.value)

    def span_year(self, day: int) -> int | None:
        back = self.last.startswith("-")
        if WEEKDAYS[day % 7] != self.last.lstrip("-"):
            return None
        for k in range(7):
            year, code, number, _ = self.dates[day + k if back else day - k]
            if code == self.month and number == int(self.value):
                return year
        return None

    def is_kept(self, year: int) -> bool:
        if self.since and (year < int(self.since) or (year - int(self.since)) % int(self.every or 1)):
            return False
        return not self.until or year <= int(self.until)

    def days(self, first: int, last: int) -> set[int]:
        """The days of a window that the rule names."""
        named = set()
        for day in range(first - 6, last + 7):
            year = self.own_year(day)
            if year is not None and self.is_kept(year):
                named.add(day + self.moves.get(day % 7, 0))
        return {day for day in named if first <= day <= last}


def moved(rng: random.Random) -> str:
    days = rng.sample(WEEKDAYS, rng.choice([0, 0, 1, 2, 2, 3, 7]))
    return " ".join(f"{day}{rng.randint(-6, 6):+}" for day in days)


def year_fields(rng: random.Random, low: int, high: int) -> list[str]:
    since = str(rng.randint(low - 20, high + 5)) if rng.random() < 0.5 else ""
    until = str(rng.randint(low - 5, high + 20)) if rng.random() < 0.4 else ""
    every = str(rng.choice([1, 2, 3, 4, 7, 19, 400])) if since and rng.random() < 0.5 else ""
    return [since, until, every]


def record(rng: random.Random, number: int, first: int, last: int) -> list[str]:
    kind = rng.choice(["fixed", "fixed", "easter", "weekday", "span", "span"])
    calendar = rng.choice(["gregorian", "julian"]) if kind == "easter" else rng.choice(list(CALENDARS))
    dates = CALENDARS[calendar]
    _, month, day, _ = dates[rng.randint(first, last)]
    day = rng.choice([day, day, 1, 29, 30, 31])
    weekday = rng.choice(WEEKDAYS)
    rest = {
        "fixed": [month, str(day), rng.choice(["exact", "constrain"])],
        "easter": ["", str(rng.randint(-400, 400)), ""],
        "weekday": [month, rng.choice(["1", "2", "3", "4", "5", "-1"]), weekday],
        "span": [month, str(day), rng.choice(["", "-"]) + weekday],
    }[kind]
    fields = [kind, f"rule {number}", calendar, *rest, *year_fields(rng, dates[first][0], dates[last][0]), moved(rng)]
    while len(fields) > 6 and not fields[-1] and rng.random() < 0.5:
        fields.pop()
    return fields


def listed(book: str, first: int, last: int, rows: str = BEFORE) -> list[tuple[int, int]]:
    words = [*PROGRAM, str(first), str(last)]
    run = subprocess.run(words, input=(rows + book).encode(), capture_output=True, check=False)
    if run.returncode or run.stderr:
        raise SystemExit(f"{words}: status {run.returncode}, {run.stdout[:80]!r} and {run.stderr[-200:]!r} on\n{book}")
    return [tuple(map(int, LINE.fullmatch(line).groups())) for line in run.stdout.decode().splitlines()]


def compare(rng: random.Random) -> int:
    """How many days of a book agree."""
    first = rng.randint(FIRST, LAST - 4000)
    last = first + rng.choice([0, 30, 400, 1500, 4000])
    records = [record(rng, number, first, last) for number in range(RULES)]
    book = "".join(",".join(fields) + "\n" for fields in records)
    wanted = sorted((day, number) for number, fields in enumerate(records) for day in Rule(fields).days(first, last))
    got = listed(book, first, last)
    if got != wanted:
        more, lacking = sorted(set(got) - set(wanted)), sorted(set(wanted) - set(got))
        raise SystemExit(f"{first} to {last}: lacking {lacking[:9]}, no such {more[:9]} (day, rule), or another order, in\n{book}")
    return len(got)


def repeated_days(rng: random.Random, case: dict) -> int | None:
    """How many days agree of a record with the recurrence rule of a case, or `None` if a book can't have the case's start or window."""
    words = case["words"]
    if case["status"] or len(words) != 7 or not words[5].lstrip("-").isdigit() or not 1 <= int(words[5]) <= datetime.date.max.toordinal():
        return None
    _, calendar, _, first, last, start, rule = words
    first, last = int(first) + REACH, int(last) - REACH
    if first > last:
        return None
    occurrences = [tuple(map(int, OCCURRENCE.match(line).groups())) for line in case["out"].splitlines()]
    years = [year for year, _ in occurrences] or [0]
    tail = [*year_fields(rng, min(years), max(years)), moved(rng)]
    date = datetime.date.fromordinal(int(start)).isoformat()
    kept = Rule(["rule", "rule 0", "iso", "", "", "", *tail])
    named = {day + kept.moves.get(day % 7, 0) for year, day in occurrences if kept.is_kept(year)}
    wanted = sorted((day, 0) for day in named if first <= day <= last)
    book = f'rule,rule 0,{calendar},,"{rule}",{date},{",".join(tail)}\n'
    got = listed(book, first, last, case["source"])
    if got != wanted:
        raise SystemExit(f"{first} to {last}: {got[:9]} in place of {wanted[:9]} in\n{case['source']}{book}")
    return len(got)


def main() -> int:
    rng = random.Random(SEED)
    counts = [compare(rng) for _ in range(BOOKS)]
    print(f"holidays: {sum(counts)} days of {len(counts)} made books agree with the definition of their rules")
    cases = map(json.loads, (TOP / "cases/rrule.jsonl").read_text(encoding="utf-8").splitlines())
    repeated = [it for it in (repeated_days(rng, case) for case in cases) if it is not None]
    print(f"holidays: {sum(repeated)} days of {len(repeated)} recurrence rules in books agree with lists of their occurrences")
    return 0


if __name__ == "__main__":
    sys.exit(main())
