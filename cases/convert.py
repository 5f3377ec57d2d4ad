#!/usr/bin/env python3
"""Compares `calspan convert` with a reference of its own: each row of the grammar, good and bad, and known dates.

The expected answers come from this file: a grammar by regular expressions, the arithmetic of the calendars of ISO, of its eras and
of the Hebrew calendar, the rows of `rows/`, and the dates of the cases beside this file, which another implementation made.
"""

import argparse
import random
import re
import sys
from collections.abc import Iterator
from pathlib import Path

import lists
from lists import Case, stop_at_first

HERE = Path(__file__).resolve().parent
ROWS = HERE.parent / "rows"
KNOWN = ["solar", "hebrew", "hijri", "type1", "east_asian"]
FIRST_DAY, LAST_DAY, MOST_YEARS = -365242499, 365242134, 1040000
LONGEST = 65536

# A date, and each text that one may begin with: a part may be cut anywhere, and then nothing follows it.
INT = rb"[-+]?[0-9]{1,9}"
MONTH = rb"(?:M[0-9]{2}L?|[0-9]{1,2})"
DATE = re.compile(rb"(?:(?P<era>[a-z]{1,16}) )?(?P<year>" + INT + rb")-(?P<month>" + MONTH + rb")-(?P<day>[0-9]{1,2})|@(?P<number>" + INT + rb")")
CUT_INT = rb"(?:[-+]|" + INT + rb")?"
CUT_MONTH = rb"(?:M[0-9]{0,2}|" + MONTH + rb")?"
CUT_NUMBERS = rb"(?:" + CUT_INT + rb"|" + INT + rb"-" + CUT_MONTH + rb"|" + INT + rb"-" + MONTH + rb"-[0-9]{0,2})"
BEGINNING = re.compile(rb"(?:@" + CUT_INT + rb"|[a-z]{0,16}|[a-z]{1,16} " + CUT_NUMBERS + rb"|" + CUT_NUMBERS + rb")")
SHOWN = re.compile(rb"(-?\d+)/([a-z]+)\.(-?\d+)/(M\d\dL?)/(\d\d)@(-?\d+)")


class Invalid(Exception):
    """The cause and its limit, as the answer has them."""


class Iso:
    """A calendar with the months of ISO: its years are those of ISO and a number more. The eras count up and down from a year."""

    def __init__(self, shift: int, up: list[str], down: list[str]) -> None:
        self.shift, self.up, self.down = shift, up, down

    def start(self, year: int) -> int:
        before = year - self.shift - 1
        return 365 * before + before // 4 - before // 100 + before // 400 + 1

    def months(self, year: int) -> list[tuple[str, int]]:
        year -= self.shift
        february = 29 if year % 4 == 0 and (year % 100 != 0 or year % 400 == 0) else 28
        return [(f"M{n:02}", length) for n, length in enumerate([31, february, 31, 30, 31, 30, 31, 31, 30, 31, 30, 31], 1)]

    def is_month(self, code: str) -> bool:
        return "M01" <= code <= "M12" and len(code) == 3

    def stand_in(self, code: str) -> str:
        return code

    def year_of_day(self, day: int) -> int:
        year = (day * 400) // 146097 + self.shift
        while self.start(year) > day:
            year -= 1
        while self.start(year + 1) <= day:
            year += 1
        return year

    def extended_year(self, era: str, year: int) -> int:
        if era in self.up:
            return year
        if era in self.down:
            return 1 - year
        raise Invalid("InvalidEra")

    def year_text(self, year: int) -> str:
        if self.up == ["default"]:
            return str(year)
        if year <= 0 and self.down:
            return f"{self.down[0]} {1 - year}"
        return f"{self.up[0]} {year}"


class Hebrew(Iso):
    """The Hebrew calendar, by its molad of 29 days, 12 hours and 793 parts."""

    def __init__(self) -> None:
        super().__init__(0, ["am"], [])

    @staticmethod
    def elapsed(year: int) -> int:
        months = (235 * year - 234) // 19
        day = 29 * months + (12084 + 13753 * months) // 25920
        return day + 1 if 3 * (day + 1) % 7 < 3 else day

    def start(self, year: int) -> int:
        before, now, after = (self.elapsed(year + n) for n in (-1, 0, 1))
        return -1373427 + now + (2 if after - now == 356 else 1 if now - before == 382 else 0)

    def months(self, year: int) -> list[tuple[str, int]]:
        days = self.start(year + 1) - self.start(year)
        lengths = [("M01", 30), ("M02", 30 if days % 10 == 5 else 29), ("M03", 29 if days % 10 == 3 else 30), ("M04", 29), ("M05", 30)]
        leap = [("M05L", 30)] if days > 360 else []
        return lengths + leap + [(f"M{n:02}", 30 if n % 2 else 29) for n in range(6, 13)]

    def is_month(self, code: str) -> bool:
        return super().is_month(code) or code == "M05L"

    def stand_in(self, code: str) -> str:
        return "M06" if code == "M05L" else code

    def year_of_day(self, day: int) -> int:
        year = (day + 1373427) * 98496 // 35975351
        while self.start(year) > day:
            year -= 1
        while self.start(year + 1) <= day:
            year += 1
        return year


class China(Iso):
    """The years of the rows of China alone."""

    def __init__(self) -> None:
        super().__init__(0, ["default"], [])
        lines = (ROWS / "china.rows").read_text().splitlines()
        self.rows = {int(row[2]): row[3:] for row in (line.split() for line in lines) if row[:2] == ["row", "china"]}

    def start(self, year: int) -> int:
        return int(self.rows[year][0])

    def months(self, year: int) -> list[tuple[str, int]]:
        _, lengths, leap = self.rows[year]
        found, number = [], 0
        for place, length in enumerate(lengths, 1):
            number += place != int(leap)
            found.append((f"M{number:02}" + ("L" if place == int(leap) else ""), 30 if length == "l" else 29))
        return found

    def is_month(self, code: str) -> bool:
        return super().is_month(code.removesuffix("L"))

    def year_of_day(self, day: int) -> int:
        return max(year for year in self.rows if self.start(year) <= day)


CALENDARS = {
    "iso": Iso(0, ["default"], []),
    "gregorian": Iso(0, ["ce", "ad"], ["bce", "bc"]),
    "buddhist": Iso(543, ["be"], []),
    "roc": Iso(-1911, ["roc"], ["broc"]),
    "hebrew": Hebrew(),
}


def day_of(calendar: Iso, match: re.Match, constrain: bool) -> int:
    """The day number of a date of the grammar."""
    if match["number"]:
        day = int(match["number"])
    else:
        year, month, day_of_month = int(match["year"]), match["month"].decode(), int(match["day"])
        if abs(year) > MOST_YEARS:
            raise Invalid("Overflow")
        year = calendar.extended_year(match["era"].decode(), year) if match["era"] else year
        months = calendar.months(year)
        at = place_of_month(calendar, months, month, constrain)
        length = months[at][1]
        if not 1 <= day_of_month <= length:
            if not constrain:
                raise Invalid(f"InvalidDay {length}")
            day_of_month = min(max(day_of_month, 1), length)
        day = calendar.start(year) + sum(length for _, length in months[:at]) + day_of_month - 1
    if not FIRST_DAY <= day <= LAST_DAY:
        raise Invalid("Overflow")
    return day


def place_of_month(calendar: Iso, months: list[tuple[str, int]], month: str, constrain: bool) -> int:
    codes = [code for code, _ in months]
    if not month.startswith("M"):
        if not 1 <= int(month) <= len(months) and not constrain:
            raise Invalid(f"InvalidOrdinalMonth {len(months)}")
        return min(max(int(month), 1), len(months)) - 1
    if not calendar.is_month(month):
        raise Invalid("MonthNotInCalendar")
    if month not in codes and not constrain:
        raise Invalid("MonthNotInYear")
    return codes.index(month if month in codes else calendar.stand_in(month))


def date_text(calendar: Iso, day: int) -> str:
    year = calendar.year_of_day(day)
    left = day - calendar.start(year)
    for code, length in calendar.months(year):
        if left < length:
            return f"{calendar.year_text(year)}-{code}-{left + 1:02}"
        left -= length
    raise AssertionError(day)


def place_of_fault(text: bytes) -> int:
    """The place of the first byte with which no date goes on, from 1."""
    return next(n for n in range(len(text), -1, -1) if BEGINNING.fullmatch(text[:n])) + 1


def answer(line: bytes, calendar: Iso, shown: Iso, constrain: bool) -> bytes:
    if len(line) > LONGEST:
        return b"!long"
    if not line:
        return b""
    date, tab, rest = line.partition(b"\t")
    match = DATE.fullmatch(date)
    try:
        text = date_text(shown, day_of(calendar, match, constrain)) if match else f"!syntax {place_of_fault(date)}"
    except Invalid as cause:
        text = f"!{cause}"
    return text.encode() + tab + rest


def case(names: tuple[str, str, str], lines: list[bytes], answers: list[bytes], head: bytes = b"", end: bytes = b"\n") -> Case:
    bad = any(it.startswith(b"!") for it in answers)
    words = [b"convert", *(name.encode() for name in names)]
    return Case(words, head + b"\n".join(lines) + end, b"".join(it + b"\n" for it in answers), int(bad))


# Parts of lines, good and bad, each with those beside it in every place.
YEARS = [b"2024", b"-1", b"+5784", b"0", b"-0", b"000000001", b"5783", b"1040000", b"1040001", b"-1040001", b"999999999"]
BAD_YEARS = [b"", b"-", b"+", b"--1", b"+-1", b"1234567890", b"0000000001", b"20x4", b" 2024", b"2 024", b"\xff", b"2024 "]
MONTHS = [b"1", b"2", b"02", b"12", b"13", b"0", b"00", b"99", b"M01", b"M02", b"M05L", b"M12", b"M13", b"M00", b"M02L", b"M99L"]
BAD_MONTHS = [b"", b"M", b"M1", b"M1L", b"M001", b"m01", b"M01l", b"M01LL", b"123", b"-1", b"L", b"1L", b"\x00"]
DAYS = [b"1", b"01", b"9", b"29", b"30", b"31", b"32", b"0", b"00", b"99"]
BAD_DAYS = [b"", b"-1", b"001", b"1 ", b"1\r", b"x", b"1\x00", b"1x", b"010"]
ERAS = [b"am", b"ce", b"bce", b"ad", b"bc", b"be", b"roc", b"broc", b"default", b"row", b"abcdefghijklmnop"]
BAD_ERAS = [b"CE", b"abcdefghijklmnopq", b"c3", b"ce ", b" ce", b"", b"\xc3\xa9", b"c-e"]
NUMBERS = [b"@738935", b"@-1", b"@+1", b"@0", b"@000000001", b"@-365242499", b"@-365242500", b"@365242134", b"@365242135", b"@999999999"]
BAD_NUMBERS = [b"@", b"@-", b"@ 1", b"@1x", b"@1234567890", b"@@1", b"@1 ", b"@M01", b"@1\r"]
OTHERS = [b"#", b"# 2024-1-1", b"row china 2024", b"row", b"\r", b" ", b"2024-1-1\r", b"2024/1/1", b"M01", b"\x00", b"\xff\xfe", b"-", b"M", b"2024", b"2024-"]
RESTS = [b"", b"\t", b"\tid", b"\t\t", b"\t1\t2", b"\t\r", b"\t\x00\xff\xc3", b"\t2024-1-1", b"\t" + b"x" * 9000]


def grammar_lines() -> list[bytes]:
    numbers = [b"-".join([y, m, d]) for y in YEARS for m in MONTHS for d in DAYS]
    numbers += [b"-".join([y, m, d]) for y in BAD_YEARS for m in (b"1", b"M02") for d in (b"1", b"x")]
    numbers += [b"-".join([b"5784", m, d]) for m in BAD_MONTHS for d in (b"1", b"x")] + [b"-".join([b"5784", b"M02", d]) for d in BAD_DAYS]
    with_eras = [era + b" " + date for era in ERAS + BAD_ERAS for date in (b"6-M02-3", b"0-1-1", b"-1-M01-30", b"5784-M05L-30", b"6-2", b"", b"x")]
    dates = numbers + with_eras + [era + b"6-1-1" for era in ERAS] + ERAS + NUMBERS + BAD_NUMBERS + OTHERS
    dates += [date[:n] for date in (b"reiwa 6-M02L-30", b"-2024-12-31", b"@-365242499") for n in range(1, len(date) + 1)]
    return dates


def broken_lines(chance: random.Random, dates: list[bytes], count: int) -> Iterator[bytes]:
    """Dates with a byte or two exchanged, put in or left out."""
    for _ in range(count):
        line = bytearray(chance.choice(dates))
        for _ in range(chance.choice([1, 1, 2])):
            at, byte = chance.randrange(len(line) + 1), chance.choice(b" -+@ML0123456789abz\t\r\x00") if chance.random() < 0.9 else chance.choice(b"\xff\x80#~")
            line[at : at + chance.choice([0, 1])] = bytes([byte]) if chance.random() < 0.8 else b""
        yield bytes(line)


def grammar_cases(chance: random.Random) -> Iterator[Case]:
    dates = grammar_lines()
    for name, shown in [("iso", "hebrew"), ("hebrew", "iso"), ("gregorian", "roc"), ("roc", "gregorian"), ("buddhist", "buddhist")]:
        for overflow in ("constrain", "reject"):
            lines = [date + RESTS[n % len(RESTS)] for n, date in enumerate(dates)] + [b"", *broken_lines(chance, dates, 2000), b""]
            # What comes before the first answered line would be the head of the input.
            lines = [b"", *lines]
            answers = [answer(line, CALENDARS[name], CALENDARS[shown], overflow == "constrain") for line in lines]
            yield case((name, shown, overflow), lines, answers, end=chance.choice([b"", b"\n"]) if lines[-1] else b"\n")


def head_cases() -> Iterator[Case]:
    """What stands before the first date, and how an input ends."""
    iso, china, rows = CALENDARS["iso"], China(), b"".join((ROWS / f"{it}.rows").read_bytes() for it in ("china", "hijri", "korea", "persian"))
    lines = [b"2024-2-10", b"2023-M01-22\tx", b"", b"# 2024", b"row china 2024", b"@738926"]
    answers = [answer(line, iso, china, False) for line in lines]
    for end in (b"", b"\n"):
        yield case(("iso", "chinese", "reject"), lines, answers, rows, end)
    dates = [b"2023-M02L-1", b"2024-M02L-1", b"2024-1-1", b"2023-13-29", b"2024-13-1"]
    yield case(("chinese", "iso", "reject"), dates, [answer(line, china, iso, False) for line in dates], b"# rows\r\n" + rows + b"#\n")
    names = ("iso", "iso", "reject")
    for head in (b"", b"#\n", b"# only\n#\n", b"row persian 1502\n", b"row persian 1502\r\n", b"#" + b"x" * 70000 + b"\n"):
        yield case(names, [], [], head, b"")
        yield case(names, [b"", b"#", b"1-1-1"], [b"", b"!syntax 1", b"1-M01-01"], head, b"")
        yield case(names, [b"ro", b"1-1-1"], [b"!syntax 3", b"1-M01-01"], head)
        yield case(names, [b"row" + b" x" * 300, b"rows\t1"], [b"!syntax 5", b"!syntax 5\t1"], head)
        yield case(names, [b"\r", b"1-1-1"], [b"!syntax 1", b"1-M01-01"], head)
    for head, number, fault in ((b"row\n", 1, b"syntax"), (b"#\nrow china\n", 2, b"syntax"), (b"row era 2030 13 1 x 1\n", 1, b"range")):
        yield Case([b"convert", b"iso", b"iso", b"reject"], head + b"1-1-1\n", b"table line %d %s\n" % (number, fault), 6)
    yield Case([b"convert", b"iso", b"iso", b"reject"], b"row persian 1503\n1-1-1\n", b"table persian 1 rule\n", 6)


def long_cases() -> Iterator[Case]:
    """Lines at the longest length and past it, which a read cuts anywhere."""
    names, date = ("iso", "iso", "reject"), b"2024-2-10\t"
    for more in (-1, 0, 1, 70000):
        lines = [b"1-1-1", date + b"y" * (LONGEST - len(date) + more), b"1-1-2\tz", b"x" * (LONGEST + more), b"2-2-2"]
        for end in (b"", b"\n"):
            yield case(names, lines, [answer(line, CALENDARS["iso"], CALENDARS["iso"], False) for line in lines], end=end)
    yield case(names, [date + b"y" * 200000], [b"!long"], end=b"")
    yield case(names, [b"r" * 100000, b"row"], [b"!long", b"!syntax 4"])


def known_cases() -> Iterator[Case]:
    """Dates that another implementation named in two calendars, in each form, and read back."""
    found: dict[tuple[str, str], dict[bytes, bytes]] = {}
    for name in KNOWN:
        requests = [line for line in (HERE / f"{name}.in").read_bytes().split(b"\n") if line.startswith(b"span ")]
        for request, reply in zip(requests, (HERE / f"{name}.out").read_bytes().split(b"\n")):
            first, second = (it.decode() for it in request.split(b" ")[1:3])
            dates = SHOWN.findall(reply)
            for own, other in (dates[:2], dates[2:]) if reply.startswith(b"ok ") else ():
                for key, date, text in ((first, own, other), (second, other, own)):
                    other_name = second if key == first else first
                    entries = found.setdefault((key, other_name), {})
                    entries |= {form: form_of(text, other_name) for form in forms(date, key)}
    for (name, shown), entries in found.items():
        yield case((name, shown, "reject"), list(entries), list(entries.values()))
        back = sorted(set(entries.values()))
        yield case((shown, shown, "constrain"), back, back)


def form_of(date: tuple[bytes, ...], name: str) -> bytes:
    extended, era, year, code, day, _ = date
    has_era = era != b"cycle" and name != "iso"
    return (era + b" " + year if has_era else extended) + b"-" + code + b"-" + day


def forms(date: tuple[bytes, ...], name: str) -> list[bytes]:
    extended, era, year, code, day, number = date
    with_era = [] if era == b"cycle" else [era + b" " + year + b"-" + code + b"-" + day]
    return [extended + b"-" + code + b"-" + day.lstrip(b"0"), b"@" + number, *with_era]


def all_cases() -> list[Case]:
    chance = random.Random(20260102)
    return [*grammar_cases(chance), *head_cases(), *long_cases(), *known_cases()]


def compare_conversions() -> str:
    cases = all_cases()
    stop_at_first(lists.fault_of_case, cases)
    return f"{sum(it.out.count(bytes([10])) for it in cases)} lines of {len(cases)} conversions agree"


def main() -> int:
    arguments = argparse.ArgumentParser(description=__doc__, formatter_class=argparse.RawDescriptionHelpFormatter)
    arguments.add_argument("--program", metavar="FILE", help="compare this program in place of the built one")
    arguments.add_argument("--write", type=Path, metavar="FOLDER", help="write the cases into a folder, and run nothing")
    given = arguments.parse_args()
    if given.write:
        given.write.mkdir(parents=True, exist_ok=True)
        for number, it in enumerate(all_cases()):
            for kind, data in (("words", b"\n".join(it.words)), ("in", it.source), ("out", it.out), ("status", b"%d" % it.status)):
                (given.write / f"{number:04}.{kind}").write_bytes(data)
        return 0
    if given.program:
        lists.PROGRAM = given.program
    print(f"cases: {compare_conversions()}")
    return 0


if __name__ == "__main__":
    sys.exit(main())
