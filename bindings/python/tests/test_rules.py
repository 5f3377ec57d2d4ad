"""Recurrence rules of iCalendar: the same as the program's, one by one."""

import datetime
import itertools
import unittest
from pathlib import Path

import icu_calendar
from icu_calendar import Calendar, Date, RuleError, rrule
from icu_calendar.program import Refused, rule_lines
from icu_calendar.rows import PUBLISHED, published_rows

TOP = Path(__file__).resolve().parents[3]
ROWS = {"china": "china.rows", "korea": "korea.rows", "hijri": "hijri.rows", "persian": "persian.rows"}
# 2024-01-01, a Monday.
START = 738886
RULES = [
    ("iso", "FREQ=MONTHLY;BYMONTHDAY=-1"),
    ("iso", "FREQ=DAILY;INTERVAL=3"),
    ("gregorian", "FREQ=YEARLY;BYWEEKNO=1,-1;BYDAY=MO"),
    ("hebrew", "RSCALE=HEBREW;FREQ=YEARLY;BYMONTH=5L;BYMONTHDAY=10;SKIP=FORWARD"),
    ("chinese", "FREQ=YEARLY;BYMONTH=1;BYMONTHDAY=1"),
    ("dangi", "FREQ=YEARLY;BYMONTH=8;BYMONTHDAY=15"),
    ("islamic-umalqura", "FREQ=YEARLY;BYMONTH=9;BYMONTHDAY=1"),
    ("persian", "FREQ=YEARLY;BYYEARDAY=1,-1"),
]
REFUSED = [
    ("", "BadPart", None),
    ("FREQ=DAILY;", "BadPart", None),
    ("FREQ=DAILY; COUNT=1", "UnknownPart", None),
    ("FREQ=DAILY;FREQ=DAILY", "RepeatedPart", "FREQ"),
    ("FREQ=HOURLY", "TimeNotSupported", "FREQ"),
    ("FREQ=DAILY;BYHOUR=9", "TimeNotSupported", "BYHOUR"),
    ("FREQ=DAILY;COUNT=\u0661", "BadValue", "COUNT"),
    ("FREQ=MONTHLY;BYMONTHDAY=32", "ValueOutOfRange", "BYMONTHDAY"),
    ("FREQ=DAILY;RSCALE=KLINGON", "UnknownCalendar", None),
    ("FREQ=DAILY;RSCALE=HEBREW", "MismatchedCalendar", None),
    ("COUNT=1", "MissingPart", "FREQ"),
    ("FREQ=DAILY;COUNT=1;UNTIL=20240101", "CountWithUntil", None),
    ("FREQ=WEEKLY;BYMONTHDAY=1", "PartNotAllowed", "BYMONTHDAY"),
    ("FREQ=WEEKLY;BYDAY=1MO", "OrdinalNotAllowed", None),
    ("FREQ=MONTHLY;BYSETPOS=1", "SetPosAlone", None),
]


def rows_of(word: str) -> bytes:
    return b"".join(it for it in (TOP / "rows" / ROWS[word]).read_bytes().splitlines(keepends=True) if it.startswith(b"row"))


class Rules(unittest.TestCase):
    def test_they_are_those_of_the_program(self):
        rows = b"".join(map(rows_of, ROWS))
        for (calendar, rule), (first, last) in itertools.product(RULES, ((START, START + 4000), (START + 1500, START + 6000), (START - 900, START + 900))):
            with self.subTest(calendar=calendar, rule=rule, first=first):
                lines = rule_lines(calendar, first, last, [str(START)], rule, rows=rows)
                wanted = [(int(line.split()[0]), int(line.rsplit("@", 1)[1])) for line in lines]
                found = list(rrule(rule, START, first, last, calendar=calendar))
                self.assertEqual([(it.index, it.date.day_number) for it in found], wanted)
                self.assertTrue(all(it.date.calendar is Calendar.of(calendar) for it in found))

    def test_computed_years(self):
        lines = rule_lines("chinese", START, START + 9000, [str(START)], RULES[4][1])
        found = [it.date.day_number for it in rrule(RULES[4][1], START, last=START + 9000, calendar="chinese", years="computed")]
        self.assertEqual(found, [int(line.rsplit("@", 1)[1]) for line in lines])

    def test_starts(self):
        fields = {"year": 5784, "month_code": "M05L", "day": 10}
        start = Date.of_fields("hebrew", **fields)
        rule, last = "FREQ=YEARLY;SKIP=FORWARD", datetime.date(2027, 12, 31)
        wanted = ["2024-02-19", "2025-03-10", "2026-02-27", "2027-02-17"]
        for given, calendar in ((start, None), (fields, "hebrew"), (start.day_number, "hebrew"), (start.to_date(), Calendar.HEBREW)):
            self.assertEqual([str(it.date.to_date()) for it in rrule(rule, given, last=last, calendar=calendar)], wanted)
        with self.assertRaises(icu_calendar.MonthNotInYear):
            rrule(rule, {**fields, "year": 5785}, calendar="hebrew")

    def test_they_come_one_by_one(self):
        endless = rrule("FREQ=YEARLY;BYMONTH=2;BYMONTHDAY=29", datetime.date(2024, 1, 1))
        self.assertEqual([(it.index, it.date.year) for it in itertools.islice(endless, 3)], [(0, 2024), (1, 2028), (2, 2032)])

    def test_they_end(self):
        self.assertEqual([it.index for it in rrule("FREQ=DAILY;COUNT=3", START)], [0, 1, 2])
        self.assertEqual(len(list(rrule("FREQ=DAILY", START, last=START + 99_999))), 100_000)
        self.assertEqual(list(rrule("FREQ=YEARLY;BYMONTH=2;BYMONTHDAY=31", START, last=START + 99_999)), [])

    def test_refusals(self):
        for rule, cause, part in REFUSED:
            with self.subTest(rule=rule), self.assertRaises(RuleError) as caught:
                rrule(rule, START)
            self.assertEqual((caught.exception.cause, caught.exception.part), (cause, part), rule)
            self.assertIn(repr(rule), str(caught.exception))
        with self.assertRaises(icu_calendar.InvalidDayNumber):
            rrule("FREQ=DAILY", START, START, START - 1)
        with self.assertRaises(Refused):
            rule_lines("iso", START, START, [str(START)], "FREQ=")


class Rows(unittest.TestCase):
    def test_they_are_those_of_the_files(self):
        for calendar, (word, _, _) in PUBLISHED.items():
            self.assertEqual(published_rows(calendar), rows_of(word), word)

    def test_other_calendars_have_none(self):
        self.assertEqual(published_rows(Calendar.HEBREW), b"")


if __name__ == "__main__":
    unittest.main()
