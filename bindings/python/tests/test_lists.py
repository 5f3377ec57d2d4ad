"""Lists of dates: the same as the program's, one by one."""

import datetime
import itertools
import unittest
from pathlib import Path

from icu_calendar import Calendar, Date, Unit, Years, anniversaries, holidays, recurrences
from icu_calendar.program import anniversary_lines, holiday_lines, recurrence_lines

TOP = Path(__file__).resolve().parents[3]
ROWS = b"".join(it.read_bytes() for it in sorted((TOP / "rows").glob("*.rows")))
# From 1900 to 2100.
FIRST, LAST = 693596, 766644
CALENDARS = [Calendar.ISO, Calendar.HEBREW, Calendar.CHINESE, Calendar.DANGI, Calendar.ISLAMIC_CIVIL, Calendar.ISLAMIC_UMALQURA, Calendar.COPTIC]


def days_of(lines: list[str]) -> list[int]:
    """The day numbers in lines of dates, each with the same day twice."""
    return [int(line.rsplit("@", 1)[1].split()[0]) for line in lines]


class Anniversaries(unittest.TestCase):
    def test_they_are_those_of_the_program(self):
        for calendar, code, day in itertools.product(CALENDARS, ("M01", "M02", "M12"), (1, 29, 30, 31)):
            for exact, (years, rows) in itertools.product((True, False), ((Years.PUBLISHED, ROWS), (Years.COMPUTED, b""))):
                with self.subTest(calendar=calendar.name, code=code, day=day, exact=exact, years=years.name):
                    wanted = days_of(anniversary_lines(calendar, code, day, FIRST, LAST, exact=exact, rows=rows))
                    found = [it.day_number for it in anniversaries(calendar, code, day, FIRST, LAST, exact=exact, years=years)]
                    self.assertEqual(found, wanted)

    def test_leap_months(self):
        for exact in (True, False):
            wanted = days_of(anniversary_lines("hebrew", "M05L", 30, FIRST, LAST, exact=exact))
            self.assertEqual([it.day_number for it in anniversaries("hebrew", "M05L", 30, FIRST, LAST, exact=exact)], wanted)

    def test_windows_are_days_of_any_kind(self):
        first, last = datetime.date(2023, 1, 1), datetime.date(2025, 12, 31)
        wanted = ["2023-01-22", "2024-02-10", "2025-01-29"]
        for window in ((first, last), (first.toordinal(), last.toordinal()), (Date.of_date(first, "hebrew"), Date.of_date(last))):
            self.assertEqual([str(it.to_date()) for it in anniversaries("chinese", "M01", 1, *window)], wanted)

    def test_they_come_one_by_one(self):
        endless = anniversaries("iso", "M02", 29, datetime.date(2024, 1, 1))
        self.assertEqual([it.year for it in itertools.islice(endless, 3)], [2024, 2028, 2032])


class Recurrences(unittest.TestCase):
    STARTS = [("iso", 738916), ("hebrew", 738916), ("chinese", 738945), ("islamic-civil", 738946), ("coptic", 739000)]

    def test_they_are_those_of_the_program(self):
        for (calendar, day), unit, every, skip in itertools.product(self.STARTS, ("years", "months", "weeks", "days"), (1, 5), (True, False)):
            start = Date.of_day(day, calendar)
            fields = [f"year={start.year}", f"month={start.month_code}", f"day={start.day}"]
            for first, last in ((day, day + 2000), (day + 1000, day + 3000), (day - 500, day + 500)):
                with self.subTest(calendar=calendar, unit=unit, every=every, skip=skip, first=first - day):
                    lines = recurrence_lines(calendar, unit, every, first, last, fields, skip=skip, rows=ROWS)
                    wanted = [(int(line.split()[0]), day) for line, day in zip(lines, days_of(lines))]
                    found = [(it.index, it.date.day_number) for it in recurrences(start, unit, every, first, last, skip=skip)]
                    self.assertEqual(found, wanted)

    def test_the_calendar_of_a_plain_day(self):
        start = datetime.date(2024, 1, 31)
        months = itertools.islice(recurrences(start, Unit.MONTHS, skip=False), 3)
        self.assertEqual([str(it.date.to_date()) for it in months], ["2024-01-31", "2024-02-29", "2024-03-31"])
        hebrew = next(recurrences(start, Unit.MONTHS, calendar="hebrew"))
        self.assertEqual((hebrew.index, hebrew.date.month_code, hebrew.date.day), (0, "M05", 21))

    def test_they_end_with_the_valid_days(self):
        self.assertEqual(len(list(recurrences(365242134 - 800, "years"))), 3)


class Holidays(unittest.TestCase):
    def test_they_are_those_of_the_program(self):
        books = [*sorted((TOP / "books").glob("*.csv")), TOP / "examples/holidays.csv"]
        self.assertGreater(len(books), 1)
        for book in books:
            text = book.read_bytes()
            for first, last in ((738521, 741000), (738900, 738900), (700000, 701000), (-1000, 1000)):
                with self.subTest(book=book.name, first=first):
                    wanted = [(int(line.split()[0].split("@")[1]), line.split(" ", 1)[1]) for line in holiday_lines(text, first, last)]
                    found = [(it.date.day_number, it.name) for it in holidays(text, first, last, years="computed")]
                    self.assertEqual(found, wanted)

    def test_published_years_are_the_default(self):
        book = "fixed,New Year,chinese,M01,1,exact"
        found = holidays(book, datetime.date(2023, 1, 1), datetime.date(2025, 12, 31))
        self.assertEqual([str(it.date.to_date()) for it in found], ["2023-01-22", "2024-02-10", "2025-01-29"])

    def test_objects(self):
        first = next(holidays("easter,Easter,gregorian,,0,\neaster,Pascha,julian,,0,", datetime.date(2024, 4, 1)))
        self.assertEqual((first.name, first.record, first.date.to_date()), ("Pascha", 1, datetime.date(2024, 5, 5)))

    def test_many_holidays_of_one_day(self):
        book = "\n".join(f"fixed,New Year {it},iso,M01,1,exact" for it in range(600))
        found = list(holidays(book, datetime.date(2024, 1, 1), datetime.date(2025, 1, 1)))
        self.assertEqual([it.record for it in found], 2 * [*range(600)])
        self.assertEqual({(it.name, it.date.extended_year) for it in found if it.record == 599}, {("New Year 599", 2024), ("New Year 599", 2025)})

    def test_a_rule_without_days(self):
        book = "fixed,Never,iso,M02,30,exact\nfixed,Leap day,iso,M02,29,exact,2024,2028"
        self.assertEqual(next(holidays(book, 738886)).name, "Leap day")
        self.assertEqual([it.record for it in holidays(book, 738886, 748886)], [1, 1])


if __name__ == "__main__":
    unittest.main()
