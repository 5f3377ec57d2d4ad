"""Each refusal, by the name of its error."""

import datetime
import unittest

import icu_calendar
from icu_calendar import Calendar, Date, Duration, Overflow, Unit, Years, anniversaries, easter, holidays, recurrences, run, span
from icu_calendar.errors import BY_CODE
from icu_calendar.program import anniversary_lines

ISO, HEBREW = Calendar.ISO, Calendar.HEBREW
IN_2024 = {"year": 2024, "month": 1, "day": 1}

FIELDS = [
    (icu_calendar.NotEnoughFields, ISO, {"year": 2024, "month": 1}, 0),
    (icu_calendar.TooManyFields, ISO, {**IN_2024, "month_code": "M01"}, 0),
    (icu_calendar.OutOfRange, ISO, {"year": 1040001, "month": 1, "day": 1}, 0),
    (icu_calendar.OutOfRange, ISO, {"year": 2**31, "month": 1, "day": 1}, 0),
    (icu_calendar.InvalidEra, ISO, {"era": "reiwa", "era_year": 1, "month": 1, "day": 1}, 0),
    (icu_calendar.InconsistentYear, ISO, {"era": "default", "era_year": 2023, **IN_2024}, 0),
    (icu_calendar.MonthCodeSyntax, ISO, {"year": 2024, "month_code": "M1", "day": 1}, 0),
    (icu_calendar.MonthNotInCalendar, ISO, {"year": 2024, "month": 13, "day": 1}, 0),
    (icu_calendar.MonthNotInYear, HEBREW, {"year": 5785, "month_code": "M05L", "day": 1}, 0),
    (icu_calendar.InconsistentMonth, HEBREW, {"year": 5784, "month": 6, "ordinal_month": 6, "day": 1}, 0),
    (icu_calendar.InvalidOrdinalMonth, HEBREW, {"year": 5785, "ordinal_month": 13, "day": 1}, 12),
    (icu_calendar.InvalidDay, ISO, {"year": 2023, "month": 2, "day": 29}, 28),
    (icu_calendar.UnknownCalendar, 20, IN_2024, 0),
    (icu_calendar.UnknownOption, ISO, {**IN_2024, "overflow": 3}, 0),
    (icu_calendar.UnknownOption, ISO, {**IN_2024, "missing": 3}, 0),
]


class Refusals(unittest.TestCase):
    def refused(self, error, call, limit: int = 0):
        with self.assertRaises(error) as caught:
            call()
        self.assertEqual(caught.exception.max, limit)

    def test_fields(self):
        for error, calendar, fields, limit in FIELDS:
            with self.subTest(error=error.__name__, fields=fields):
                self.refused(error, lambda c=calendar, f=fields: Date.of_fields(c, **f), limit)

    def test_years(self):
        self.refused(icu_calendar.UnknownYears, lambda: Date.of_day(1, ISO, 2))

    def test_day_numbers(self):
        for day in (-365242500, 365242135, 2**63):
            self.refused(icu_calendar.InvalidDayNumber, lambda d=day: Date.of_day(d))

    def test_sums(self):
        leap_day = Date.of_fields(HEBREW, year=5784, month_code="M05L", day=30)
        self.refused(icu_calendar.MonthNotInYear, lambda: leap_day.add(Duration(years=1), Overflow.REJECT))
        self.refused(icu_calendar.InvalidDay, lambda: Date.of_fields(ISO, year=2024, month=1, day=31).add(Duration(months=1), Overflow.REJECT), 29)
        self.refused(icu_calendar.OutOfRange, lambda: leap_day.add(Duration(years=2080001)))
        for name in ("years", "months", "weeks", "days"):
            for number in (2**32, -1):
                with self.assertRaisesRegex(icu_calendar.OutOfRange, rf"Duration\({name}={number}\)"):
                    Duration(**{name: number})
        with self.assertRaises(TypeError):
            Duration(days=1.5)

    def test_differences_and_easter(self):
        self.refused(icu_calendar.UnknownOption, lambda: Date.of_day(1).until(Date.of_day(2), 5))
        self.refused(icu_calendar.UnknownOption, lambda: easter(2024, HEBREW))
        self.refused(icu_calendar.OutOfRange, lambda: easter(2**31))
        self.refused(icu_calendar.InvalidDayNumber, lambda: easter(1000001))

    def test_errors_say_the_value_and_what_would_do(self):
        for call, words in (
            (lambda: Date.of_day(1, "hebew"), ["'hebew'", "'hebrew' is meant", "islamic-umalqura"]),
            (lambda: Date.of_day(1, 99), ["99", "Calendar.HEBREW"]),
            (lambda: Date.of_day(1, "iso", "real"), ["'real'", "computed, published"]),
            (lambda: Date.of_day(10**9), ["1000000000", "-365242499 to 365242134"]),
            (lambda: Date.of_fields(ISO, year=2023, month=2, day=29), ["'iso', year=2023, month=2, day=29", "1 to 28 would do"]),
            (lambda: Date.of_fields(ISO, year=2023, month_code="M1", day=29), ["month_code='M1'", "M05L"]),
            (lambda: Date.fromisoformat("2024-3-1"), ["'2024-3-1'", "2024-03-01[u-ca=hebrew]"]),
            (lambda: Date.of_day(1).until(10**9), ["1000000000"]),
            (lambda: Date.of_day(-5).to_date(), ["1 to 9999"]),
            (lambda: easter(2024, HEBREW), ["'hebrew'", "'julian'"]),
            (lambda: recurrences(1, "spam"), ["'spam'", "months"]),
            (lambda: recurrences(1, Unit.DAYS, 0), ["every=0"]),
            (lambda: anniversaries(ISO, "M01", 32, 1), ["day=32", "1 to 31"]),
            (lambda: anniversaries(ISO, "M01", 1, 2, 1), ["from 2 to 1"]),
        ):
            with self.assertRaises(icu_calendar.CalendarError) as caught:
                call()
            for word in words:
                self.assertIn(word, str(caught.exception))

    def test_other_types_are_no_days(self):
        for wrong in ("2024-01-01", 1.5, None, datetime.datetime(2024, 1, 1)):
            with self.assertRaisesRegex(TypeError, "a day is a Date, a datetime.date or a day number"):
                Date.of_day(1).until(wrong)

    def test_every_error_is_tried(self):
        # Columns of one length can't be given to `arrays`, so C tests that code.
        tried = {error for error, *_ in FIELDS} | {icu_calendar.UnknownYears, icu_calendar.InvalidDayNumber, icu_calendar.LengthsDiffer}
        self.assertEqual(tried, set(BY_CODE.values()))
        self.assertEqual([it.value for it in Years], [0, 1])
        self.assertEqual(len(Unit), 5)


class ProgramRefusals(unittest.TestCase):
    def test_words(self):
        for words in ([], ["spam"], ["span", "span"], ["gen", "100001"], ["holidays", "1"]):
            self.assertEqual(run(words), (2, b""))
        for words in (["span", ""], ["span span"]):
            with self.assertRaises(ValueError):
                run(words)

    def test_words_that_are_not_utf8(self):
        with self.assertRaises(UnicodeEncodeError):
            run(["\ud800"])

    def test_a_row_that_is_refused(self):
        with self.assertRaises(icu_calendar.Refused) as caught:
            span(b"", b"row china 1912\n")
        self.assertEqual((str(caught.exception), caught.exception.status), ("table line 1 syntax", 6))

    def test_a_list_that_is_refused(self):
        with self.assertRaises(icu_calendar.Refused) as caught:
            anniversary_lines(ISO, "M01", 1, 2, 1)
        self.assertEqual(str(caught.exception), "err InvalidWindow")

    def test_a_book_that_is_refused(self):
        with self.assertRaises(icu_calendar.Refused) as caught:
            holidays("fixed,Founding day,klingon,M01,1,exact", 738886)
        self.assertEqual(str(caught.exception), "err record 1 field 3")

    def test_an_input_that_is_too_long(self):
        request = b"span iso iso days reject none from year=2024 month=M01 day=1 to year=2024 month=M01 day=2\n"
        with self.assertRaises(icu_calendar.ProgramError) as caught:
            span(request + b"#" * 16777216)
        self.assertEqual((caught.exception.status, caught.exception.output.count(b"\n")), (7, 1))


if __name__ == "__main__":
    unittest.main()
