"""Columns over NumPy: at every place what the module says of one date."""

import datetime
import itertools
import unittest

try:
    import numpy as np
except ImportError:
    np = None
else:
    from icu_calendar import arrays

from icu_calendar import Calendar, CalendarError, Date, Duration, Years

FIRST, LAST = -365242499, 365242134
PARTS = ["day_number", "year", "era", "era_year", "cyclic_year", "ordinal_month", "month_number", "month_is_leap", "month_code", "day", "weekday"]


def said(call):
    """What a call on one date returns, or the name of its error."""
    try:
        return call()
    except CalendarError as error:
        return type(error).__name__


@unittest.skipIf(np is None, "NumPy is missing")
class Conversions(unittest.TestCase):
    def test_days_are_shown_as_one_by_one(self):
        days = np.concatenate([np.arange(690000, 770000, 997), [FIRST, LAST, FIRST - 1, LAST + 1, 0, -1, 2**62]])
        for calendar, years in itertools.product(Calendar, Years):
            column = arrays.dates(days, calendar, years)
            for part in PARTS:
                values = getattr(column, part)
                wanted = [said(lambda d=int(day), p=part: getattr(Date.of_day(d, calendar, years), p)) for day in days]
                found = [cause or value for cause, value in zip(column.cause.tolist(), values.tolist())]
                blank = {"era": "", "cyclic_year": 0}
                self.assertEqual(found, [blank.get(part, it) if it is None else it for it in wanted], (calendar, part))

    def test_datetime64_and_missing_places(self):
        days = np.array(["2024-02-10", "NaT", "2025-01-29"], dtype="datetime64[D]")
        for given in (days, days.astype("datetime64[s]"), np.ma.MaskedArray(days), days.astype(object), days.reshape(3, 1)):
            column = arrays.dates(given, "chinese")
            self.assertEqual(column.shape, given.shape)
            self.assertEqual(column.month_code.ravel().tolist(), ["M01", None, "M01"])
            self.assertEqual(column.missing.ravel().tolist(), [False, True, False])
            self.assertTrue(np.array_equal(column.to_datetime64().ravel(), days, equal_nan=True))
            self.assertEqual(column.causes(), {"Missing": 1})
        masked = np.ma.MaskedArray([738886, 1, 738886], mask=[False, True, False])
        self.assertEqual(arrays.dates(masked).year.tolist(), [2024, None, 2024])
        self.assertEqual(arrays.dates(masked).add(years=1).until(masked, "years").years.tolist(), [-1, None, -1])

    def test_scalars_lists_and_dates(self):
        self.assertEqual(arrays.dates(738886).year, 2024)
        self.assertEqual(arrays.dates([datetime.date(2024, 1, 1), Date.of_day(739000), None, 738886]).year.tolist(), [2024, 2024, None, 2024])
        self.assertEqual(arrays.dates(Date.of_day(738886), "hebrew").year.tolist(), 5784)
        self.assertEqual(arrays.dates(np.array([], dtype=np.int64)).year.tolist(), [])
        for wrong in ([1.5], ["2024-01-01"], np.array([True])):
            with self.assertRaises(TypeError):
                arrays.dates(wrong)

    def test_numbers_that_are_no_days_spoil_no_other(self):
        for given in (np.array([738886, 2**64 - 1, 738886], dtype=np.uint64), [738886, 2**70, datetime.date(2024, 1, 1)], [738886, 10**9, None]):
            column = arrays.dates(given)
            self.assertEqual(column.cause.tolist()[:2], ["", "InvalidDayNumber"])
            self.assertEqual(column.year.tolist()[:2], [2024, None])

    def test_times_belong_to_their_days(self):
        times = np.array(["1969-12-31T23:59:59", "0001-01-01T00:00:01", "-0001-12-31T12"], dtype="datetime64[s]")
        self.assertEqual(arrays.dates(times).day_number.tolist(), [719162, 1, -366])

    def test_other_shapes_and_strides(self):
        days = np.arange(738000, 738024)
        wanted = arrays.dates(days, "hebrew").day.tolist()
        self.assertEqual(arrays.dates(days.reshape(2, 3, 4), "hebrew").day.ravel().tolist(), wanted)
        self.assertEqual(arrays.dates(days[::-3], "hebrew").day.tolist(), wanted[::-3])
        self.assertEqual(arrays.dates(days.astype(">i4"), "hebrew").day.tolist(), wanted)
        self.assertEqual(arrays.dates(days, "hebrew")[3:7].day.tolist(), wanted[3:7])

    def test_one_column_in_another_calendar(self):
        hebrew = arrays.dates(np.arange(738000, 739000, 7), "hebrew")
        chinese = hebrew.to_calendar("chinese")
        self.assertEqual(chinese.day_number.tolist(), hebrew.day_number.tolist())
        self.assertEqual(chinese.years, hebrew.years)
        self.assertEqual(arrays.dates(hebrew.parts, "chinese").month_code.tolist(), chinese.month_code.tolist())

    def test_nothing_is_written_to_what_is_given(self):
        days = np.array(["2024-02-10", "NaT"], dtype="datetime64[D]")
        before = days.copy()
        column = arrays.dates(days)
        column.to_datetime64()[:] = 0
        column.add(days=1)
        self.assertTrue(np.array_equal(days, before, equal_nan=True))
        self.assertEqual(column.parts[1], np.zeros((), arrays.DATE))


@unittest.skipIf(np is None, "NumPy is missing")
class Fields(unittest.TestCase):
    def test_fields_are_named_as_one_by_one(self):
        years, months, days = np.arange(5780, 5790), np.array([0, 1, 5, 13]), np.array([1, 29, 30, 31, 300])
        for leap, overflow in itertools.product((False, True), ("reject", "constrain")):
            given = {"year": years[:, None, None], "month": months[:, None], "day": days, "month_is_leap": leap}
            column = arrays.of_fields("hebrew", **given, overflow=overflow)
            for at in np.ndindex(column.shape):
                one = {"year": int(years[at[0]]), "month": int(months[at[1]]), "day": int(days[at[2]]), "month_is_leap": leap}
                try:
                    wanted, limit = Date.of_fields("hebrew", **one, overflow=overflow).day_number, 0
                except CalendarError as error:
                    wanted, limit = type(error).__name__, error.max
                found = str(column.cause[at]) or int(column.day_numbers[at])
                self.assertEqual((found, int(column.maxes[at])), (wanted, limit), one)

    def test_month_codes(self):
        codes = np.array(["M05", "M05L", "M06", "M00", "M13", "M99L", "M5", "", "M05X", "M05LL", "m05", "X05"])
        column = arrays.of_fields("hebrew", year=5784, month_code=codes, day=1)
        for code, cause, day in zip(codes.tolist(), column.cause.tolist(), column.day_numbers.tolist()):
            wanted = said(lambda c=code: Date.of_fields("hebrew", year=5784, month_code=c, day=1).day_number)
            self.assertEqual(cause or day, "MonthCodeSyntax" if code == "" else wanted, code)
        self.assertEqual(arrays.of_fields("hebrew", year=[5784, 5785], month_code="M05L", day=1).cause.tolist(), ["", "MonthNotInYear"])

    def test_eras_and_missing_fields(self):
        column = arrays.of_fields("japanese", era="reiwa", era_year=[1, 6, 0], month=5, day=1)
        self.assertEqual(column.year.tolist(), [2019, 2024, 2018])
        self.assertEqual(arrays.of_fields("iso", month=[2, 1], day=[29, 31], missing="ecma").year.tolist(), [1972, 1972])
        self.assertEqual(arrays.of_fields("iso", year=[1, 2], day=1).causes(), {"NotEnoughFields": 2})

    def test_masked_places_and_numbers_out_of_range(self):
        year = np.ma.MaskedArray([2024, 2024, 2**31], mask=[False, True, False])
        column = arrays.of_fields("iso", year=year, month=1, day=1)
        self.assertEqual(column.cause.tolist(), ["", "Missing", "OutOfRange"])
        self.assertEqual(arrays.of_fields("iso", year=2024, month=1, day=[-1, 256]).causes(), {"OutOfRange": 2})
        with self.assertRaises(TypeError):
            arrays.of_fields("iso", year=[1.5], month=1, day=1)


@unittest.skipIf(np is None, "NumPy is missing")
class Arithmetic(unittest.TestCase):
    DAYS = np.concatenate([np.arange(700000, 760000, 1999), [FIRST, LAST, LAST + 1]])

    def wanted_sum(self, calendar, day, duration, overflow):
        return said(lambda: Date.of_day(day, calendar).add(duration, overflow).day_number)

    def found(self, column):
        return [cause or day for cause, day in zip(column.cause.tolist(), column.day_numbers.tolist())]

    def test_one_duration(self):
        for calendar, overflow in itertools.product(("iso", "hebrew", "chinese", "islamic-umalqura"), ("constrain", "reject")):
            for duration in (Duration(years=1), Duration(months=5, days=3), -Duration(years=19, weeks=2)):
                column = arrays.dates(self.DAYS, calendar).add(duration, overflow=overflow)
                wanted = [self.wanted_sum(calendar, int(it), duration, overflow) for it in self.DAYS]
                # A day that was refused has no date to add to.
                self.assertEqual(self.found(column), ["Missing" if it == "InvalidDayNumber" else it for it in wanted])

    def test_a_duration_each(self):
        years = np.arange(-10, 10)
        column = arrays.dates(738945, "hebrew").add(years=years, months=0, days=np.zeros(20, dtype=int))
        wanted = [self.wanted_sum("hebrew", 738945, Duration(years=abs(int(it)), is_negative=bool(it < 0)), "constrain") for it in years]
        self.assertEqual(self.found(column), wanted)
        mixed = arrays.dates([738945, 738945, 738945]).add(years=[1, -1, 1], days=np.ma.MaskedArray([1, 1, 1], mask=[0, 0, 1]))
        self.assertEqual(mixed.cause.tolist(), ["", "OutOfRange", "Missing"])

    def test_differences_lead_back(self):
        for calendar, unit in itertools.product(Calendar, ("years", "months", "weeks", "days")):
            first = arrays.dates(self.DAYS, calendar)
            apart = first.until(738886, unit)
            back = first.add(apart, overflow="constrain")
            self.assertEqual(set(back.day_numbers[back.done].tolist()), {738886})
            self.assertEqual(apart.causes(), {"Missing": 1})
            for day, *parts in list(zip(self.DAYS[:-1], apart.years, apart.months, apart.weeks, apart.days))[::13]:
                one = Date.of_day(int(day), calendar).until(738886, unit)
                sign = -1 if one.is_negative else 1
                self.assertEqual([int(it) for it in parts], [sign * it for it in (one.years, one.months, one.weeks, one.days)])

    def test_columns_of_other_lengths(self):
        with self.assertRaises(ValueError):
            arrays.until([1, 2, 3], [1, 2])
        self.assertEqual(arrays.until([[1], [2]], [3, 4, 5]).days.tolist(), [[2, 3, 4], [1, 2, 3]])

    def test_weeks_are_those_of_python(self):
        days = np.arange(738000, 742000, 13)
        column = arrays.weeks(days)
        wanted = [tuple(datetime.date.fromordinal(int(it)).isocalendar()) for it in days]
        self.assertEqual(list(zip(column.year.tolist(), column.week.tolist(), column.weekday.tolist())), wanted)
        self.assertEqual(arrays.weeks([1, LAST + 1]).causes(), {"InvalidDayNumber": 1})


if __name__ == "__main__":
    unittest.main()
