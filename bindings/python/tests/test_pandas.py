"""The accessor of pandas."""

import datetime
import unittest

try:
    import numpy as np
    import pandas as pd
except ImportError:
    pd = None
else:
    import icu_calendar.pandas  # noqa: F401

from icu_calendar import Date, Duration


@unittest.skipIf(pd is None, "pandas is missing")
class Accessor(unittest.TestCase):
    def setUp(self):
        self.series = pd.Series(pd.to_datetime(["2024-02-10", None, "2025-01-29"]), index=[5, 6, 7], name="when")

    def test_parts(self):
        dates = self.series.calendar("chinese")
        self.assertEqual(dates.month_code.tolist(), ["M01", None, "M01"])
        self.assertEqual((str(dates.year.dtype), dates.year.isna().tolist(), dates.year[5]), ("Int32", [False, True, False], 2024))
        self.assertEqual(list(dates.day.index), [5, 6, 7])
        self.assertEqual(dates.cause.tolist(), ["", "Missing", ""])
        self.assertEqual(list(dates.frame().columns), ["year", "era", "era_year", "month_code", "day", "cause"])
        self.assertEqual(dates.to("hebrew").year.tolist(), [5784, pd.NA, 5785])
        self.assertEqual(self.series.calendar("persian", "computed").month_is_leap.dropna().tolist(), [False, False])

    def test_days_stay_what_they_are(self):
        self.assertTrue(self.series.calendar("hebrew").days().equals(self.series))
        zoned = self.series.dt.tz_localize("Europe/Rome")
        self.assertEqual(zoned.calendar("iso").day_number[5], datetime.date(2024, 2, 10).toordinal())
        numbers = pd.Series([738886, None], dtype="Int64")
        self.assertEqual(numbers.calendar("iso").year.tolist(), [2024, pd.NA])
        objects = pd.Series([datetime.date(2024, 1, 1), None, Date.of_day(738886)], dtype=object)
        self.assertEqual(objects.calendar("iso").year.tolist(), [2024, pd.NA, 2024])

    def test_sums(self):
        later = self.series.calendar("hebrew").add(years=1)
        self.assertEqual(later.dt.strftime("%Y-%m-%d").tolist()[::2], ["2025-03-01", "2026-01-18"])
        self.assertTrue(pd.isna(later[6]))
        self.assertEqual(self.series.calendar("iso").add(Duration(months=1))[7], pd.Timestamp("2025-02-28"))
        each = self.series.calendar("iso").add(days=pd.Series([1, 2], index=[7, 5]))
        self.assertEqual([each[5], each[7]], [pd.Timestamp("2024-02-12"), pd.Timestamp("2025-01-30")])
        rejected = self.series.calendar("iso").added(months=1, overflow="reject")
        self.assertEqual(rejected.cause.tolist(), ["", "Missing", "InvalidDay"])
        far = self.series.calendar("iso").add(years=1000)
        self.assertEqual(far[5], Date.of_fields("iso", year=3024, month=2, day=10))

    def test_differences(self):
        apart = self.series.calendar("iso").until(datetime.date(2030, 1, 1), "years")
        self.assertEqual(apart.loc[5, ["years", "months", "days"]].tolist(), [5, 10, 22])
        self.assertEqual(apart.cause.tolist(), ["", "Missing", ""])
        column = self.series.calendar("iso").until(self.series[::-1] - pd.Timedelta(days=366), "years")
        self.assertEqual(column.years.tolist(), [-1, pd.NA, -1])

    def test_empty_series(self):
        self.assertEqual(len(self.series[:0].calendar("hebrew").frame()), 0)

    def test_a_long_series(self):
        days = pd.Series(np.arange(700000, 760000))
        there = days.calendar("hebrew")
        self.assertTrue((there.day_number == days).all())


if __name__ == "__main__":
    unittest.main()
