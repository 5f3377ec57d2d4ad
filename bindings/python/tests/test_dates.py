"""Published facts, and what the methods of dates promise."""

import datetime
import unittest

from icu_calendar import Calendar, Date, Duration, Missing, Overflow, Unit, Years, easter

ISO = Calendar.ISO


def iso(year: int, month: int, day: int) -> Date:
    return Date.of_fields(ISO, year=year, month=month, day=day)


class KnownDates(unittest.TestCase):
    """First days of years and feasts, as they were published."""

    FACTS = [
        (Calendar.CHINESE, Years.PUBLISHED, 2023, "M01", 1, (2023, 1, 22)),
        (Calendar.CHINESE, Years.PUBLISHED, 2024, "M01", 1, (2024, 2, 10)),
        (Calendar.CHINESE, Years.PUBLISHED, 2025, "M06L", 1, (2025, 7, 25)),
        (Calendar.DANGI, Years.PUBLISHED, 2027, "M01", 1, (2027, 2, 7)),
        (Calendar.ISLAMIC_UMALQURA, Years.PUBLISHED, 1446, "M09", 1, (2025, 3, 1)),
        (Calendar.ISLAMIC_CIVIL, Years.COMPUTED, 1445, "M01", 1, (2023, 7, 19)),
        (Calendar.HEBREW, Years.COMPUTED, 5784, "M01", 1, (2023, 9, 16)),
        (Calendar.HEBREW, Years.COMPUTED, 5784, "M05L", 14, (2024, 2, 23)),
        (Calendar.PERSIAN, Years.PUBLISHED, 1403, "M01", 1, (2024, 3, 20)),
        (Calendar.COPTIC, Years.COMPUTED, 1740, "M01", 1, (2023, 9, 12)),
        (Calendar.INDIAN, Years.COMPUTED, 1946, "M01", 1, (2024, 3, 21)),
        (Calendar.JULIAN, Years.COMPUTED, 2024, "M12", 25, (2025, 1, 7)),
        (Calendar.JAPANESE, Years.COMPUTED, 2019, "M05", 1, (2019, 5, 1)),
        (Calendar.BUDDHIST, Years.COMPUTED, 2567, "M01", 1, (2024, 1, 1)),
        (Calendar.ROC, Years.COMPUTED, 113, "M01", 1, (2024, 1, 1)),
    ]

    def test_dates_are_on_published_days(self):
        for calendar, years, year, code, day, there in self.FACTS:
            with self.subTest(calendar=calendar.name, year=year):
                date = Date.of_fields(calendar, years, year=year, month_code=code, day=day)
                self.assertEqual(date.to_date(), datetime.date(*there))
                self.assertEqual((date.month_code, date.day), (code, day))
                back = Date.of_date(datetime.date(*there), calendar, years)
                self.assertEqual((back.extended_year, back.month_code, back.day), (year, code, day))

    def test_easter(self):
        self.assertEqual(easter(2024).to_date(), datetime.date(2024, 3, 31))
        self.assertEqual(easter(2025).to_date(), datetime.date(2025, 4, 20))
        self.assertEqual(easter(2024, Calendar.JULIAN).to_date(), datetime.date(2024, 5, 5))

    def test_weeks_and_weekdays_are_those_of_python(self):
        for day in range(738000, 742000, 13):
            date = datetime.date.fromordinal(day)
            self.assertEqual((*Date.of_day(day).week_of_year(), Date.of_day(day).weekday), tuple(date.isocalendar()))

    def test_iso_dates_are_those_of_python(self):
        for day in range(1, 3652059, 1009):
            date, there = Date.of_day(day), datetime.date.fromordinal(day)
            self.assertEqual((date.extended_year, date.month_number, date.day), (there.year, there.month, there.day))


class Conversions(unittest.TestCase):
    def test_no_day_is_lost(self):
        for calendar in Calendar:
            for years in Years:
                for day in (-365242499, -1, 0, 1, 738914, 365242134):
                    date = Date.of_day(day, calendar, years)
                    again = Date.of_fields(calendar, years, year=date.extended_year, month_code=date.month_code, day=date.day)
                    self.assertEqual(again.day_number, day)
                    self.assertEqual(date.to_calendar(ISO).day_number, day)

    def test_eras_and_cycles(self):
        reiwa = Date.of_fields(Calendar.JAPANESE, era="reiwa", era_year=6, month=1, day=1)
        self.assertEqual((reiwa.era, reiwa.era_year, reiwa.cyclic_year), ("reiwa", 6, None))
        self.assertEqual(reiwa.to_date(), datetime.date(2024, 1, 1))
        dragon = Date.of_fields(Calendar.CHINESE, Years.PUBLISHED, year=2024, month=1, day=1)
        self.assertEqual((dragon.era, dragon.era_year, dragon.cyclic_year), (None, 2024, 41))

    def test_order_agrees_with_time(self):
        self.assertLess(iso(2024, 1, 1), iso(2024, 1, 2))
        self.assertEqual(iso(2024, 1, 1), iso(2024, 1, 1).to_calendar(Calendar.HEBREW))
        self.assertEqual(len({iso(2024, 1, 1), iso(2024, 1, 1).to_calendar(Calendar.ROC)}), 1)

    def test_missing_fields_are_supplied(self):
        date = Date.of_fields(ISO, month=2, day=29, missing=Missing.ECMA)
        self.assertEqual((date.extended_year, date.month_code, date.day), (1972, "M02", 29))


class Arithmetic(unittest.TestCase):
    def test_sums(self):
        self.assertEqual(iso(2024, 1, 31) + Duration(months=1), iso(2024, 2, 29))
        self.assertEqual(iso(2024, 3, 31) - Duration(months=1), iso(2024, 2, 29))
        self.assertEqual(iso(2024, 2, 28).add(Duration(days=2), Overflow.REJECT), iso(2024, 3, 1))

    def test_differences_lead_back(self):
        first, second = iso(1912, 2, 18), iso(2033, 12, 25)
        for calendar in Calendar:
            for unit in Unit:
                for a, b in ((first, second), (second, first), (first, first)):
                    here = a.to_calendar(calendar, Years.PUBLISHED)
                    with self.subTest(calendar=calendar.name, unit=unit.name):
                        self.assertEqual(here.add(here.until(b, unit), Overflow.CONSTRAIN), b)

    def test_timedeltas(self):
        day = datetime.timedelta(days=1)
        self.assertEqual(iso(2024, 2, 28) + day, iso(2024, 2, 29))
        self.assertEqual(day + iso(2024, 2, 28), iso(2024, 2, 29))
        self.assertEqual(iso(2024, 3, 1) - day, iso(2024, 2, 29))
        self.assertEqual(iso(2024, 3, 1) - iso(2024, 2, 28), 2 * day)
        self.assertEqual(iso(2024, 3, 1) - datetime.date(2024, 2, 28), 2 * day)
        self.assertEqual(datetime.date(2024, 3, 1) - iso(2024, 2, 28), 2 * day)
        self.assertEqual((iso(2024, 3, 1).to_calendar("hebrew") + day).calendar, Calendar.HEBREW)
        for wrong in (1, "P1D", 1.5, None):
            with self.assertRaises(TypeError):
                iso(2024, 3, 1) + wrong

    def test_texts(self):
        self.assertEqual(str(iso(2024, 1, 1).until(iso(2022, 11, 30), Unit.YEARS)), "-P1Y1M1D")
        self.assertEqual(str(Duration()), "P0D")
        self.assertEqual(repr(iso(-1, 2, 3)), "Date(iso -1-M02-03)")


class WithPython(unittest.TestCase):
    """Dates beside `datetime.date`, and what its users expect."""

    def test_they_are_compared_by_their_days(self):
        there, here = datetime.date(2024, 2, 23), Date.of_fields("hebrew", year=5784, month_code="M05L", day=14)
        self.assertTrue(here == there and there == here and not here != there)
        self.assertEqual(hash(here), hash(there))
        self.assertEqual(len({here, there}), 1)
        self.assertTrue(here < datetime.date(2024, 2, 24) and datetime.date(2024, 2, 22) < here <= there >= here)
        self.assertNotEqual(here, datetime.datetime(2024, 2, 23))
        with self.assertRaises(TypeError):
            here < datetime.datetime(2024, 2, 24)  # noqa: B015
        self.assertEqual(hash(Date.of_day(-5)), hash(-5))

    def test_today(self):
        before, today, after = datetime.date.today(), Date.today("persian"), datetime.date.today()
        self.assertTrue(before <= today <= after)
        self.assertEqual(today.calendar, Calendar.PERSIAN)

    def test_texts_of_rfc_9557(self):
        for date, text in (
            (iso(2024, 3, 1), "2024-03-01"),
            (iso(2024, 3, 1).to_calendar("hebrew"), "2024-03-01[u-ca=hebrew]"),
            (iso(2024, 3, 1).to_calendar("gregorian"), "2024-03-01[u-ca=gregory]"),
            (iso(12024, 3, 1), "+012024-03-01"),
            (iso(-1, 12, 31), "-000001-12-31"),
            (iso(0, 1, 1), "0000-01-01"),
        ):
            self.assertEqual(date.isoformat(), text)
            again = Date.fromisoformat(text)
            self.assertEqual((again, again.calendar), (date, date.calendar))
        self.assertEqual(Date.fromisoformat("2024-03-01[!u-ca=hebrew]").month_code, "M05L")
        self.assertEqual(Date.fromisoformat("2024-03-01", "hebrew").month_code, "M05L")
        for calendar in Calendar:
            there = iso(2024, 3, 1).to_calendar(calendar)
            self.assertEqual(Date.fromisoformat(there.isoformat()).calendar, calendar)

    def test_replace(self):
        purim = Date.of_fields("hebrew", year=5784, month_code="M06", day=14)
        self.assertEqual(purim.replace(year=5785).to_date(), datetime.date(2025, 3, 14))
        self.assertEqual(purim.replace(month_code="M05L").to_date(), datetime.date(2024, 2, 23))
        self.assertEqual(purim.replace(ordinal_month=7, day=1).month_code, "M06")
        self.assertEqual(iso(2024, 2, 29).replace(year=2023, overflow="constrain"), iso(2023, 2, 28))

    def test_lengths(self):
        for year, month, days in ((2024, 2, 29), (2023, 2, 28), (2024, 12, 31)):
            self.assertEqual(iso(year, month, 1).days_in_month, days)
        leap, plain = (Date.of_fields("hebrew", year=it, month=1, day=1) for it in (5784, 5785))
        self.assertEqual([(it.months_in_year, it.days_in_year) for it in (leap, plain)], [(13, 383), (12, 355)])
        self.assertEqual(iso(2024, 12, 31).day_of_year, datetime.date(2024, 12, 31).timetuple().tm_yday)

    def test_names_stand_for_calendars_and_options(self):
        for calendar in Calendar:
            self.assertIs(Date.of_day(1, calendar.program_name).calendar, calendar)
            self.assertIs(Calendar.of(calendar.cldr_name), calendar)
        self.assertIs(Calendar.of("ISLAMIC_UMALQURA"), Calendar.ISLAMIC_UMALQURA)
        self.assertEqual(iso(2024, 1, 1).until(datetime.date(2025, 1, 1), "years"), Duration(years=1))
        self.assertEqual(iso(2024, 1, 31).add(Duration(months=1), "constrain"), iso(2024, 2, 29))

    def test_published_years_are_the_default(self):
        self.assertIs(Date.of_day(1, "chinese").years, Years.PUBLISHED)
        self.assertIs(Date.of_day(1, "chinese", "computed").years, Years.COMPUTED)

    def test_eras_are_those_of_the_list(self):
        for calendar in Calendar:
            found = {Date.of_day(it, calendar).era for it in (-365242499, 1, 700000, 702000, 710000, 735000, 738886)}
            self.assertLessEqual(found - {None}, set(calendar.eras))


if __name__ == "__main__":
    unittest.main()
