"""Dates."""

from __future__ import annotations

import datetime
from ctypes import byref, c_int32, c_int64, c_size_t, c_uint8, create_string_buffer
from dataclasses import dataclass
from operator import index
from typing import Any, Union, overload

from .codes import Calendar, CalendarLike, Missing, MissingLike, Overflow, OverflowLike, Unit, UnitLike, Years, YearsLike
from .durations import Duration
from .errors import InvalidDayNumber, OutOfRange, UnknownOption, settle
from .library import DateParts, DurationParts, Fields, LengthParts, library
from .texts import annotation, iso_text, read

# The longest code of an era.
ERA_ROOM = 16
# What a month or a day may be, as the calls take them.
MOST_PART = 255
# The days of `datetime.date`.
LAST_OF_PYTHON = datetime.date.max.toordinal()


def fits(number: int | None, low: int, high: int) -> bool:
    return number is None or low <= number <= high


def said(calendar: Calendar, given: dict[str, Any]) -> str:
    """Returns the fields that were given, as a call is written."""
    return ", ".join([repr(calendar.program_name), *(f"{name}={it!r}" for name, it in given.items() if it is not None and it != "" and it is not False)])


def fields_of(calendar: Calendar, given: dict[str, Any]) -> Fields:
    """Returns fields as a call takes them. Raises OutOfRange for a number that its field can't hold."""
    if not (fits(given["year"], -(2**31), 2**31 - 1) and fits(given["era_year"], -(2**31), 2**31 - 1)):
        raise OutOfRange(given=said(calendar, given))
    if not all(fits(given[it], 0, MOST_PART) for it in ("month", "ordinal_month", "day")):
        raise OutOfRange(given=said(calendar, given), advice="A month and a day from 1 would do.")
    return Fields(
        era_year=given["era_year"] or 0,
        has_era_year=given["era_year"] is not None,
        extended_year=given["year"] or 0,
        has_extended_year=given["year"] is not None,
        month_number=given["month"] or 0,
        month_is_leap=given["month_is_leap"],
        has_month=given["month"] is not None,
        ordinal_month=given["ordinal_month"] or 0,
        has_ordinal_month=given["ordinal_month"] is not None,
        day=given["day"] or 0,
        has_day=given["day"] is not None,
    )


@dataclass(frozen=True, eq=False)
class Date:
    """A date of a calendar.

    Dates are compared by their days, whatever their calendars, and also with a `datetime.date`: they are equal if they name the same day, and
    equal dates have the same hash. A `datetime.datetime` is a point in time, so it equals no date, and comparing it raises TypeError."""

    calendar: Calendar
    years: Years
    day_number: int
    extended_year: int
    era_year: int
    cyclic_year: int | None
    ordinal_month: int
    month_number: int
    month_is_leap: bool
    day: int

    @classmethod
    def of_day(cls, day_number: int, calendar: CalendarLike = Calendar.ISO, years: YearsLike = Years.PUBLISHED) -> Date:
        """Returns the date of a day number (rata die): 1 is 0001-01-01 in the ISO calendar.

        Raises InvalidDayNumber if the number isn't from -365242499 to 365242134."""
        chosen, source = Calendar.of(calendar), Years.of(years)
        if not fits(index(day_number), -(2**63), 2**63 - 1):
            raise InvalidDayNumber(given=str(day_number))
        parts = DateParts()
        settle(library.icu_calendar_date_of_day(chosen, source, day_number, byref(parts)), given=str(day_number))
        return cls._of(parts, chosen, source)

    @classmethod
    def of_date(cls, date: datetime.date, calendar: CalendarLike = Calendar.ISO, years: YearsLike = Years.PUBLISHED) -> Date:
        """Returns the date of the same day as a `datetime.date`."""
        return cls.of_day(date.toordinal(), calendar, years)

    @classmethod
    def today(cls, calendar: CalendarLike = Calendar.ISO, years: YearsLike = Years.PUBLISHED) -> Date:
        """Returns the date of today by the local clock, as `datetime.date.today` does."""
        return cls.of_date(datetime.date.today(), calendar, years)

    @classmethod
    def fromisoformat(cls, text: str, calendar: CalendarLike | None = None, years: YearsLike = Years.PUBLISHED) -> Date:
        """Returns the date that a text of RFC 9557 names, such as `2024-03-01[u-ca=hebrew]`: the ISO date's day in the calendar that the text
        names or, without a name, in ISO. With `calendar` the day is shown in that one.

        Raises InvalidText for a text of another form, UnknownCalendar for an unknown name, and InvalidDay or MonthNotInCalendar for an ISO date
        that doesn't exist."""
        year, month, day, named = read(text)
        found = cls.of_fields(Calendar.ISO, years, year=year, month=month, day=day)
        return found.to_calendar(named if calendar is None else calendar)

    @classmethod
    def of_fields(
        cls,
        calendar: CalendarLike,
        years: YearsLike = Years.PUBLISHED,
        *,
        year: int | None = None,
        era: str = "",
        era_year: int | None = None,
        month: int | None = None,
        month_is_leap: bool = False,
        month_code: str = "",
        ordinal_month: int | None = None,
        day: int | None = None,
        overflow: OverflowLike = Overflow.DEFAULT,
        missing: MissingLike = Missing.DEFAULT,
    ) -> Date:
        """Creates a date from fields: an extended year, or an era and an era year; a month by its number, its code or its ordinal number in the
        year; and a day. By default a month or day that doesn't exist is rejected.

        Raises the subclass of CalendarError for the first invalid field."""
        chosen, source = Calendar.of(calendar), Years.of(years)
        given: dict[str, Any] = {"year": year, "era": era, "era_year": era_year, "month": month, "month_is_leap": month_is_leap, "month_code": month_code}
        given.update(ordinal_month=ordinal_month, day=day)
        fields = fields_of(chosen, given)
        era_text, code_text = era.encode(), month_code.encode()
        parts, limit = DateParts(), c_uint8()
        code = library.icu_calendar_date_of_fields(
            *(chosen, source, byref(fields), era_text, len(era_text), code_text, len(code_text)),
            *(Overflow.of(overflow), Missing.of(missing), byref(parts), byref(limit)),
        )
        if code:
            settle(code, limit.value, said(chosen, given))
        return cls._of(parts, chosen, source)

    @classmethod
    def _of(cls, parts: DateParts, calendar: Calendar, years: Years) -> Date:
        return cls(
            calendar,
            years,
            parts.day_number,
            parts.extended_year,
            parts.era_year,
            parts.cyclic_year or None,
            parts.ordinal_month,
            parts.month_number,
            bool(parts.month_is_leap),
            parts.day,
        )

    @property
    def year(self) -> int:
        """The extended year, which numbers a calendar's years without eras."""
        return self.extended_year

    @property
    def month_code(self) -> str:
        """The month code, such as M05L."""
        return f"M{self.month_number:02}{'L' if self.month_is_leap else ''}"

    @property
    def era(self) -> str | None:
        """The code of the year's era, or None for a year of the cycle of sixty."""
        room, count = create_string_buffer(ERA_ROOM), c_size_t()
        settle(library.icu_calendar_era_of_day(self.calendar, self.years, self.day_number, room, ERA_ROOM, byref(count)))
        return room.raw[: count.value].decode() or None

    @property
    def weekday(self) -> int:
        """The day of the week, from 1 for Monday to 7 for Sunday, as `datetime.date.isoweekday` has it."""
        return (self.day_number - 1) % 7 + 1

    @property
    def days_in_month(self) -> int:
        """The number of days of the month."""
        return int(self._lengths().days_in_month)

    @property
    def months_in_year(self) -> int:
        """The number of months of the year."""
        return int(self._lengths().months_in_year)

    @property
    def days_in_year(self) -> int:
        """The number of days of the year."""
        return int(self._lengths().days_in_year)

    @property
    def day_of_year(self) -> int:
        """The number of the day in the year, from 1."""
        first = Date.of_fields(self.calendar, self.years, year=self.extended_year, ordinal_month=1, day=1)
        return self.day_number - first.day_number + 1

    def _lengths(self) -> LengthParts:
        """Returns the lengths of the date's year and month."""
        lengths = LengthParts()
        settle(library.icu_calendar_lengths_of_day(self.calendar, self.years, self.day_number, byref(lengths)))
        return lengths

    def week_of_year(self) -> tuple[int, int]:
        """Returns the ISO 8601 week as a pair of its year and its number, from 1 to 53."""
        year, week = c_int32(), c_uint8()
        settle(library.icu_calendar_week_of_year(self.day_number, byref(year), byref(week)))
        return year.value, week.value

    def to_calendar(self, calendar: CalendarLike, years: YearsLike | None = None) -> Date:
        """Returns the same day in another calendar, over the same source of years unless another is named."""
        return Date.of_day(self.day_number, calendar, self.years if years is None else years)

    def to_date(self) -> datetime.date:
        """Returns the day as a `datetime.date`. Raises OutOfRange if its year isn't from 1 to 9999, as that type needs."""
        if not 1 <= self.day_number <= LAST_OF_PYTHON:
            raise OutOfRange(given=repr(self), advice="A datetime.date has the years 1 to 9999.")
        return datetime.date.fromordinal(self.day_number)

    def replace(
        self,
        *,
        year: int | None = None,
        month: int | None = None,
        month_is_leap: bool = False,
        month_code: str = "",
        ordinal_month: int | None = None,
        day: int | None = None,
        overflow: OverflowLike = Overflow.DEFAULT,
    ) -> Date:
        """Returns the date with some fields replaced. The extended year, the month by its code, and the day stay unless they are given.

        Raises the subclass of CalendarError for the first invalid field."""
        keeps_month = month is None and not month_code and ordinal_month is None
        return Date.of_fields(
            self.calendar,
            self.years,
            year=self.extended_year if year is None else year,
            month=month,
            month_is_leap=month_is_leap,
            month_code=self.month_code if keeps_month else month_code,
            ordinal_month=ordinal_month,
            day=self.day if day is None else day,
            overflow=overflow,
        )

    def add(self, duration: Duration, overflow: OverflowLike = Overflow.DEFAULT) -> Date:
        """Returns the date with a duration added. By default a month or day that doesn't exist becomes the nearest one that does.

        Raises OutOfRange, and with `Overflow.REJECT` MonthNotInYear or InvalidDay."""
        parts, limit = DateParts(), c_uint8()
        code = library.icu_calendar_add(
            *(self.calendar, self.years, self.day_number, byref(duration._parts()), Overflow.of(overflow), byref(parts), byref(limit)),
        )
        if code:
            settle(code, limit.value, f"{self!r} and {duration}")
        return Date._of(parts, self.calendar, self.years)

    def until(self, other: DayLike, largest_unit: UnitLike = Unit.DAYS) -> Duration:
        """Returns the greatest duration, counted in this date's calendar, that doesn't lead past the other date. Adding it to this date returns
        the other day."""
        parts, last = DurationParts(), day_number_of(other)
        code = library.icu_calendar_until(self.calendar, self.years, self.day_number, last, Unit.of(largest_unit), byref(parts))
        settle(code, given=str(last))
        return Duration._of(parts)

    def __add__(self, other: Duration | datetime.timedelta) -> Date:
        """Returns the date with a duration or the whole days of a `timedelta` added. As with `datetime.date`, the rest of it doesn't count."""
        if isinstance(other, Duration):
            return self.add(other)
        if isinstance(other, datetime.timedelta):
            return self._days_on(other.days)
        return NotImplemented

    __radd__ = __add__

    @overload
    def __sub__(self, other: Duration | datetime.timedelta) -> Date: ...

    @overload
    def __sub__(self, other: Date | datetime.date) -> datetime.timedelta: ...

    def __sub__(self, other: Duration | datetime.timedelta | Date | datetime.date) -> Date | datetime.timedelta:
        """Returns the date with a duration or a `timedelta` subtracted, or the days since another date as a `timedelta`."""
        if isinstance(other, Duration):
            return self.add(-other)
        if isinstance(other, datetime.timedelta):
            return self._days_on(-other.days)
        day = _day_of(other)
        if day is None:
            return NotImplemented
        return datetime.timedelta(self.day_number - day)

    def __rsub__(self, other: datetime.date) -> datetime.timedelta:
        day = _day_of(other)
        if day is None:
            return NotImplemented
        return datetime.timedelta(day - self.day_number)

    def _days_on(self, days: int) -> Date:
        return Date.of_day(self.day_number + days, self.calendar, self.years)

    def isoformat(self) -> str:
        """Returns the date as RFC 9557 writes it: the ISO date and, in any other calendar, its name, as in `2024-03-01[u-ca=hebrew]`."""
        iso = self.to_calendar(Calendar.ISO)
        return iso_text(iso.extended_year, iso.month_number, iso.day) + annotation(self.calendar)

    def __eq__(self, other: object) -> bool:
        day = _day_of(other)
        if day is None:
            return NotImplemented
        return self.day_number == day

    def __lt__(self, other: Date | datetime.date) -> bool:
        day = _day_of(other)
        if day is None:
            return NotImplemented
        return self.day_number < day

    def __le__(self, other: Date | datetime.date) -> bool:
        day = _day_of(other)
        if day is None:
            return NotImplemented
        return self.day_number <= day

    def __gt__(self, other: Date | datetime.date) -> bool:
        day = _day_of(other)
        if day is None:
            return NotImplemented
        return self.day_number > day

    def __ge__(self, other: Date | datetime.date) -> bool:
        day = _day_of(other)
        if day is None:
            return NotImplemented
        return self.day_number >= day

    def __hash__(self) -> int:
        """Returns the hash of the `datetime.date` of the day, if there is one."""
        within = 1 <= self.day_number <= LAST_OF_PYTHON
        return hash(datetime.date.fromordinal(self.day_number)) if within else hash(self.day_number)

    def __repr__(self) -> str:
        return f"Date({self.calendar.program_name} {self.extended_year}-{self.month_code}-{self.day:02})"


# A day, however it is given: a date of any calendar, a `datetime.date`, or a day number.
DayLike = Union[Date, datetime.date, int]


def _day_of(given: object) -> int | None:
    """Returns the day number of a date, or None for anything else."""
    if isinstance(given, Date):
        return given.day_number
    if isinstance(given, datetime.date) and not isinstance(given, datetime.datetime):
        return given.toordinal()
    return None


def day_number_of(given: DayLike) -> int:
    """Returns the day number of a date, a `datetime.date` or a number.

    Raises InvalidDayNumber if it isn't valid, and TypeError for anything else, such as a text or a `datetime.datetime`."""
    day = _day_of(given)
    if day is None:
        try:
            day = index(given)  # type: ignore[arg-type]
        except TypeError:
            what = f"{type(given).__name__} {given!r}"
            raise TypeError(f"a day is a Date, a datetime.date or a day number, and not the {what}") from None
    if not FIRST_DAY <= day <= LAST_DAY:
        raise InvalidDayNumber(given=str(day))
    return day


# The valid day numbers.
FIRST_DAY, LAST_DAY = -365242499, 365242134


def easter(year: int, rule: CalendarLike = Calendar.GREGORIAN) -> Date:
    """Returns the date of Easter in a year of the Gregorian or of the Julian calendar, in that calendar.

    Raises UnknownOption for the rule of another calendar, OutOfRange if the year has more than 32 bits, and InvalidDayNumber if the day isn't in
    the valid range."""
    rules, chosen = (Calendar.GREGORIAN, Calendar.JULIAN), Calendar.of(rule)
    if chosen not in rules:
        raise UnknownOption(given=f"the rule {chosen.program_name!r}", advice="'gregorian' or 'julian' would do.")
    if not fits(year, -(2**31), 2**31 - 1):
        raise OutOfRange(given=f"the year {year}")
    day = c_int64()
    settle(library.icu_calendar_easter(rules.index(chosen), year, byref(day)))
    return Date.of_day(day.value, chosen)

