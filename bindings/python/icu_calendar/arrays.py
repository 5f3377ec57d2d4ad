"""Columns of dates over NumPy. One call of the proved library does a whole column, without a loop in Python.

    >>> import numpy as np
    >>> from icu_calendar import arrays
    >>> days = np.array(["2024-02-10", "NaT", "2025-01-29"], dtype="datetime64[D]")
    >>> dates = arrays.dates(days, "chinese")
    >>> dates.month_code
    masked_array(data=['M01', --, 'M01'],
                 mask=[False,  True, False],
           fill_value='N/A',
                dtype='<U4')
    >>> dates.add(years=1).to_datetime64()
    array(['2025-01-29',        'NaT', '2026-02-17'], dtype='datetime64[D]')

Every place has an answer, or a cause by name; an invalid date spoils no other. NaT and masked places stay what they are. Scalars are broadcast.
While a call runs, other threads of Python do, too.
"""

from __future__ import annotations

from ctypes import byref
from functools import lru_cache
from typing import Any, Union

import numpy as np
from numpy.typing import ArrayLike, NDArray

from .codes import Calendar, CalendarLike, Missing, MissingLike, Overflow, OverflowLike, Unit, UnitLike, Years, YearsLike
from .columns import DATE, DURATION, EPOCH, FIELDS, MISSING, OUTCOME, WEEK, Bytes, Column, DayColumn, DaysLike, Flags, Ints, Masked, address, day_column, ma
from .dates import FIRST_DAY, LAST_DAY, Date
from .durations import MOST, Duration
from .errors import MonthCodeSyntax, OutOfRange, TooManyFields, settle
from .library import library

__all__ = ["DATE", "DURATION", "WEEK", "Dates", "Durations", "Weeks", "dates", "of_fields", "until", "weeks"]

# The month codes, by their numbers and, 128 later, with an `L`.
MONTH_CODES = np.array([f"M{it % 128:02}{'L' if it >= 128 else ''}"[:4] for it in range(256)])
# A duration for all places, or durations from `until`.
DurationsLike = Union[Duration, "Durations"]


class Dates(DayColumn):
    """A column of dates of a calendar.

    `parts` is a structured array with the fields of `DATE`; places without a date are all zeros there. The fields by themselves, such as `year`,
    are masked arrays, with a mask over these places. `maxes` has the greatest valid number for the causes InvalidDay and InvalidOrdinalMonth."""

    def __init__(self, calendar: Calendar, years: Years, parts: NDArray[Any], codes: Bytes, maxes: Bytes | None = None):
        self.calendar, self.years, self.parts, self.codes = calendar, years, parts, codes
        self.maxes = np.zeros_like(codes) if maxes is None else maxes

    @property
    def day_numbers(self) -> Ints:  # type: ignore[override]
        """The day numbers (rata die), with 0 where there is no date."""
        numbers: Ints = self.parts["day_number"]
        return numbers

    @property
    def day_number(self) -> Masked:
        """The day numbers (rata die): 1 is 0001-01-01 in the ISO calendar."""
        return self.masked(self.parts["day_number"])

    @property
    def year(self) -> Masked:
        """The extended years, which number a calendar's years without eras."""
        return self.masked(self.parts["extended_year"])

    @property
    def era(self) -> Masked:
        """The codes of the years' eras; empty for years of the cycle of sixty."""
        starts, names = era_starts(self.calendar, self.years)
        return self.masked(names[np.searchsorted(starts, self.day_numbers, side="right") - 1])

    @property
    def era_year(self) -> Masked:
        """The era years, or the ISO years in which years of the cycle of sixty begin."""
        return self.masked(self.parts["era_year"])

    @property
    def cyclic_year(self) -> Masked:
        """The years in the cycle of sixty, from 1; 0 if the years are in eras."""
        return self.masked(self.parts["cyclic_year"])

    @property
    def ordinal_month(self) -> Masked:
        """The numbers of the months in their years, from 1."""
        return self.masked(self.parts["ordinal_month"])

    @property
    def month_number(self) -> Masked:
        """The numbers in the month codes."""
        return self.masked(self.parts["month_number"])

    @property
    def month_is_leap(self) -> Masked:
        """Whether the months are leap months."""
        return self.masked(self.parts["month_is_leap"] != 0)

    @property
    def month_code(self) -> Masked:
        """The month codes, such as M05L."""
        return self.masked(MONTH_CODES[self.parts["month_number"] | self.parts["month_is_leap"] << 7])

    @property
    def day(self) -> Masked:
        """The days of the months, from 1."""
        return self.masked(self.parts["day"])

    @property
    def weekday(self) -> Masked:
        """The days of the week, from 1 for Monday to 7 for Sunday."""
        return self.masked(((self.day_numbers - 1) % 7 + 1).astype(np.uint8))

    def to_datetime64(self) -> NDArray[np.datetime64]:
        """Returns the days as `datetime64[D]`, with NaT where there is no date."""
        found: NDArray[np.datetime64] = np.asarray(self.day_numbers - EPOCH).view("datetime64[D]")
        found[self.codes != 0] = np.datetime64("NaT")
        return found

    def to_calendar(self, calendar: CalendarLike, years: YearsLike | None = None) -> Dates:
        """Returns the same days in another calendar, over the same source of years unless another is named."""
        return dates(self, calendar, self.years if years is None else years)

    def add(
        self,
        durations: DurationsLike | None = None,
        *,
        years: ArrayLike = 0,
        months: ArrayLike = 0,
        weeks: ArrayLike = 0,
        days: ArrayLike = 0,
        overflow: OverflowLike = Overflow.DEFAULT,
    ) -> Dates:
        """Returns the dates with durations added: one for all, one each, or signed numbers of units, which may be columns. By default a month or
        day that doesn't exist becomes the nearest one that does.

        A place whose numbers have both signs is refused as OutOfRange."""
        option = Overflow.of(overflow)
        if durations is None:
            durations = _durations_of(years, months, weeks, days)
        if isinstance(durations, Duration):
            return self._with_one(durations, option)
        return self._with_each(durations, option)

    def _with_one(self, duration: Duration, overflow: Overflow) -> Dates:
        column = np.asarray(self.day_numbers, order="C")
        parts, outcomes = _rooms(column.shape)
        given = byref(duration._parts())
        code = library.icu_calendar_add_to_each(self.calendar, self.years, *address(column), given, overflow, *address(parts), *address(outcomes))
        settle(code)
        return _told(self.calendar, self.years, parts, outcomes, self.codes != 0)

    def _with_each(self, durations: Durations, overflow: Overflow) -> Dates:
        column, given, absent, bad = np.broadcast_arrays(self.day_numbers, durations.parts, self.codes != 0, durations.codes)
        column, given = np.asarray(column, order="C"), np.asarray(given, order="C")
        parts, outcomes = _rooms(column.shape)
        code = library.icu_calendar_add_each(
            self.calendar, self.years, *address(column), *address(given), overflow, *address(parts), *address(outcomes)
        )
        settle(code)
        return _told(self.calendar, self.years, parts, outcomes, absent, bad)

    def until(self, other: DaysLike, largest_unit: UnitLike = Unit.DAYS) -> Durations:
        """Returns the differences to other days, counted in this calendar. Adding them leads to the other days."""
        return until(self, other, self.calendar, largest_unit, self.years)

    def __getitem__(self, place: Any) -> Dates:
        """Returns the dates at some places."""
        parts, codes, maxes = (np.asarray(it[place]) for it in (self.parts, self.codes, self.maxes))
        return Dates(self.calendar, self.years, parts, codes, maxes)

    def __repr__(self) -> str:
        return f"Dates({self.calendar.program_name}, {self.shape}, {int(self.done.sum())} done)"


class Durations(Column):
    """A column of durations. `parts` is a structured array with the fields of `DURATION`; the fields by themselves are signed masked arrays."""

    def __init__(self, parts: NDArray[Any], codes: Bytes):
        self.parts, self.codes = parts, codes

    def _signed(self, unit: str) -> Masked:
        numbers = self.parts[unit].astype(np.int64)
        return self.masked(np.where(self.parts["is_negative"] != 0, -numbers, numbers))

    @property
    def years(self) -> Masked:
        """The years, below 0 if the durations lead back in time."""
        return self._signed("years")

    @property
    def months(self) -> Masked:
        """The months, below 0 if the durations lead back in time."""
        return self._signed("months")

    @property
    def weeks(self) -> Masked:
        """The weeks, below 0 if the durations lead back in time."""
        return self._signed("weeks")

    @property
    def days(self) -> Masked:
        """The days, below 0 if the durations lead back in time."""
        return self._signed("days")

    def __repr__(self) -> str:
        return f"Durations({self.shape}, {int(self.done.sum())} done)"


class Weeks(Column):
    """A column of ISO 8601 weeks. `parts` is a structured array with the fields of `WEEK`."""

    def __init__(self, parts: NDArray[Any], codes: Bytes):
        self.parts, self.codes = parts, codes

    @property
    def year(self) -> Masked:
        """The years that the weeks belong to."""
        return self.masked(self.parts["year"])

    @property
    def week(self) -> Masked:
        """The numbers of the weeks, from 1 to 53."""
        return self.masked(self.parts["week"])

    @property
    def weekday(self) -> Masked:
        """The days of the week, from 1 for Monday to 7 for Sunday."""
        return self.masked(self.parts["weekday"])


def dates(days: DaysLike, calendar: CalendarLike = Calendar.ISO, years: YearsLike = Years.PUBLISHED) -> Dates:
    """Returns the dates of days: day numbers, `datetime64`, `datetime.date` or `Date`, or another calendar's `Dates`."""
    chosen, source = Calendar.of(calendar), Years.of(years)
    given, hidden = day_column(days)
    column = np.asarray(given, order="C")
    parts, codes = np.empty(column.shape, DATE), np.empty(column.shape, np.uint8)
    settle(library.icu_calendar_dates_of_days(chosen, source, *address(column), *address(parts), *address(codes)))
    return Dates(chosen, source, *_cleared(parts, codes, hidden))


def until(
    first: DaysLike, second: DaysLike, calendar: CalendarLike = Calendar.ISO, largest_unit: UnitLike = Unit.DAYS, years: YearsLike = Years.PUBLISHED
) -> Durations:
    """Returns the differences from the first to the second days, counted in a calendar: the greatest durations that don't lead past the second.
    Either may be one day for all."""
    chosen, source, unit = Calendar.of(calendar), Years.of(years), Unit.of(largest_unit)
    (one, hidden), (two, other) = day_column(first), day_column(second)
    one, two = np.broadcast_arrays(one, two)
    one, two = np.asarray(one, order="C"), np.asarray(two, order="C")
    parts, codes = np.empty(one.shape, DURATION), np.empty(one.shape, np.uint8)
    settle(library.icu_calendar_until_each(chosen, source, *address(one), *address(two), unit, *address(parts), *address(codes)))
    masks = [it for it in (hidden, other) if it is not None]
    absent = np.logical_or.reduce(np.broadcast_arrays(*masks, codes != codes)) if masks else None
    return Durations(*_cleared(parts, codes, absent))


def weeks(days: DaysLike) -> Weeks:
    """Returns the ISO 8601 weeks of days."""
    given, hidden = day_column(days)
    column = np.asarray(given, order="C")
    parts, codes = np.empty(column.shape, WEEK), np.empty(column.shape, np.uint8)
    settle(library.icu_calendar_weeks_of_days(*address(column), *address(parts), *address(codes)))
    return Weeks(*_cleared(parts, codes, hidden))


def of_fields(
    calendar: CalendarLike,
    years: YearsLike = Years.PUBLISHED,
    *,
    year: ArrayLike | None = None,
    era: str = "",
    era_year: ArrayLike | None = None,
    month: ArrayLike | None = None,
    month_is_leap: ArrayLike = False,
    month_code: ArrayLike = "",
    ordinal_month: ArrayLike | None = None,
    day: ArrayLike | None = None,
    overflow: OverflowLike = Overflow.DEFAULT,
    missing: MissingLike = Missing.DEFAULT,
) -> Dates:
    """Creates dates from columns of fields, as `Date.of_fields` does from one of each. A scalar counts for all places; the era is one for all.

    Masked places of a column have no date. A month code that isn't `M`, two digits and an optional `L` is refused as MonthCodeSyntax, and a
    number that its field can't hold as OutOfRange."""
    chosen, source = Calendar.of(calendar), Years.of(years)
    given = {"extended_year": year, "era_year": era_year, "month_number": month, "ordinal_month": ordinal_month, "day": day}
    columns = {name: ma.asarray(it) for name, it in given.items() if it is not None}
    leap, common_code, malformed = ma.asarray(month_is_leap), "", ma.asarray(False)
    if isinstance(month_code, str):
        common_code = month_code
    elif month is not None:
        raise TooManyFields(given="month and month_code")
    else:
        columns["month_number"], leap, malformed = _months_of(ma.asarray(month_code))
    fields, refused, hidden = _fields_of(columns, leap)
    refused[np.broadcast_to(ma.getdata(malformed), fields.shape)] = MonthCodeSyntax.code
    parts, outcomes = _rooms(fields.shape)
    era_text, code_text = era.encode(), common_code.encode()
    code = library.icu_calendar_dates_of_fields(
        *(chosen, source, *address(fields), era_text, len(era_text), code_text, len(code_text)),
        *(Overflow.of(overflow), Missing.of(missing), *address(parts), *address(outcomes)),
    )
    settle(code)
    return _told(chosen, source, parts, outcomes, hidden, refused)


def _fields_of(columns: dict[str, Masked], leap: Masked) -> tuple[NDArray[Any], Bytes, Flags]:
    """Returns columns of fields as the call takes them, which places are refused, and which have no value."""
    shape = np.broadcast_shapes(leap.shape, *(it.shape for it in columns.values()))
    fields, refused, hidden = np.zeros(shape, FIELDS), np.zeros(shape, np.uint8), np.zeros(shape, np.bool_)
    fields["month_is_leap"] = ma.getdata(leap)
    for name, column in columns.items():
        _give(fields, refused, name, column)
        hidden |= ma.getmaskarray(column)
    return fields, refused, hidden


HAS = {"extended_year": "has_extended_year", "era_year": "has_era_year", "month_number": "has_month", "ordinal_month": "has_ordinal_month"}


def _give(fields: NDArray[Any], refused: Bytes, name: str, column: Masked) -> None:
    """Fills in a field at every place. Numbers that it can't hold are refused."""
    values = ma.getdata(column)
    if values.dtype.kind not in "iu":
        raise TypeError(f"{name} is a column of integers, and not of {values.dtype}")
    kind = fields.dtype[name]
    if kind != values.dtype:
        most = np.iinfo(kind)
        outside = (values < most.min) | (values > most.max)
        refused[np.broadcast_to(outside, refused.shape)] = OutOfRange.code
        values = np.where(outside, 0, values)
    fields[name] = values
    fields[HAS.get(name, "has_day")] = 1


def _months_of(codes: Masked) -> tuple[Masked, Masked, Masked]:
    """Returns the numbers in month codes, whether these have an `L`, and whether they have another form than `M`, two digits and an `L` or none."""
    letters = ma.getdata(codes).astype("U5")[..., np.newaxis].view(np.uint32).astype(np.int64)
    digits = letters[..., 1:3] - ord("0")
    is_leap = letters[..., 3] == ord("L")
    formed = (letters[..., 0] == ord("M")) & ((digits >= 0) & (digits <= 9)).all(axis=-1) & (is_leap | (letters[..., 3] == 0)) & (letters[..., 4] == 0)
    numbers = np.where(formed, 10 * digits[..., 0] + digits[..., 1], 0).astype(np.uint8)
    return ma.MaskedArray(numbers, mask=ma.getmask(codes)), ma.asarray(is_leap & formed), ma.asarray(~formed)


def _durations_of(years: ArrayLike, months: ArrayLike, weeks: ArrayLike, days: ArrayLike) -> Duration | Durations:
    """Returns signed numbers of units as durations; scalars as one for all."""
    numbers = [ma.asarray(it) for it in (years, months, weeks, days)]
    for name, it in zip(("years", "months", "weeks", "days"), numbers):
        if it.dtype.kind not in "iu":
            raise TypeError(f"{name} is a number or a column of integers, and not of {it.dtype}")
    shape = np.broadcast_shapes(*(it.shape for it in numbers))
    columns = [np.broadcast_to(ma.getdata(it).astype(np.int64), shape) for it in numbers]
    back, on = (np.logical_or.reduce([sign * it > 0 for it in columns]) for sign in (-1, 1))
    codes = np.where((back & on) | np.logical_or.reduce([np.abs(it) > MOST for it in columns]), OutOfRange.code, 0).astype(np.uint8)
    if shape == () and codes == 0:
        one = [abs(int(it)) for it in columns]
        return Duration(one[0], one[1], one[2], one[3], bool(back))
    parts = np.zeros(shape, DURATION)
    for name, it, given in zip(DURATION.names or (), columns, numbers):
        parts[name] = np.where(codes == 0, np.abs(it), 0)
        codes = np.where(np.broadcast_to(ma.getmaskarray(given), shape), MISSING, codes).astype(np.uint8)
    parts["is_negative"] = back
    return Durations(parts, codes)


def _rooms(shape: tuple[int, ...]) -> tuple[NDArray[Any], NDArray[Any]]:
    return np.empty(shape, DATE), np.empty(shape, OUTCOME)


def _cleared(parts: NDArray[Any], codes: Bytes, hidden: Flags | None) -> tuple[NDArray[Any], Bytes]:
    """Returns the answers with zeros where there are none, and codes that say which places had no value."""
    if hidden is not None:
        codes[hidden] = MISSING
    if codes.any():
        parts[codes != 0] = np.zeros((), parts.dtype)
    return parts, codes


def _told(
    calendar: Calendar,
    years: Years,
    parts: NDArray[Any],
    outcomes: NDArray[Any],
    hidden: Flags | None,
    refused: Bytes | None = None,
) -> Dates:
    """Returns dates and causes. Places that were refused before the call keep that cause."""
    codes, maxes = np.asarray(outcomes["code"], order="C"), np.asarray(outcomes["max"], order="C")
    if refused is not None:
        earlier = refused != 0
        codes[earlier], maxes[earlier] = refused[earlier], 0
    return Dates(calendar, years, *_cleared(parts, codes, hidden), maxes)


@lru_cache(maxsize=None)
def era_starts(calendar: Calendar, years: Years) -> tuple[Ints, NDArray[np.str_]]:
    """Returns the first days of the eras of a calendar, and their codes. Each era is one stretch of days, so halving finds them."""
    starts, names = [FIRST_DAY], [_era_on(FIRST_DAY, calendar, years)]

    def find(first: int, last: int, end: str) -> None:
        """Finds the eras that begin behind `first`, up to `last`, whose era is `end`."""
        if names[-1] == end:
            return
        if last - first == 1:
            starts.append(last)
            names.append(end)
            return
        middle = (first + last) // 2
        find(first, middle, _era_on(middle, calendar, years))
        find(middle, last, end)

    find(FIRST_DAY, LAST_DAY, _era_on(LAST_DAY, calendar, years))
    return np.array(starts), np.array(names)


def _era_on(day: int, calendar: Calendar, years: Years) -> str:
    return Date.of_day(day, calendar, years).era or ""
