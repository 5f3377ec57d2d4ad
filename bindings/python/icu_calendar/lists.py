"""Anniversaries and recurrences, one by one as they are asked for."""

from __future__ import annotations

from collections.abc import Iterator
from ctypes import byref, c_int64, c_size_t
from dataclasses import dataclass
from typing import NamedTuple

from .codes import Calendar, CalendarLike, Overflow, Unit, UnitLike, Years, YearsLike
from .dates import FIRST_DAY, LAST_DAY, Date, DayLike, day_number_of
from .durations import MOST
from .errors import InvalidDay, InvalidDayNumber, OutOfRange, UnknownOption, settle
from .library import OccurrenceParts, library

# The days that a month may have.
MOST_DAYS = 31
# How many items a call is asked for.
ROOM = 32


@dataclass(frozen=True)
class Occurrence:
    """A date of a recurrence. `index` is how often the step was added to the start; steps that lead to no date count, too. By a rule of iCalendar it
    is how many occurrences come before this one."""

    index: int
    date: Date


class Window(NamedTuple):
    """The days from a first to a last one."""

    first: int
    last: int


def window_of(first: DayLike | None, last: DayLike | None) -> Window:
    """Returns the days from `first` to `last`, where None is the first or the last valid day.

    Raises InvalidDayNumber if `first` comes after `last`."""
    window = Window(FIRST_DAY if first is None else day_number_of(first), LAST_DAY if last is None else day_number_of(last))
    if window.first > window.last:
        raise InvalidDayNumber(given=f"from {first!r} to {last!r}", advice="A first day that doesn't come after the last one would do.")
    return window


def anniversaries(
    calendar: CalendarLike,
    month_code: str,
    day: int,
    first: DayLike,
    last: DayLike | None = None,
    *,
    exact: bool = True,
    years: YearsLike = Years.PUBLISHED,
) -> Iterator[Date]:
    """Returns an iterator over the dates from `first` to `last` that have a month and a day of a calendar: birthdays, memorial days, feasts.

    Years without the month or day are skipped or, if `exact` is False, have the nearest date. Without `last` the dates go on to the last valid
    day.

    >>> [it.isoformat() for it in anniversaries("chinese", "M01", 1, datetime.date(2023, 1, 1), datetime.date(2024, 12, 31))]
    ['2023-01-22[u-ca=chinese]', '2024-02-10[u-ca=chinese]']

    Raises MonthCodeSyntax or MonthNotInCalendar for the month code, InvalidDay if the day isn't from 1 to 31, and InvalidDayNumber for the days."""
    chosen, source, window = Calendar.of(calendar), Years.of(years), window_of(first, last)
    # The month is asked for by a date that exists in every calendar's year with that month, or in the nearest one.
    Date.of_fields(chosen, source, year=1, month_code=month_code, day=1, overflow=Overflow.CONSTRAIN)
    if not 1 <= day <= MOST_DAYS:
        raise InvalidDay(MOST_DAYS, given=f"day={day}")
    return _anniversaries(chosen, source, month_code, day, window, Overflow.REJECT if exact else Overflow.CONSTRAIN)


def _anniversaries(calendar: Calendar, years: Years, month_code: str, day: int, window: Window, overflow: Overflow) -> Iterator[Date]:
    month, is_leap = int(month_code[1:3]), month_code.endswith("L")
    days, written, following = (c_int64 * ROOM)(), c_size_t(), c_int64(window.first)
    while following.value <= window.last:
        asked = (calendar, years, month, is_leap, day, overflow, following.value, window.last)
        settle(library.icu_calendar_anniversaries(*asked, days, ROOM, byref(written), byref(following)))
        for it in days[: written.value]:
            yield Date.of_day(it, calendar, years)


def recurrences(
    start: DayLike,
    unit: UnitLike,
    every: int = 1,
    first: DayLike | None = None,
    last: DayLike | None = None,
    *,
    calendar: CalendarLike | None = None,
    skip: bool = True,
    years: YearsLike | None = None,
) -> Iterator[Occurrence]:
    """Returns an iterator over the occurrences from `first` to `last`: a start with so many years, months, weeks or days added 0, 1, 2 and more
    times. Each counts from the start itself, so a monthly rule from the 31st returns to the 31st after February.

    Steps that lead to a month or day that doesn't exist are skipped or, if `skip` is False, lead to the nearest date. The calendar is that of the
    start, unless another is named. Without `first` the list begins with the start, and without `last` it goes on to the last valid day.

    >>> start = datetime.date(2024, 1, 31)
    >>> [str(it.date.to_date()) for it in itertools.islice(recurrences(start, Unit.MONTHS, skip=False), 3)]
    ['2024-01-31', '2024-02-29', '2024-03-31']

    Raises UnknownOption for a unit that isn't years, months, weeks or days, OutOfRange if `every` isn't from 1 on, and InvalidDayNumber for the
    days."""
    from_start = start_of(start, calendar, years)
    step = Unit.of(unit)
    if step is Unit.DEFAULT:
        raise UnknownOption(given=f"unit={unit!r}", advice="Unit.YEARS, MONTHS, WEEKS or DAYS would do.")
    if not 1 <= every <= MOST:
        raise OutOfRange(given=f"every={every}", advice=f"1 to {MOST} would do.")
    window = window_of(start if first is None else first, last)
    return _recurrences(from_start, step, every, window, skip)


def start_of(start: DayLike, calendar: CalendarLike | None, years: YearsLike | None) -> Date:
    """Returns the date of a start, in its own calendar or in ISO, unless another is named."""
    if isinstance(start, Date):
        return start.to_calendar(start.calendar if calendar is None else calendar, years)
    return Date.of_day(day_number_of(start), Calendar.ISO if calendar is None else calendar, Years.PUBLISHED if years is None else years)


def _recurrences(start: Date, unit: Unit, every: int, window: Window, skip: bool) -> Iterator[Occurrence]:
    overflow = Overflow.REJECT if skip else Overflow.CONSTRAIN
    items, written, following = (OccurrenceParts * ROOM)(), c_size_t(), c_int64(window.first)
    while following.value <= window.last:
        asked = (start.calendar, start.years, start.day_number, unit, every, overflow, following.value, window.last)
        settle(library.icu_calendar_recurrences(*asked, items, ROOM, byref(written), byref(following)))
        for it in items[: written.value]:
            yield Occurrence(it.index, Date.of_day(it.day, start.calendar, start.years))
