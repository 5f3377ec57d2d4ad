"""Recurrence rules of iCalendar, one occurrence by one as they are asked for."""

from __future__ import annotations

from collections.abc import Iterator, Mapping
from typing import Any, Union

from .codes import Calendar, CalendarLike, Years, YearsLike
from .dates import Date, DayLike
from .errors import RULE_CAUSES, Refused, RuleError
from .lists import Occurrence, Window, start_of, window_of
from .program import rule_lines
from .rows import published_rows

# How many days the first window has that the program is asked for. Windows double as long as they have fewer occurrences than these.
FIRST_DAYS, MANY = 1 << 10, 1 << 14

StartLike = Union[DayLike, Mapping[str, Any]]


def rrule(
    rule: str,
    start: StartLike,
    first: DayLike | None = None,
    last: DayLike | None = None,
    *,
    calendar: CalendarLike | None = None,
    years: YearsLike | None = None,
) -> Iterator[Occurrence]:
    """Returns an iterator over the occurrences from `first` to `last` of a recurrence rule of iCalendar (RFC 5545, with RSCALE and SKIP of RFC
    7529), counted from a start.

    The rule is the value of RRULE. Its years and months are those of a calendar: that of the start, unless another is named. The start is a day,
    or the fields that `Date.of_fields` takes, such as `{"year": 5784, "month_code": "M05L", "day": 10}`. It is an occurrence only if the rule names
    it. The index of an occurrence is how many come before it from the start on, whatever `first` is. Without `first` the list begins with the
    start, and without `last` it goes on to the last valid day, up to which a rule without any further
    occurrence is looked for: that may take minutes.

    >>> thanksgivings = rrule("FREQ=YEARLY;BYMONTH=11;BYDAY=4TH", datetime.date(2024, 1, 1))
    >>> [str(it.date.to_date()) for it in itertools.islice(thanksgivings, 3)]
    ['2024-11-28', '2025-11-27', '2026-11-26']

    Raises RuleError, with its `cause` and `part`, for the rule, InvalidDayNumber for the days, and the subclass of CalendarError for the first
    invalid field of a start."""
    from_start = _start(start, calendar, years)
    window = window_of(from_start if first is None else first, last)
    # The rule is read at the call, and not only when an occurrence is asked for.
    _lines(rule, from_start, Window(window.first, window.first))
    return _occurrences(rule, from_start, window)


def _start(start: StartLike, calendar: CalendarLike | None, years: YearsLike | None) -> Date:
    if isinstance(start, Mapping):
        return Date.of_fields(Calendar.ISO if calendar is None else calendar, Years.PUBLISHED if years is None else years, **start)
    return start_of(start, calendar, years)


def _occurrences(rule: str, start: Date, window: Window) -> Iterator[Occurrence]:
    first, days = window.first, FIRST_DAYS
    while first <= window.last:
        last = min(first + days - 1, window.last)
        lines = _lines(rule, start, Window(first, last))
        for line in lines:
            yield Occurrence(int(line.partition(" ")[0]), Date.of_day(int(line.rpartition("@")[2]), start.calendar, start.years))
        first = last + 1
        if len(lines) < MANY:
            days *= 2


def _lines(rule: str, start: Date, window: Window) -> list[str]:
    """Returns the program's lines. Raises RuleError if it rejects the rule."""
    rows = published_rows(start.calendar) if start.years is Years.PUBLISHED else b""
    try:
        return rule_lines(start.calendar, window.first, window.last, [str(start.day_number)], _word(rule), rows=rows)
    except Refused as refused:
        _, cause, *part = refused.output.decode().split()
        if cause not in RULE_CAUSES:
            raise
        raise RuleError(cause, part[0] if part else None, given=repr(rule)) from None


def _word(rule: str) -> str:
    """Returns a rule as a word of the command line, which is neither empty nor holds a space. Another text that is no rule, for the same reason,
    stands for one that can't be such a word."""
    return rule.encode(errors="replace").decode().replace(" ", "?") or ";"
