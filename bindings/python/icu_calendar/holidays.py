"""Holidays of a book, one by one as they are asked for."""

from __future__ import annotations

from collections.abc import Iterator
from ctypes import byref, c_int64, c_size_t, create_string_buffer
from typing import NamedTuple

from .codes import Years, YearsLike
from .dates import Date, DayLike
from .errors import Refused, settle
from .library import BookFaultParts, HolidayParts, library
from .lists import Window, window_of
from .program import REFUSED

INVALID_BOOK, NO_MEMORY = 23, 24
# How many holidays a call is asked for, and how many bytes a name has at most.
ROOM, LONGEST_NAME = 256, 64
# How many days the first window has that the library is asked for. Windows double as long as they have fewer holidays than one call has room for.
FIRST_DAYS = 1 << 12


class Holiday(NamedTuple):
    """A holiday: its ISO date, its name, and the number of its record in the book, from 0."""

    date: Date
    name: str
    record: int


def holidays(book: str | bytes, first: DayLike, last: DayLike | None = None, *, years: YearsLike = Years.PUBLISHED) -> Iterator[Holiday]:
    """Returns an iterator over the holidays of a book from `first` to `last`, in order of their days, and on one day in the order of the book.

    The book is the text of CSV records, as the folder `books/` of the repository has them; the manual describes their six to ten fields. Without
    `last` the list goes on to the last valid day.

    >>> [(str(it.date.to_date()), it.name) for it in holidays("easter,Easter,gregorian,,0,", datetime.date(2024, 1, 1), datetime.date(2024, 12, 31))]
    [('2024-03-31', 'Easter')]

    Raises Refused, with the record and the field, for an invalid book, InvalidDayNumber for the days, and MemoryError."""
    read = Book(book.encode() if isinstance(book, str) else book, Years.of(years))
    window = window_of(first, last)
    # The book is read at the call, and not only when a holiday is asked for.
    read.days(window.first, 0, window.first)
    return _holidays(read, window)


def _holidays(book: Book, window: Window) -> Iterator[Holiday]:
    """Lists the holidays of some days, and then of those that follow."""
    first, rule, days = window.first, 0, FIRST_DAYS
    while first <= window.last:
        last, count = min(first + days - 1, window.last), 0
        while first <= last:
            found, first, rule = book.days(first, rule, last)
            for day, record in found:
                yield Holiday(Date.of_day(day), book.name(record), record)
            count += len(found)
        if count < ROOM:
            days *= 2


class Book:
    """The text of a book, and the names that were asked for."""

    def __init__(self, text: bytes, years: Years):
        self.text, self.years = text, years
        self.names: dict[int, str] = {}

    def days(self, first: int, rule: int, last: int) -> tuple[list[tuple[int, int]], int, int]:
        """Returns days up to `last` with the numbers of their records, those from `rule` on on the day `first`; and the day and the record from
        which the list goes on."""
        items, written, following, number, fault = (HolidayParts * ROOM)(), c_size_t(), c_int64(), c_size_t(), BookFaultParts()
        asked = (self.years, self.text, len(self.text), first, last, rule)
        code = library.icu_calendar_holidays(*asked, items, ROOM, byref(written), byref(following), byref(number), byref(fault))
        self._settle(code, fault)
        return [(it.day, it.rule) for it in items[: written.value]], following.value, number.value

    def name(self, record: int) -> str:
        if record not in self.names:
            name, written = create_string_buffer(LONGEST_NAME), c_size_t()
            code = library.icu_calendar_holiday_name(self.text, len(self.text), record, name, LONGEST_NAME, byref(written))
            self._settle(code, BookFaultParts())
            self.names[record] = name.raw[: written.value].decode("ascii")
        return self.names[record]

    def _settle(self, code: int, fault: BookFaultParts) -> None:
        if code == NO_MEMORY:
            raise MemoryError
        if code == INVALID_BOOK:
            why = f"err record {fault.number} field {fault.field}"
            raise Refused(why, REFUSED, f"{why}\n".encode())
        settle(code)
