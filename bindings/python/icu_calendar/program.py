"""The program calspan, as a call over bytes."""

from __future__ import annotations

from collections.abc import Sequence
from ctypes import byref, c_size_t, create_string_buffer
from typing import NamedTuple

from .codes import Calendar, CalendarLike, Unit, UnitLike
from .errors import ProgramError, Refused
from .library import library

DONE, REFUSED, WORDS, NO_MEMORY_FOR_OUTPUT, NO_MEMORY, TABLE_REFUSED, TOO_LONG, NO_ROOM = 0, 1, 2, 4, 5, 6, 7, 8
LEAST_ROOM = 1 << 12


class Outcome(NamedTuple):
    """The exit status of a run of the program, and what it wrote."""

    status: int
    output: bytes


def run(words: Sequence[str], source: bytes = b"") -> Outcome:
    """Runs the program on the words of a command line, with these bytes as its standard input.

    Raises MemoryError if there is no memory, and ValueError for a word that is empty or has a space."""
    for it in words:
        if not it or " " in it:
            raise ValueError(f"a word of the command line is neither empty nor holds a space: {it!r}")
    text = " ".join(words).encode()
    room, written = max(LEAST_ROOM, 4 * len(source)), c_size_t()
    while True:
        output = create_string_buffer(room)
        status = library.calspan(text, len(text), source, len(source), output, room, byref(written))
        if status in (NO_MEMORY_FOR_OUTPUT, NO_MEMORY):
            raise MemoryError
        if status != NO_ROOM:
            return Outcome(status, output.raw[: written.value])
        room = written.value


def span(lines: bytes, rows: bytes = b"") -> bytes:
    """Returns the answers to request lines, a line each, over the tables of row lines. `err` is an answer, too.

    Raises Refused for an invalid row or table, and ProgramError if the input is longer than the program reads."""
    status, output = run(["span"], rows + lines)
    settle(status, output, refusals=(TABLE_REFUSED,))
    return output


def settle(status: int, output: bytes, refusals: tuple[int, ...]) -> None:
    if status == WORDS:
        raise ProgramError("the words are none of a command", status, output)
    if status == TOO_LONG:
        raise ProgramError("the input is longer than 16777216 bytes", status, output)
    if status in refusals:
        raise Refused(output.splitlines()[-1].decode(errors="replace"), status, output)


def lines_of(words: Sequence[str], source: bytes) -> list[str]:
    """Returns the lines of a list. Raises Refused, with the error line, if the arguments or rows are invalid."""
    status, output = run(words, source)
    settle(status, output, refusals=(REFUSED, TABLE_REFUSED))
    return output.decode().splitlines()


def anniversary_lines(
    calendar: CalendarLike,
    month_code: str,
    day: int,
    first: int,
    last: int,
    *,
    shown: CalendarLike = Calendar.ISO,
    exact: bool = True,
    rows: bytes = b"",
) -> list[str]:
    """Returns the program's anniversaries of a month and a day of a calendar, from day number `first` to `last`, over the years of rows: a line
    each, with the date there and in `shown`. Years without the month or day are skipped or, if `exact` is False, have the nearest one."""
    names = Calendar.of(calendar).program_name, Calendar.of(shown).program_name, "exact" if exact else "constrain"
    return lines_of(["anniversary", *names, month_code, str(day), str(first), str(last)], rows)


def recurrence_lines(
    calendar: CalendarLike,
    unit: UnitLike,
    every: int,
    first: int,
    last: int,
    fields: Sequence[str],
    *,
    shown: CalendarLike = Calendar.ISO,
    skip: bool = True,
    rows: bytes = b"",
) -> list[str]:
    """Returns the program's occurrences from day number `first` to `last`, over the years of rows: every so many units from the date that fields
    such as `year=2024` name. A line each, with the index, the date there and in `shown`. Months or years without the day are skipped or, if
    `skip` is False, have the nearest one."""
    names = Calendar.of(calendar).program_name, Calendar.of(shown).program_name, Unit.of(unit).name.lower(), str(every)
    return lines_of(["recur", *names, "skip" if skip else "constrain", str(first), str(last), *fields], rows)


def rule_lines(
    calendar: CalendarLike,
    first: int,
    last: int,
    start: Sequence[str],
    rule: str,
    *,
    shown: CalendarLike = Calendar.ISO,
    rows: bytes = b"",
) -> list[str]:
    """Returns the program's occurrences of a recurrence rule of iCalendar from day number `first` to `last`, over the years of rows. The start is a
    day number, or fields such as `year=2024`, as words. A line each, with the index, the date in the calendar and in `shown`."""
    names = Calendar.of(calendar).program_name, Calendar.of(shown).program_name
    return lines_of(["rrule", *names, str(first), str(last), *start, rule], rows)


def holiday_lines(book: bytes, first: int, last: int) -> list[str]:
    """Returns the program's holidays of a book from day number `first` to `last`, over computed years: a line each, with the ISO date and the
    name."""
    return lines_of(["holidays", str(first), str(last)], book)
