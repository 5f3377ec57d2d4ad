"""Dates of twenty calendars, and the program calspan, over a proved library.

    >>> from icu_calendar import Date
    >>> Date.of_fields("hebrew", year=5784, month=1, day=1).to_calendar("iso")
    Date(iso 2023-M09-16)
    >>> Date.of_fields("chinese", year=2024, month=1, day=1).to_date()
    datetime.date(2024, 2, 10)

Chinese, Korean, Umm al-Qura and Persian years are the published ones; `years="computed"` asks for computed ones. `icu_calendar.arrays` works on
columns over NumPy, and `icu_calendar.pandas` on series. Neither library is needed for this module.

The library is a shared object, which an installed package holds; `bindings/c/build.sh` of the repository builds it. It is searched for in the
place that the environment variable ICU_CALENDAR_LIBRARY names, beside this file, and where that script puts it.
"""

from .codes import Calendar, Missing, Overflow, Unit, Years
from .dates import Date, DayLike, easter
from .durations import Duration
from .errors import (
    CalendarError,
    InconsistentMonth,
    InconsistentYear,
    InvalidDay,
    InvalidDayNumber,
    InvalidEra,
    InvalidOrdinalMonth,
    InvalidText,
    LengthsDiffer,
    MonthCodeSyntax,
    MonthNotInCalendar,
    MonthNotInYear,
    NotEnoughFields,
    OutOfRange,
    ProgramError,
    Refused,
    RuleError,
    TooManyFields,
    UnknownCalendar,
    UnknownOption,
    UnknownYears,
)
from .holidays import Holiday, holidays
from .lists import Occurrence, anniversaries, recurrences
from .program import Outcome, run, span
from .rules import rrule

__all__ = [
    "Calendar",
    "CalendarError",
    "Date",
    "DayLike",
    "Duration",
    "Holiday",
    "InconsistentMonth",
    "InconsistentYear",
    "InvalidDay",
    "InvalidDayNumber",
    "InvalidEra",
    "InvalidOrdinalMonth",
    "InvalidText",
    "LengthsDiffer",
    "Missing",
    "MonthCodeSyntax",
    "MonthNotInCalendar",
    "MonthNotInYear",
    "NotEnoughFields",
    "Occurrence",
    "OutOfRange",
    "Outcome",
    "Overflow",
    "ProgramError",
    "Refused",
    "RuleError",
    "TooManyFields",
    "Unit",
    "UnknownCalendar",
    "UnknownOption",
    "UnknownYears",
    "Years",
    "anniversaries",
    "easter",
    "holidays",
    "recurrences",
    "rrule",
    "run",
    "span",
]
