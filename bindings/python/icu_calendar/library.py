"""The calls of the shared object, with the types of their parameters."""

import ctypes
import os
from ctypes import POINTER, c_char_p, c_int32, c_int64, c_size_t, c_uint8, c_uint16, c_uint32, c_void_p
from pathlib import Path
from typing import Any

NAME = "libicu_calendar.so"


class DateParts(ctypes.Structure):
    """`icu_calendar_date` of the header."""

    _fields_ = [
        ("day_number", c_int64),
        ("extended_year", c_int32),
        ("era_year", c_int32),
        ("cyclic_year", c_uint8),
        ("ordinal_month", c_uint8),
        ("month_number", c_uint8),
        ("month_is_leap", c_uint8),
        ("day", c_uint8),
    ]


class Fields(ctypes.Structure):
    """`icu_calendar_fields` of the header."""

    _fields_ = [
        ("era_year", c_int32),
        ("extended_year", c_int32),
        ("has_era_year", c_uint8),
        ("has_extended_year", c_uint8),
        ("has_month", c_uint8),
        ("month_number", c_uint8),
        ("month_is_leap", c_uint8),
        ("has_ordinal_month", c_uint8),
        ("ordinal_month", c_uint8),
        ("has_day", c_uint8),
        ("day", c_uint8),
    ]


class DurationParts(ctypes.Structure):
    """`icu_calendar_duration` of the header."""

    _fields_ = [("years", c_uint32), ("months", c_uint32), ("weeks", c_uint32), ("days", c_uint32), ("is_negative", c_uint8)]


class LengthParts(ctypes.Structure):
    """`icu_calendar_lengths` of the header."""

    _fields_ = [("days_in_year", c_uint16), ("months_in_year", c_uint8), ("days_in_month", c_uint8)]


class OccurrenceParts(ctypes.Structure):
    """`icu_calendar_occurrence` of the header."""

    _fields_ = [("day", c_int64), ("index", c_uint32)]


class HolidayParts(ctypes.Structure):
    """`icu_calendar_holiday` of the header."""

    _fields_ = [("day", c_int64), ("rule", c_size_t)]


class BookFaultParts(ctypes.Structure):
    """`icu_calendar_book_fault` of the header."""

    _fields_ = [("number", c_size_t), ("field", c_uint8)]


TEXT = [c_char_p, c_size_t]
COLUMN = [c_void_p, c_size_t]
TYPES: dict[str, list[Any]] = {
    "icu_calendar_date_of_day": [c_uint8, c_uint8, c_int64, POINTER(DateParts)],
    "icu_calendar_date_of_fields": [
        *[c_uint8, c_uint8, POINTER(Fields)],
        *TEXT,
        *TEXT,
        *[c_uint8, c_uint8, POINTER(DateParts), POINTER(c_uint8)],
    ],
    "icu_calendar_add": [c_uint8, c_uint8, c_int64, POINTER(DurationParts), c_uint8, POINTER(DateParts), POINTER(c_uint8)],
    "icu_calendar_until": [c_uint8, c_uint8, c_int64, c_int64, c_uint8, POINTER(DurationParts)],
    "icu_calendar_era_of_day": [c_uint8, c_uint8, c_int64, *TEXT, POINTER(c_size_t)],
    "icu_calendar_lengths_of_day": [c_uint8, c_uint8, c_int64, POINTER(LengthParts)],
    "icu_calendar_anniversaries": [*[c_uint8] * 6, c_int64, c_int64, *COLUMN, POINTER(c_size_t), POINTER(c_int64)],
    "icu_calendar_recurrences": [
        *[c_uint8, c_uint8, c_int64, c_uint8, c_uint32, c_uint8, c_int64, c_int64],
        *[*COLUMN, POINTER(c_size_t), POINTER(c_int64)],
    ],
    "icu_calendar_holidays": [
        *[c_uint8, *TEXT, c_int64, c_int64, c_size_t, *COLUMN],
        *[POINTER(c_size_t), POINTER(c_int64), POINTER(c_size_t), POINTER(BookFaultParts)],
    ],
    "icu_calendar_holiday_name": [*TEXT, c_size_t, *TEXT, POINTER(c_size_t)],
    "icu_calendar_week_of_year": [c_int64, POINTER(c_int32), POINTER(c_uint8)],
    "icu_calendar_easter": [c_uint8, c_int32, POINTER(c_int64)],
    "icu_calendar_dates_of_days": [c_uint8, c_uint8, *COLUMN, *COLUMN, *COLUMN],
    "icu_calendar_until_each": [c_uint8, c_uint8, *COLUMN, *COLUMN, c_uint8, *COLUMN, *COLUMN],
    "icu_calendar_add_to_each": [c_uint8, c_uint8, *COLUMN, POINTER(DurationParts), c_uint8, *COLUMN, *COLUMN],
    "icu_calendar_add_each": [c_uint8, c_uint8, *COLUMN, *COLUMN, c_uint8, *COLUMN, *COLUMN],
    "icu_calendar_dates_of_fields": [c_uint8, c_uint8, *COLUMN, *TEXT, *TEXT, c_uint8, c_uint8, *COLUMN, *COLUMN],
    "icu_calendar_weeks_of_days": [*COLUMN, *COLUMN, *COLUMN],
    "calspan": [*TEXT, *TEXT, *TEXT, POINTER(c_size_t)],
}


def places() -> list[Path]:
    """Where the shared object may be, the first place first."""
    here = Path(__file__).resolve().parent
    named = os.environ.get("ICU_CALENDAR_LIBRARY")
    tops = [it / "crates/icu_calendar_c/out" / NAME for it in here.parents[2:3]]
    return [*([Path(named)] if named else []), here / NAME, *tops]


def load() -> ctypes.CDLL:
    path = next((it for it in places() if it.exists()), None)
    if path is None:
        raise ImportError(f"{NAME} is in none of these places: {', '.join(map(str, places()))}; bindings/c/build.sh makes it")
    library = ctypes.CDLL(str(path))
    for name, types in TYPES.items():
        call = getattr(library, name)
        call.argtypes, call.restype = types, c_uint8
    return library


library = load()
