"""The types of columns of dates, and what every column says of its places."""

from __future__ import annotations

import datetime
from typing import Any, Union

import numpy as np
from numpy.typing import NDArray

from .dates import Date, day_number_of
from .errors import BY_CODE, InvalidDayNumber

# The layouts of `icu_calendar_date`, `_duration`, `_fields`, `_outcome` and `_week` in the header.
DATE = np.dtype(
    [
        ("day_number", np.int64),
        ("extended_year", np.int32),
        ("era_year", np.int32),
        ("cyclic_year", np.uint8),
        ("ordinal_month", np.uint8),
        ("month_number", np.uint8),
        ("month_is_leap", np.uint8),
        ("day", np.uint8),
    ],
    align=True,
)
DURATION = np.dtype([(it, np.uint32) for it in ("years", "months", "weeks", "days")] + [("is_negative", np.uint8)], align=True)
FIELDS = np.dtype(
    [("era_year", np.int32), ("extended_year", np.int32)]
    + [(it, np.uint8) for it in ("has_era_year", "has_extended_year", "has_month", "month_number", "month_is_leap")]
    + [(it, np.uint8) for it in ("has_ordinal_month", "ordinal_month", "has_day", "day")],
    align=True,
)
OUTCOME = np.dtype([("code", np.uint8), ("max", np.uint8)])
WEEK = np.dtype([("year", np.int32), ("week", np.uint8), ("weekday", np.uint8)], align=True)
assert (DATE.itemsize, DURATION.itemsize, FIELDS.itemsize, OUTCOME.itemsize, WEEK.itemsize) == (24, 20, 20, 2, 8)

# The code of a place that had no value: NaT, or a masked one. No call returns it.
MISSING = 255
# A number that is no valid day, for numbers that an int64 can't hold.
NO_DAY = 2**62

# The day number of 1970-01-01, where `datetime64` counts from.
EPOCH = 719163

# The name of the cause for each code.
CAUSES = np.array([BY_CODE[it].__name__ if it in BY_CODE else "Missing" if it == MISSING else "" for it in range(256)])

# NumPy has no types for masked arrays.
ma: Any = np.ma
Masked = Any

Ints = NDArray[np.int64]
Flags = NDArray[np.bool_]
Bytes = NDArray[np.uint8]
# Days, however they are given: day numbers, `datetime64`, `datetime.date` or `Date`, one or many, also masked.
DaysLike = Union[Date, datetime.date, int, list[Any], "NDArray[Any]", "Column"]


class Column:
    """A column of answers. Places are refused (with a cause), missing (as they were given) or done."""

    codes: Bytes

    @property
    def shape(self) -> tuple[int, ...]:
        return self.codes.shape

    @property
    def size(self) -> int:
        return self.codes.size

    def __len__(self) -> int:
        return len(self.codes)

    @property
    def done(self) -> Flags:
        """Whether a place has an answer."""
        return np.equal(self.codes, 0)

    @property
    def missing(self) -> Flags:
        """Whether a place had no value: NaT, or a masked one."""
        return np.equal(self.codes, MISSING)

    @property
    def refused(self) -> Flags:
        """Whether a place had a value that the call rejects. `cause` says why."""
        return ~(self.done | self.missing)

    @property
    def cause(self) -> NDArray[np.str_]:
        """The name of each place's error, such as `InvalidDay`; `Missing` for a place without a value, and an empty text for an answer."""
        names: NDArray[np.str_] = CAUSES[self.codes]
        return names

    def causes(self) -> dict[str, int]:
        """Returns how many places have each cause, without those that have answers."""
        counts = np.bincount(self.codes.ravel(), minlength=256)
        return {str(CAUSES[code]): int(counts[code]) for code in range(1, 256) if counts[code]}

    def masked(self, values: NDArray[Any]) -> Masked:
        """Returns values with a mask over the places that have no answer."""
        hidden = self.codes != 0
        return ma.MaskedArray(values, mask=hidden if hidden.any() else ma.nomask)


class DayColumn(Column):
    """A column whose places have days."""

    day_numbers: Ints


def address(column: NDArray[Any]) -> tuple[int, int]:
    """Returns what the calls take for a column: where it begins, and its length."""
    return column.ctypes.data, column.size


def day_column(given: DaysLike) -> tuple[Ints, Flags | None]:
    """Returns day numbers, and which places have no value, or None if all have one.

    Raises TypeError for values that aren't days, such as floats."""
    if isinstance(given, DayColumn):
        return given.day_numbers, given.codes != 0
    if isinstance(given, (Date, datetime.date)):
        return np.array(day_number_of(given), dtype=np.int64), None
    hidden = ma.getmaskarray(given) if isinstance(given, ma.MaskedArray) else None
    values = np.asarray(ma.getdata(given))
    if values.dtype.names and "day_number" in values.dtype.names:
        values = values["day_number"]
    if values.dtype.kind == "M":
        return _epoch_days(values, hidden)
    if values.dtype.kind == "O":
        return _object_days(values, hidden)
    if values.dtype.kind not in "iu":
        raise TypeError(f"a column of days has day numbers, datetime64 or dates, and not {values.dtype}")
    if values.dtype.kind == "u":
        values = np.minimum(values, np.uint64(NO_DAY))
    return values.astype(np.int64, copy=False), hidden


def _joined(first: Flags | None, second: Flags) -> Flags | None:
    """Returns which places one of two masks hides."""
    if not second.any():
        return first
    return second if first is None else first | second


def _epoch_days(values: NDArray[Any], hidden: Flags | None) -> tuple[Ints, Flags | None]:
    absent = np.isnat(values)
    days = values.astype("datetime64[D]", copy=False).view(np.int64) + EPOCH
    return days, _joined(hidden, absent)


def _object_days(values: NDArray[Any], hidden: Flags | None) -> tuple[Ints, Flags | None]:
    """Returns the days of Python objects, where None is no value. This is the one place with a step of Python for each date."""
    absent = np.fromiter((it is None for it in values.flat), dtype=np.bool_, count=values.size).reshape(values.shape)
    numbers = (0 if it is None else _number_of(it) for it in values.flat)
    return np.fromiter(numbers, dtype=np.int64, count=values.size).reshape(values.shape), _joined(hidden, absent)


def _number_of(given: Any) -> int:
    try:
        return day_number_of(given)
    except InvalidDayNumber:
        return NO_DAY
