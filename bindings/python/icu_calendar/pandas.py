"""Dates of a calendar in series of pandas. Importing this module gives every series the accessor `calendar`.

    >>> import pandas as pd
    >>> import icu_calendar.pandas
    >>> series = pd.Series(pd.to_datetime(["2024-02-10", None, "2025-01-29"]))
    >>> series.calendar("chinese").month_code.tolist()
    ['M01', None, 'M01']
    >>> series.calendar("hebrew").add(years=1)
    0   2025-03-01
    1          NaT
    2   2026-01-18
    dtype: datetime64[ns]

A series has days: `datetime64`, day numbers, `datetime.date` or `Date`. Answers are series with its index; a place without an answer is missing
(NA or NaT), and `cause` says why. Days that `datetime64[ns]` doesn't have, before 1677 or behind 2262, come back as `Date`, one by one.
"""

from __future__ import annotations

from typing import Any

import numpy as np
import pandas as pd

from . import arrays
from .codes import CalendarLike, OverflowLike, Overflow, Unit, UnitLike, Years, YearsLike
from .columns import ma
from .dates import Date
from .durations import Duration

# The days that `datetime64[ns]` has whole.
FIRST_OF_PANDAS = pd.Timestamp.min.ceil("D").toordinal()
LAST_OF_PANDAS = pd.Timestamp.max.floor("D").toordinal()
INTEGERS = {np.dtype(np.int64): "Int64", np.dtype(np.int32): "Int32", np.dtype(np.uint8): "UInt8"}


def days_of(given: Any) -> Any:
    """Returns the days of a series or an index as a column, and anything else as it is."""
    if not isinstance(given, (pd.Series, pd.Index)):
        return given
    if isinstance(given.dtype, pd.DatetimeTZDtype):
        given = given.dt.tz_localize(None) if isinstance(given, pd.Series) else given.tz_localize(None)
    if pd.api.types.is_integer_dtype(given.dtype):
        return ma.MaskedArray(given.fillna(0).to_numpy(dtype=np.int64), mask=given.isna().to_numpy())
    if pd.api.types.is_object_dtype(given.dtype):
        return given.where(given.notna(), None).to_numpy()
    return given.to_numpy()


class Dates:
    """A series of days, as dates of a calendar."""

    def __init__(self, column: arrays.Dates, index: pd.Index, name: Any = None):
        self.column, self.index, self.name = column, index, name

    def series_of(self, values: Any, name: Any) -> pd.Series:
        """Returns a masked column with this index as a series, with NA under the mask."""
        data, hidden = ma.getdata(values), ma.getmaskarray(values)
        if data.dtype in INTEGERS:
            return pd.Series(pd.arrays.IntegerArray(np.ascontiguousarray(data), hidden), index=self.index, name=name)
        if data.dtype.kind == "b":
            return pd.Series(pd.arrays.BooleanArray(np.ascontiguousarray(data), hidden), index=self.index, name=name)
        objects = data.astype(object)
        objects[hidden] = None
        return pd.Series(objects, index=self.index, name=name)

    @property
    def year(self) -> pd.Series:
        """The extended years."""
        return self.series_of(self.column.year, "year")

    @property
    def era(self) -> pd.Series:
        """The codes of the eras; empty for years of the cycle of sixty."""
        return self.series_of(self.column.era, "era")

    @property
    def era_year(self) -> pd.Series:
        """The era years."""
        return self.series_of(self.column.era_year, "era_year")

    @property
    def cyclic_year(self) -> pd.Series:
        """The years in the cycle of sixty, or 0."""
        return self.series_of(self.column.cyclic_year, "cyclic_year")

    @property
    def ordinal_month(self) -> pd.Series:
        """The numbers of the months in their years."""
        return self.series_of(self.column.ordinal_month, "ordinal_month")

    @property
    def month_code(self) -> pd.Series:
        """The month codes, such as M05L."""
        return self.series_of(self.column.month_code, "month_code")

    @property
    def month_is_leap(self) -> pd.Series:
        """Whether the months are leap months."""
        return self.series_of(self.column.month_is_leap, "month_is_leap")

    @property
    def day(self) -> pd.Series:
        """The days of the months."""
        return self.series_of(self.column.day, "day")

    @property
    def day_number(self) -> pd.Series:
        """The day numbers (rata die)."""
        return self.series_of(self.column.day_number, "day_number")

    @property
    def weekday(self) -> pd.Series:
        """The days of the week, from 1 for Monday to 7 for Sunday."""
        return self.series_of(self.column.weekday, "weekday")

    @property
    def cause(self) -> pd.Series:
        """The causes by name: empty for a date, `Missing` for a place that had no value."""
        return pd.Series(self.column.cause, index=self.index, name="cause", dtype="category")

    def days(self) -> pd.Series:
        """Returns the days as `datetime64[ns]`, with NaT where there is no date; or as `Date` objects if that type hasn't all of them."""
        numbers, done = self.column.day_numbers, self.column.done
        if ((numbers >= FIRST_OF_PANDAS) & (numbers <= LAST_OF_PANDAS) | ~done).all():
            return pd.Series(self.column.to_datetime64().astype("datetime64[ns]"), index=self.index, name=self.name)
        calendar, years = self.column.calendar, self.column.years
        objects = [Date.of_day(int(day), calendar, years) if here else None for day, here in zip(numbers, done)]
        return pd.Series(objects, index=self.index, name=self.name, dtype=object)

    def frame(self) -> pd.DataFrame:
        """Returns year, era, era year, month code, day and cause as columns of a frame."""
        return pd.concat([self.year, self.era, self.era_year, self.month_code, self.day, self.cause], axis=1)

    def to(self, calendar: CalendarLike, years: YearsLike | None = None) -> Dates:
        """Returns the same days in another calendar."""
        return Dates(self.column.to_calendar(calendar, years), self.index, self.name)

    def add(
        self,
        duration: Duration | None = None,
        *,
        years: Any = 0,
        months: Any = 0,
        weeks: Any = 0,
        days: Any = 0,
        overflow: OverflowLike = Overflow.DEFAULT,
    ) -> pd.Series:
        """Returns the days with a duration or signed numbers of units added, one for all or a series of them."""
        return self.added(duration, years=years, months=months, weeks=weeks, days=days, overflow=overflow).days()

    def added(self, duration: Duration | None = None, *, overflow: OverflowLike = Overflow.DEFAULT, **units: Any) -> Dates:
        """Does the same, and returns dates of the calendar, whose `cause` says why a place has none."""
        numbers = {name: self._numbers(it) for name, it in units.items()}
        return Dates(self.column.add(duration, overflow=overflow, **numbers), self.index, self.name)

    def _numbers(self, given: Any) -> Any:
        if not isinstance(given, pd.Series):
            return given
        aligned = given.reindex(self.index)
        return ma.MaskedArray(aligned.fillna(0).to_numpy(dtype=np.int64), mask=aligned.isna().to_numpy())

    def until(self, other: Any, largest_unit: UnitLike = Unit.DAYS) -> pd.DataFrame:
        """Returns the differences to other days as a frame of signed years, months, weeks and days, and causes. The other days are a series,
        which is aligned by its index, or one day for all."""
        if isinstance(other, pd.Series):
            other = other.reindex(self.index)
        apart = self.column.until(days_of(other), largest_unit)
        parts = [self.series_of(getattr(apart, it), it) for it in ("years", "months", "weeks", "days")]
        return pd.concat([*parts, pd.Series(apart.cause, index=self.index, name="cause", dtype="category")], axis=1)


@pd.api.extensions.register_series_accessor("calendar")
class CalendarAccessor:
    """`series.calendar("hebrew")`: the days of a series as dates of a calendar."""

    def __init__(self, series: pd.Series):
        self._series = series

    def __call__(self, calendar: CalendarLike, years: YearsLike = Years.PUBLISHED) -> Dates:
        """Returns the days as dates of a calendar. Chinese, Korean, Umm al-Qura and Persian years are the published ones unless computed ones
        are asked for."""
        return Dates(arrays.dates(days_of(self._series), calendar, years), self._series.index, self._series.name)
