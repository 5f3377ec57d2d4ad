"""Durations."""

from __future__ import annotations

from dataclasses import dataclass, fields
from operator import index

from .errors import OutOfRange
from .library import DurationParts

# What a part of a duration may be at most.
MOST = 2**32 - 1


@dataclass(frozen=True)
class Duration:
    """A signed duration. Its parts have no sign; `is_negative` turns the whole back in time.

    >>> -Duration(months=1, days=3)
    Duration(years=0, months=1, weeks=0, days=3, is_negative=True)

    Raises OutOfRange for a part that is negative or has more than 32 bits."""

    years: int = 0
    months: int = 0
    weeks: int = 0
    days: int = 0
    is_negative: bool = False

    def __post_init__(self) -> None:
        for it in fields(self)[:4]:
            number = index(getattr(self, it.name))
            if number < 0:
                advice = f"Parts have no sign: -Duration({it.name}={-number}) leads back in time."
                raise OutOfRange(given=f"Duration({it.name}={number})", advice=advice)
            if number > MOST:
                raise OutOfRange(given=f"Duration({it.name}={number})", advice=f"0 to {MOST} would do.")

    @classmethod
    def _of(cls, parts: DurationParts) -> Duration:
        return cls(parts.years, parts.months, parts.weeks, parts.days, bool(parts.is_negative))

    def _parts(self) -> DurationParts:
        return DurationParts(self.years, self.months, self.weeks, self.days, self.is_negative)

    def __str__(self) -> str:
        """Returns the duration as ISO 8601 writes it."""
        parts = ((self.years, "Y"), (self.months, "M"), (self.weeks, "W"), (self.days, "D"))
        text = "".join(f"{number}{letter}" for number, letter in parts if number)
        return f"{'-' if self.is_negative else ''}P{text or '0D'}"

    def __neg__(self) -> Duration:
        return Duration(self.years, self.months, self.weeks, self.days, not self.is_negative)

    def __bool__(self) -> bool:
        """Returns whether a part isn't 0."""
        return bool(self.years or self.months or self.weeks or self.days)
