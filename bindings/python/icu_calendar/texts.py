"""Texts of dates (RFC 9557): an ISO date, and a calendar's name."""

from __future__ import annotations

import re

from .codes import Calendar
from .errors import InvalidText

# Four digits, or a sign and six of them, as in ISO 8601 and ECMAScript.
DATE = re.compile(r"(\d{4}|[+-]\d{6})-(\d\d)-(\d\d)(?:\[!?u-ca=([a-z0-9]+(?:-[a-z0-9]+)*)\])?", re.ASCII)


def read(text: str) -> tuple[int, int, int, Calendar]:
    """Returns the ISO year, the month, the day and the calendar that a text names; without a name, ISO.

    Raises InvalidText for a text of another form, and UnknownCalendar for an unknown name."""
    found = DATE.fullmatch(text)
    if found is None or found[1] == "-000000":
        raise InvalidText(given=repr(text))
    return int(found[1]), int(found[2]), int(found[3]), Calendar.of(found[4] or "iso")


def iso_text(year: int, month: int, day: int) -> str:
    """Returns an ISO date as a text. Years from 0 to 9999 have four digits, all others a sign and six."""
    number = f"{year:04}" if 0 <= year <= 9999 else f"{year:+07}"
    return f"{number}-{month:02}-{day:02}"


def annotation(calendar: Calendar) -> str:
    """Returns what follows the ISO date in the text of a calendar's date; nothing for ISO."""
    return "" if calendar is Calendar.ISO else f"[u-ca={calendar.cldr_name}]"
