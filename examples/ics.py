#!/usr/bin/env python3
"""Reads and writes iCalendar files (RFC 5545) of whole days, over the Python module.

    examples/ics.py days FILE --first 2024-01-01 --count 10
    examples/ics.py write --calendar hebrew --start 2024-01-01 --count 10 'FREQ=YEARLY;BYMONTH=5L;BYMONTHDAY=10;SKIP=FORWARD' > adar.ics

`days` prints the coming days of all events of a file, by their DTSTART, RRULE, RDATE and EXDATE: RSCALE names the calendar of a rule, and DTSTART is
a day of its event, too. Events with times are left out, and named on standard error, as are rules that the module rejects. `write` writes a file with an
event for each day of a rule. An event lasts its day and takes up no time, and its UID stays the same when the file is written again.
"""

from __future__ import annotations

import argparse
import datetime
import heapq
import re
import sys
from collections.abc import Iterable, Iterator
from dataclasses import dataclass, field
from itertools import islice
from pathlib import Path

sys.path.insert(0, str(Path(__file__).resolve().parent.parent / "bindings/python"))
from icu_calendar import Calendar, CalendarError, Date, rrule  # noqa: E402

# How far a list looks, in days: some rules never come.
MOST_DAYS = 150_000
LONGEST_LINE = 75
PLAIN_DATE = re.compile(r"\d{8}")
# A property: its name, its parameters and its value. A parameter may be in quotes, with colons in it.
PROPERTY = re.compile(r'([A-Za-z0-9-]+)((?:;[^=:;]+=(?:"[^"]*"|[^":;]*))*):(.*)')
ESCAPES = {"\\": "\\", ";": ";", ",": ",", "n": "\n", "N": "\n"}


@dataclass
class Event:
    """An event of whole days: the days of its start, its rules and its RDATE, without those of its EXDATE."""

    summary: str = ""
    start: int | None = None
    rules: list[str] = field(default_factory=list)
    added: set[int] = field(default_factory=set)
    removed: set[int] = field(default_factory=set)

    def days(self, first: int, last: int) -> Iterator[int]:
        """Returns an iterator over the day numbers from `first` to `last`, in order and each once. Raises RuleError for a rule that is none."""
        if self.start is None:
            return iter(())
        named = (it for it in sorted({self.start, *self.added}) if first <= it <= last)
        return self._merged([named, *(days_of_rule(it, self.start, first, last) for it in self.rules)])

    def _merged(self, lists: list[Iterator[int]]) -> Iterator[int]:
        before = None
        for day in heapq.merge(*lists):
            if day != before and day not in self.removed:
                yield day
            before = day


def days_of_rule(rule: str, start: int, first: int, last: int) -> Iterator[int]:
    """Returns an iterator over the days of a rule, whose RSCALE names the calendar."""
    scale = re.search(r"(?:^|;)RSCALE=([^;]*)", rule, re.IGNORECASE)
    found = rrule(rule, start, first, last, calendar=scale[1].lower() if scale else Calendar.GREGORIAN)
    return (it.date.day_number for it in found)


def unfolded(text: str) -> list[str]:
    """Returns the lines of a file, put together where they were folded."""
    return re.sub(r"\r?\n[ \t]", "", text).splitlines()


def unescaped(value: str) -> str:
    return re.sub(r"\\(.)", lambda it: ESCAPES.get(it[1], it[0]), value)


def day_of(value: str) -> int:
    """Returns the day number of a date such as 20240219. Raises ValueError for anything else, such as a date with a time."""
    if not PLAIN_DATE.fullmatch(value):
        raise ValueError(f"{value} is no date")
    return datetime.date(int(value[:4]), int(value[4:6]), int(value[6:])).toordinal()


def take(event: Event, name: str, value: str) -> None:
    """Puts a property into its event. Raises ValueError for a date with a time."""
    if name == "SUMMARY":
        event.summary = unescaped(value)
    elif name == "DTSTART":
        event.start = day_of(value)
    elif name == "RRULE":
        event.rules.append(value)
    elif name in ("RDATE", "EXDATE"):
        (event.added if name == "RDATE" else event.removed).update(map(day_of, value.split(",")))


def events_of(text: str) -> Iterator[tuple[Event, str]]:
    """Yields the events of a file, each with what is wrong with it, or an empty text. What stands inside of an event, such as an alarm, is passed over."""
    inside: list[str] = []
    event, fault = Event(), ""
    for line in unfolded(text):
        found = PROPERTY.fullmatch(line)
        name, value = (found[1].upper(), found[3]) if found else ("", "")
        if name == "BEGIN":
            inside.append(value.upper())
            if inside[-1] == "VEVENT":
                event, fault = Event(), ""
        elif name == "END" and inside:
            if inside.pop() == "VEVENT":
                yield event, fault
        elif inside[-1:] == ["VEVENT"]:
            try:
                take(event, name, value)
            except ValueError as error:
                fault = f"{name}: {error}"


def coming(text: str, first: int, last: int) -> Iterator[tuple[int, str]]:
    """Returns an iterator over the days of all events of a file from `first` to `last`, in order, with their summaries. Names the events that it
    leaves out."""
    lists = []
    for event, fault in events_of(text):
        try:
            if fault:
                raise ValueError(fault)
            lists.append(with_summary(event.days(first, last), event.summary))
        except ValueError as error:
            print(f"left out: {event.summary or 'an event'}: {error}", file=sys.stderr)
    return iter(heapq.merge(*lists))


def with_summary(days: Iterator[int], summary: str) -> Iterator[tuple[int, str]]:
    return ((day, summary) for day in days)


def escaped(text: str) -> str:
    """Returns a text as a value of iCalendar."""
    return re.sub(r"([\\;,])", r"\\\1", text).replace("\n", "\\n")


def folded(line: str) -> str:
    """Returns a line folded to at most 75 bytes each, and never within a character."""
    lines, length = [""], 0
    for character in line:
        size = len(character.encode())
        if length + size > LONGEST_LINE:
            lines.append(" ")
            length = 1
        lines[-1] += character
        length += size
    return "\r\n".join(lines)


def calendar_file(name: str, events: Iterable[tuple[Date, str]], moment: datetime.datetime) -> str:
    """Returns a file with an event for each date in the years 1 to 9999. The UIDs are made from the list's name and the days."""
    lines = ["BEGIN:VCALENDAR", "VERSION:2.0", "PRODID:-//calspan//Dates in twenty calendars//EN", "CALSCALE:GREGORIAN"]
    for date, summary in events:
        if not 1 <= date.day_number <= datetime.date.max.toordinal():
            continue
        day = datetime.date.fromordinal(date.day_number).isoformat().replace("-", "")
        lines += ["BEGIN:VEVENT", f"UID:{name}/{day}@calspan.invalid", f"DTSTAMP:{moment:%Y%m%dT%H%M%SZ}"]
        lines += [f"DTSTART;VALUE=DATE:{day}", "TRANSP:TRANSPARENT", f"SUMMARY:{escaped(summary)}", "END:VEVENT"]
    return "".join(f"{folded(it)}\r\n" for it in [*lines, "END:VCALENDAR"])


def file_of_rule(rule: str, calendar: Calendar, start: datetime.date, count: int, summary: str, moment: datetime.datetime) -> str:
    """Returns a file with the first days of a rule."""
    name = "/".join(["rule", calendar.program_name, start.isoformat(), re.sub(r"[^A-Z0-9]+", "-", rule.upper())])
    last = min(start.toordinal() + MOST_DAYS, datetime.date.max.toordinal())
    dates = [it.date for it in islice(rrule(rule, start, last=last, calendar=calendar), count)]
    events = [(it, f"{summary}: {it.extended_year}-{it.month_code}-{it.day:02}") for it in dates]
    return calendar_file(name, events, moment)


def main() -> int:
    arguments = argparse.ArgumentParser(description=__doc__, formatter_class=argparse.RawDescriptionHelpFormatter)
    commands = arguments.add_subparsers(dest="command", required=True)
    days = commands.add_parser("days", help="print the coming days of a file's events")
    days.add_argument("file", type=Path)
    days.add_argument("--first", type=datetime.date.fromisoformat, default=datetime.date.today(), help="the first day (default: today)")
    days.add_argument("--count", type=int, default=20, help="how many days (default: %(default)s)")
    write = commands.add_parser("write", help="write a file with the days of a rule")
    write.add_argument("rule", help="the value of RRULE")
    write.add_argument("--calendar", default="gregorian", help="the rule's calendar (default: %(default)s)")
    write.add_argument("--start", type=datetime.date.fromisoformat, default=datetime.date.today(), help="the start (default: today)")
    write.add_argument("--count", type=int, default=20, help="how many days (default: %(default)s)")
    write.add_argument("--summary", default="", help="what the events are called (default: the rule)")
    given = arguments.parse_args()
    try:
        if given.command == "days":
            first = given.first.toordinal()
            last = min(first + MOST_DAYS, datetime.date.max.toordinal())
            for day, summary in islice(coming(given.file.read_text(), first, last), given.count):
                print(f"{datetime.date.fromordinal(day):%Y-%m-%d %a} {summary}")
        else:
            calendar, moment = Calendar.of(given.calendar), datetime.datetime.now(datetime.timezone.utc)
            text = file_of_rule(given.rule, calendar, given.start, given.count, given.summary or given.rule, moment)
            sys.stdout.buffer.write(text.encode())
    except CalendarError as error:
        print(f"ics: {error}", file=sys.stderr)
        return 1
    return 0


if __name__ == "__main__":
    sys.exit(main())
