#!/usr/bin/env python3
"""Compares `calspan explain holidays`, and the refusals of `calspan holidays`, with a reference of its own, over books whose records are nearly
right.

The reference has a pattern for each field of each kind of rule, after the manual. The first field that its pattern doesn't fit is the fault.
"""

import argparse
import csv
import io
import random
import re
import sys

import lists
from grammar import CALENDARS

NAMES = [it.decode() for it in CALENDARS]
PLAIN = [f"M{month:02}" for month in range(1, 13)]
MONTHS = {
    **dict.fromkeys(["coptic", "ethiopic", "ethioaa"], [*PLAIN, "M13"]),
    "hebrew": [*PLAIN, "M05L"],
    **dict.fromkeys(["chinese", "dangi"], [*PLAIN, *[f"{month}L" for month in PLAIN]]),
}
WEEKDAYS = ["monday", "tuesday", "wednesday", "thursday", "friday", "saturday", "sunday"]
WEEKDAY = "|".join(WEEKDAYS)
DAY, NTH, OFFSET = r"0?[1-9]|[12][0-9]|3[01]", r"[1-5]|-1", r"-?0*([0-9]{1,2}|[123][0-9]{2}|400)"
YEAR, EVERY = r"(-?[0-9]{1,6})?", r"(0*([1-9]|[1-9][0-9]|[123][0-9]{2}|400))?"
MOVE = rf"({WEEKDAY})[-+][0-6]"
# Recurrence rules for any calendar, and texts that are none.
RECURRENCES = ["FREQ=DAILY", "freq=yearly;interval=4", "FREQ=MONTHLY;BYDAY=-1FR,2MO", "FREQ=WEEKLY;COUNT=3;BYDAY=SU"]
STARTS = ["2024-02-29", "0000-01-01", "9999-12-31"]
# What may stand in the fields 3 to 6 of each kind: patterns, and what the program says of them.
CALENDAR = "|".join(NAMES)
A_CALENDAR = "a calendar: " + ", ".join(NAMES[:-1]) + " or " + NAMES[-1]
A_MONTH = "the code of a month of the calendar, such as M01"
KINDS = {
    "fixed": [(CALENDAR, A_CALENDAR), (None, A_MONTH), (DAY, "a day, 1 to 31"), ("exact|constrain", "exact or constrain")],
    "easter": [("gregorian|julian", "gregorian or julian"), ("", "nothing"), (OFFSET, "days after Easter, -400 to 400"), ("", "nothing")],
    "weekday": [(CALENDAR, A_CALENDAR), (None, A_MONTH), (NTH, "1 to 5, or -1 for the last"), (WEEKDAY, "monday to sunday")],
    "span": [(CALENDAR, A_CALENDAR), (None, A_MONTH), (DAY, "a day, 1 to 31"), (rf"-?({WEEKDAY})", "monday to sunday, or with a - before it")],
    "rule": [
        (CALENDAR, A_CALENDAR),
        ("", "nothing"),
        ("|".join(map(re.escape, RECURRENCES)), "a recurrence rule for the calendar"),
        ("|".join(STARTS), "a date, YYYY-MM-DD"),
    ],
}
A_YEAR = "nothing, or a year, an optional - and 1 to 6 digits"
NEAR = [
    *["", " ", "0", "1", "5", "6", "-1", "7", "09", "31", "32", "031", "400", "401", "-400", "-401", "1000000", "-999999", "a\nb", 'a"b', "é"],
    *["fixed", "easter", "weekday", "span", "rule", "Fixed", "gregorian", "julian", "iso", "hebrew", "chinese", "coptic", "iso8601", "exact", "constrain"],
    *["M00", "M01", "M05L", "M12", "M13", "M1", "m01", "M01L", "monday", "-sunday", "--monday", "Sunday", "saturday-1", "sunday+6 monday-0"],
    *[*RECURRENCES, *STARTS, "FREQ=DAILY;", "FREQ=HOURLY", "COUNT=3", "2023-02-29", "2024-2-29", "2024-02-30", "20240229", "+024-01-01"],
    *["sunday+7", "sunday+1 sunday+2", "sunday+1  monday+1", "sunday", "x" * 64, "x" * 65],
]


def fits(pattern: str, text: str) -> bool:
    return re.fullmatch(pattern, text) is not None


def are_moves(text: str) -> bool:
    words = text.split(" ")
    days = [re.sub(r"..$", "", word) for word in words]
    return not text or (all(fits(MOVE, word) for word in words) and len(set(days)) == len(days))


def fault_of(fields: list[str]) -> tuple[int, str] | None:
    """The number of the first invalid field, and what may stand there."""
    if not 6 <= len(fields) <= 10:
        return 0, "six to ten fields"
    kind, name, calendar, month = fields[:4]
    since, until, every, moves = [*fields[6:], "", "", "", ""][:4]
    if kind not in KINDS:
        return 1, "fixed, easter, weekday, span or rule"
    if not fits(r"[ -~]{1,64}", name):
        return 2, "a name, 1 to 64 printable ASCII characters"
    for number, (pattern, what) in enumerate(KINDS[kind], 3):
        here = fields[number - 1]
        if not (month in MONTHS.get(calendar, PLAIN) if pattern is None else fits(pattern, here)):
            return number, what
    if not fits(YEAR, since):
        return 7, A_YEAR
    if not fits(YEAR, until):
        return 8, A_YEAR
    if every and not (since and fits(EVERY, every) and len(every) <= 3):
        return 9, "nothing, or years, 1 to 400" if since else "nothing, since field 7 is empty"
    return None if are_moves(moves) else (10, "nothing, or moves such as saturday-1 sunday+1, each weekday once")


def explained(number: int, fields: list[str]) -> str:
    fault = fault_of(fields)
    if not fault:
        return ""
    field, what = fault
    text = [*["", *fields], *[""] * 10][field]
    shown = f" {text}" if fits(r"[ -~]+", text) else ""
    return f"record {number} field {field}{shown}: {what}\n"


def record(chance: random.Random) -> list[str]:
    """A valid record, or one with a field or two exchanged, left out or put in."""
    kind = chance.choice(list(KINDS))
    calendar = chance.choice(["gregorian", "julian"] if kind == "easter" else NAMES)
    month = "" if kind in ("easter", "rule") else chance.choice(MONTHS.get(calendar, PLAIN))
    rest = {
        "fixed": [str(chance.randint(1, 31)), chance.choice(["exact", "constrain"])],
        "easter": [str(chance.randint(-400, 400)), ""],
        "weekday": [chance.choice(["1", "5", "-1"]), chance.choice(WEEKDAYS)],
        "span": [str(chance.randint(1, 31)), chance.choice(["", "-"]) + chance.choice(WEEKDAYS)],
        "rule": [chance.choice(RECURRENCES), chance.choice(STARTS)],
    }[kind]
    since = chance.choice(["", "2000", "-5"])
    years = [since, chance.choice(["", "2030"]), chance.choice(["", "4"]) if since else "", chance.choice(["", "saturday-1 sunday+1"])]
    fields = [kind, "A name", calendar, month, *rest, *years][: chance.choice([6, 7, 8, 9, 10, 10])]
    for _ in range(chance.choice([0, 1, 1, 2])):
        at = chance.randrange(len(fields))
        fields[at : at + chance.choice([0, 1, 1, 1, 1, 1])] = [chance.choice(NEAR)] if chance.random() < 0.95 else []
    return fields or ["x"]


def with_names_in_order(line: str) -> str:
    """The line, with the names of calendars in the order of the alphabet."""
    head, mark, names = line.partition(": a calendar: ")
    return head + mark + " ".join(sorted(re.split(", | or ", names))) if mark else line


def book_of(rows: list[list[str]]) -> str:
    text = io.StringIO()
    csv.writer(text, lineterminator="\n").writerows(rows)
    return text.getvalue()


def is_refused_so(fields: list[str]) -> bool:
    """Whether `holidays` refuses a book of one record as the reference does, or takes it."""
    fault = fault_of(fields)
    ran = lists.run(lists.PROGRAM, [b"holidays", b"738886", b"739251"], book_of([fields]).encode())
    return ran.stdout == b"err record 1 field %d\n" % fault[0] and ran.returncode == 1 if fault else ran.returncode == 0


def compare_records(books: int = 60, records: int = 50, alone: int = 10) -> str:
    chance = random.Random(20261201)
    for _ in range(books):
        rows = [record(chance) for _ in range(records)]
        book = book_of(rows)
        wanted = "".join(explained(number, fields) for number, fields in enumerate(rows, 1))
        ran = lists.run(lists.PROGRAM, [b"explain", b"holidays"], book.encode())
        got = ran.stdout.decode()
        if [*map(with_names_in_order, got.splitlines())] != [*map(with_names_in_order, wanted.splitlines())] or ran.returncode != int(bool(wanted)):
            pairs = zip([*wanted.splitlines(), None], [*got.splitlines(), None])
            raise SystemExit(f"status {ran.returncode}: {next((it for it in pairs if it[0] != it[1]), None)} in\n{book}")
        if others := [fields for fields in rows[:alone] if not is_refused_so(fields)]:
            raise SystemExit(f"`holidays` doesn't refuse {others[0]} as the reference does")
    return f"{books * records} records are explained as a reference wants, and {books * alone} refused so"


def main() -> int:
    arguments = argparse.ArgumentParser(description=__doc__, formatter_class=argparse.RawDescriptionHelpFormatter)
    arguments.add_argument("--program", metavar="FILE", help="compare this program in place of the built one")
    given = arguments.parse_args()
    if given.program:
        lists.PROGRAM = given.program
    print(f"cases: {compare_records()}")
    return 0


if __name__ == "__main__":
    sys.exit(main())
