#!/usr/bin/env python3
"""Compares `calspan explain` with a reference of its own, over lines that are nearly requests and nearly rows.

The reference knows whole requests and whole rows only, by regular expressions. Words begin a line if some words behind them make one, so the
first bad word is the first one with which no line begins. What may stand there has to be what makes one: each word that the program lists.
For a row that is whole, it works out by its own rules whether the numbers have a year or an era, and whether it comes too late. `span` has to
stop at the first row that is explained, with the kind of fault that the reference has for it.
"""

import argparse
import random
import re
import sys
from dataclasses import dataclass
from fractions import Fraction

import lists
from grammar import BYTE, CALENDARS, FIELD, FIELDS, INT, OVERFLOWS, REQUEST, STRATEGIES, UNITS, WORDS, has_each_key_once
from lists import Case, stop_at_first

LENGTHS = rb"(?:[ls]{12} 0{1,3}|[ls]{13} (?!0+$)" + BYTE + rb")"
ROW = re.compile(rb"row (?:" + rb"|".join([
    *[rb"(?:china|korea) " + INT + b" " + INT + b" " + LENGTHS, rb"hijri " + INT + b" " + INT + rb" [ls]{12}", rb"persian " + INT],
    *[rb"era " + b" ".join([INT, BYTE, BYTE, rb"[a-z]{1,8}", BYTE])],
]) + rb")")
SHORT, LONG = b"l" * 12, b"s" * 13
# Whole lines, whose last words complete whatever begins a line.
WHOLE = [
    *[b"span iso iso none none none from to", b"row persian 0", b"row china 0 0 " + SHORT + b" 0", b"row china 0 0 " + LONG + b" 1"],
    *[b"row hijri 0 0 " + SHORT, b"row era 0 0 0 a 0"],
]
COMPLETIONS = [words[n:] for words in (it.split(b" ") for it in WHOLE) for n in range(len(words) + 1)]
# Words of rows, good and bad.
ROW_WORDS = [
    *[b"china", b"korea", b"hijri", b"persian", b"era", b"roc", b"0", b"-1", b"2024", b"000000001", b"1234567890", b"255", b"256", b"+1", b"-"],
    *[SHORT, LONG, b"l" * 11, b"s" * 14, SHORT + b"x", b"a", b"abcdefgh", b"abcdefghi", b"A", b"", b"00", b"000", b"1\t", b"\x00", b"row"],
]
LONGEST = 512
NAMED = {
    2: CALENDARS, 3: CALENDARS, 4: UNITS, 5: OVERFLOWS, 6: STRATEGIES, 7: [b"from"],
}


def is_line(words: list[bytes]) -> bool:
    line = b" ".join(words)
    request = REQUEST.fullmatch(line)
    bags = [it.split() for it in request.groups()[-2:]] if request else []
    return all(map(has_each_key_once, bags)) if request else bool(ROW.fullmatch(line))


def begins(words: list[bytes]) -> bool:
    return any(is_line(words + more) for more in COMPLETIONS)


def first_bad(words: list[bytes]) -> int | None:
    """The number of the first bad word, one more than there are if the line ends too early, and none if it is a line."""
    if is_line(words):
        return None
    return next((n for n in range(1, len(words) + 1) if not begins(words[:n])), len(words) + 1)


def january_19(year: int) -> int:
    """Its day number, by the leap years of the proleptic Gregorian calendar before it."""
    past = year - 1
    return 365 * past + past // 4 - past // 100 + past // 400 + 19


def mean_start(year: int) -> int:
    """The day on which a mean year of 10631 thirtieths of a day starts, without what is less than a day."""
    return 227015 + int(Fraction(10631 * (year - 1), 30))


def is_rule_year(year: int) -> bool:
    return abs(year) <= 8_000_000


@dataclass(frozen=True)
class Fault:
    """A fault of a row that is whole: the number of its word, what may stand there, and what `span` says of the row."""

    word: int
    what: bytes
    kind: bytes


def wrong_number(words: list[bytes]) -> Fault | None:
    """The first number of a whole row with which there is no year or no era."""
    table, numbers = words[1], [int(it) if re.fullmatch(INT, it) else 0 for it in words[2:]]
    rules = []
    if table in (b"china", b"korea", b"hijri"):
        rules.append((3, is_rule_year(numbers[0]), b"YEAR, -8000000 to 8000000"))
    if table in (b"china", b"korea"):
        rules.append((4, 0 <= numbers[1] - january_19(numbers[0]) <= 34, b"START, 0 to 34 days after January 19 of the year"))
        rules.append((6, numbers[3] in (0, *range(2, 14)), b"LEAP, 2 to 13 after 13 lengths"))
    if table == b"hijri":
        rules.append((4, abs(numbers[1] - mean_start(numbers[0])) <= 5, b"START, at most 5 days from the start of the mean year"))
    if table == b"era" and numbers[0] >= 2026:
        rules += [(3, numbers[0] < 2090, b"YEAR, up to 2089"), (4, numbers[1] in range(1, 16), b"MONTH, 1 to 15")]
        rules += [(5, numbers[2] in range(1, 32), b"DAY, 1 to 31"), (7, numbers[4] in (7, 8), b"INDEX, 7 or 8")]
    return next((Fault(word, what, b"range") for word, is_right, what in rules if not is_right), None)


class Walk:
    """Walks over the lines of an input, and says the text about each."""

    def __init__(self) -> None:
        self.has_ended = False
        self.has_era = False

    def fault_of_place(self, words: list[bytes]) -> Fault | None:
        """What is wrong with a row or with another line that isn't malformed where it stands, or with its first word."""
        if self.has_ended and words[0] == b"row":
            return Fault(1, b"span, since rows come before the first request", b"late")
        if self.has_ended and words[0] != b"span":
            return Fault(1, b"span", b"")
        if words[0] != b"row" or not is_line(words):
            return None
        if words[1] == b"era" and self.has_era:
            return Fault(2, b"china, korea, hijri or persian, since an earlier row has an era", b"syntax")
        return wrong_number(words)

    def explained(self, number: int, line: bytes) -> "Explained | None":
        text = line.removesuffix(b"\r")
        if not text or line.startswith(b"#"):
            return None
        if len(line) > LONGEST:
            self.has_ended = True
            return Explained(number, b"line %d: at most 512 bytes" % number, b"", None)
        words = text.split(b" ")
        fault = self.fault_of_place(words)
        bad = fault.word if fault else first_bad(words)
        if words[0] != b"row":
            self.has_ended = True
        elif bad is None and words[1] == b"era":
            self.has_era = True
        if bad is None:
            return None
        start = b"line %d word %d%s: " % (number, bad, b" " + words[bad - 1] if bad <= len(words) else b"")
        kind = b"" if words[0] != b"row" else fault.kind if fault else b"syntax"
        return Explained(number, start + fault.what if fault else start, kind, None if fault else (words, bad))


@dataclass(frozen=True)
class Explained:
    """The text about a line, up to what may stand there if it is malformed, and what `span` says of a row."""

    number: int
    text: bytes
    kind: bytes
    malformed: tuple[list[bytes], int] | None


def listed(what: bytes) -> list[bytes]:
    """The words that a text like `a, b or c` lists."""
    return re.split(rb", | or ", what.removeprefix(b"a calendar: "))


def fault_of_what(words: list[bytes], bad: int, what: bytes) -> str | None:
    """What is wrong with the text of what may stand there: each word that it lists has to go on, and those of a request's form are all."""
    before = words[: bad - 1]
    if before[:1] == [b"span"] and bad in NAMED and sorted(listed(what)) != sorted(NAMED[bad]):
        return f"{what!r} after {before!r}"
    if before == [b"row"] and sorted(listed(what)) != sorted([b"china", b"era", b"hijri", b"korea", b"persian"]):
        return f"{what!r} after {before!r}"
    if what == b"the end of the line" and not is_line(before):
        return f"{what!r} after {before!r}"
    if what.startswith(b"to, ") and not begins([*before, b"to"]):
        return f"{what!r} after {before!r}"
    return None


def fault_of_span(source: bytes, wanted: list[Explained]) -> str | None:
    """`span` stops at the first row that is explained, unless a table is refused before, and at no other one."""
    answers = lists.run(lists.PROGRAM, [b"span"], source).stdout.split(b"\n")
    refused = next((it for it in wanted if it.kind), None)
    stops = [it for it in answers if it.startswith(b"table line ")]
    tables = [it for it in answers if it.startswith(b"table ") and it not in stops]
    named = [b"table line %d %s" % (refused.number, refused.kind)] if refused else []
    if stops != named and not (tables and not stops and (refused is None or refused.kind == b"late")):
        return f"{source!r}: span says {stops} in place of {named}"
    return None


def fault_of(lines: list[bytes]) -> str | None:
    source = b"\n".join(lines)
    ran = lists.run(lists.PROGRAM, [b"explain"], source)
    walk = Walk()
    wanted = [it for it in (walk.explained(n, line) for n, line in enumerate(lines, 1)) if it is not None]
    got = ran.stdout.split(b"\n")
    if got.pop() or len(got) != len(wanted) or ran.returncode != int(bool(wanted)):
        return f"{source!r}: {len(got)} lines in place of {len(wanted)}, status {ran.returncode}"
    for want, have in zip(wanted, got):
        if have != want.text if want.malformed is None else not have.startswith(want.text):
            return f"{lines[want.number - 1]!r}:\n  wanted {want.text!r}\n  got    {have!r}"
        fault = fault_of_what(*want.malformed, have[len(want.text) :]) if want.malformed else None
        if fault:
            return f"{lines[want.number - 1]!r}: {fault}"
    return fault_of_span(source, wanted)


def request_line(chance: random.Random) -> bytes:
    """A request with a word or two exchanged, left out or put in."""
    bags = [chance.sample([it for it in FIELDS if re.fullmatch(FIELD, it)], chance.randrange(4)) for _ in range(2)]
    words = [b"span", chance.choice(CALENDARS), chance.choice(CALENDARS), chance.choice(UNITS), chance.choice(OVERFLOWS), chance.choice(STRATEGIES)]
    words += [b"from", *bags[0], b"to", *bags[1]]
    for _ in range(chance.choice([0, 1, 1, 2])):
        at = chance.randrange(len(words))
        near = WORDS.get(at, FIELDS) if chance.random() < 0.8 else ROW_WORDS
        words[at : at + chance.choice([0, 1, 1])] = [chance.choice(near)] if chance.random() < 0.8 else []
        words = words or [b""]
    return b" ".join(words[: chance.choice([len(words), len(words), chance.randrange(len(words) + 1)])])


def row_line(chance: random.Random) -> bytes:
    words = chance.choice(WHOLE[1:]).split(b" ")
    for _ in range(chance.choice([0, 1, 1, 2])):
        at = chance.randrange(1, len(words) + 1)
        words[at : at + chance.choice([0, 1])] = [chance.choice(ROW_WORDS)] if chance.random() < 0.8 else []
    return b" ".join(words[: chance.choice([len(words), chance.randrange(1, len(words) + 1)])])


def as_word(day: int) -> int:
    """The day if a word has room for its number, and otherwise another."""
    return day if abs(day) < 10**9 else 0


def numbered_row(chance: random.Random) -> bytes:
    """A whole row whose numbers are right, or nearly so."""
    year = chance.choice([-8_000_001, -8_000_000, -500_000, 0, 1, 1445, 2024, 2024, 2_000_000, 8_000_000, 8_000_001])
    table = chance.choice([b"china", b"korea", b"hijri", b"persian", b"era"])
    if table in (b"china", b"korea"):
        day, leap = as_word(january_19(year) + chance.choice([-1, 0, 17, 34, 35])), chance.choice([0, 0, 1, 2, 13, 14, 255])
        return b"row %s %d %d %s %d" % (table, year, day, LONG if leap else SHORT, leap)
    if table == b"hijri":
        return b"row hijri %d %d %s" % (year, as_word(mean_start(year) + chance.choice([-6, -5, 0, 5, 6])), SHORT)
    if table == b"persian":
        return b"row persian %d" % year
    start = [chance.choice([1, 2025, 2026, 2089, 2090]), chance.choice([0, 1, 12, 15, 16]), chance.choice([0, 1, 31, 32])]
    return b"row era %d %d %d abc %d" % (*start, chance.choice([6, 7, 8, 9]))


def compare_explanations(count: int = 200) -> str:
    chance = random.Random(20261201)
    others = [b"", b"#", b"\r", b"span\r", b"row\r", b"x" * 512, b"x" * 513, b"#" * 600, b" ", b"span ", b"\x00", b"\xff span"]
    anything = [request_line, row_line, numbered_row]
    rows = [[chance.choice([row_line, numbered_row, numbered_row])(chance) for _ in range(chance.randrange(50))] for _ in range(count)]
    inputs = [[*it, *[chance.choice(anything)(chance) for _ in range(50 - len(it))]] for it in rows] + [others]
    # Rows of which each may be the first that is refused.
    inputs += [[numbered_row(chance) for _ in range(3)] for _ in range(count)]
    stop_at_first(fault_of, [[*it[:-1], it[-1] or b"#"] for it in inputs])
    return f"{sum(map(len, inputs))} lines are explained as a reference wants"


def main() -> int:
    arguments = argparse.ArgumentParser(description=__doc__, formatter_class=argparse.RawDescriptionHelpFormatter)
    arguments.add_argument("--program", metavar="FILE", help="compare this program in place of the built one")
    given = arguments.parse_args()
    if given.program:
        lists.PROGRAM = given.program
    print(f"cases: {compare_explanations()}")
    return 0


if __name__ == "__main__":
    sys.exit(main())
