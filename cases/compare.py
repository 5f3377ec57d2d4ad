#!/usr/bin/env python3
"""Compares the built program with the cases beside this file, and runs it on small broken inputs and broken command lines.

The cases' answers were made by an independent implementation, written in another language from the same definitions. Which
answer a broken line gets, `long`, `syntax`, that of a request or the line that refuses a row, and which words are no command, is
told by a grammar of its own.
"""

import argparse
import random
import re
import subprocess
import sys
from pathlib import Path

from convert import compare_conversions
from convert_like_span import compare_with_span
from explain import compare_explanations
from grammar import FIELDS, REQUEST, WORDS, has_each_key_once
import lists
from lists import cases_of, compare_lists, compare_words
from records import compare_records

HERE = Path(__file__).resolve().parent
TABLES = HERE / "tables"
LISTS = [HERE / "lists.jsonl", HERE / "rrule.jsonl"]
PROGRAM = [lists.PROGRAM, "span"]
STATUSES = {name: int(status) for name, status in (line.split() for line in (TABLES / "statuses").read_text().splitlines())}
TABLE_REFUSED = 6
NAMES = ["first_path", "arithmetic", "bags", "grammar", "solar", "hebrew", "hijri", "east_asian", "type1"]
DATE = r"-?\d+/[a-z]+\.-?\d+/M\d\dL?/\d\d@-?\d+"
DURATION = r"-?P(0D|(\d+Y)?(\d+M)?(\d+W)?(\d+D)?)"
CAUSE = r"(NotEnoughFields|TooManyFields|Overflow|InvalidEra|InconsistentYear|MonthCodeInvalidSyntax|MonthNotInCalendar" \
        r"|MonthNotInYear|InconsistentMonth|InvalidOrdinalMonth \d+|InvalidDay \d+)"
ANSWER = re.compile(rf"ok {DATE} {DATE} {DATE} {DATE} {DURATION}|err (from|to) {CAUSE}".encode())
LINE_FAULT = re.compile(rb"err line \d+ (long|syntax)")
TABLE_LINE = re.compile(rb"table (line \d+ (syntax|range|late)|(china|korea|hijri|persian) \d+ (year|join|end|leap|rule))")
BROKEN_INPUTS = 3000
BROKEN_ROWS = 1500
BROKEN_WORDS = 1500
LONGEST_LINE = 512


def answers(data: bytes) -> tuple[int, list[bytes]]:
    run = subprocess.run(PROGRAM, input=data, capture_output=True, timeout=20, check=False)
    if run.stderr and run.returncode < 2:
        raise SystemExit(f"standard error: {run.stderr[:200]!r}")
    if run.stdout and not run.stdout.endswith(b"\n"):
        raise SystemExit(f"an answer without a line feed: {run.stdout[-80:]!r}")
    return run.returncode, run.stdout.split(b"\n")[:-1]


def compare(name: str) -> int:
    data = (HERE / f"{name}.in").read_bytes()
    wanted = (HERE / f"{name}.out").read_bytes().split(b"\n")[:-1]
    status, got = answers(data)
    lines = data.split(b"\n")
    for line, want, have in zip(lines, wanted, got):
        if want != have:
            raise SystemExit(f"{name}: {line!r}\n  wanted {want!r}\n  got    {have!r}")
    if len(wanted) != len(got):
        raise SystemExit(f"{name}: {len(got)} answers in place of {len(wanted)}")
    refused = any(want.startswith(b"err") for want in wanted)
    if status != int(refused):
        raise SystemExit(f"{name}: status {status}")
    return len(got)


def compare_table(name: str) -> int:
    """An input with row lines: its text and its status."""
    run = subprocess.run(PROGRAM, input=(TABLES / f"{name}.in").read_bytes(), capture_output=True, timeout=20, check=False)
    wanted = (TABLES / f"{name}.out").read_bytes()
    if run.stdout != wanted or (run.stderr and run.returncode < 2):
        raise SystemExit(f"tables/{name}:\n  wanted {wanted!r}\n  got    {run.stdout!r}")
    if run.returncode != STATUSES[name]:
        raise SystemExit(f"tables/{name}: status {run.returncode} in place of {STATUSES[name]}")
    return wanted.count(b"\n")


def request_like(chance: random.Random, request: bytes) -> bytes:
    """The request, with some of its words exchanged for others, and some left out of its bags, put in or moved."""
    words = request.split(b" ")
    for at, choices in WORDS.items():
        if at < len(words) and chance.random() < (0.02 if at == 0 else 0.1):
            words[at] = chance.choice(choices)
    for _ in range(chance.choice([0, 0, 0, 1, 1, 2])):
        at = chance.randrange(min(6, len(words) - 1), len(words))
        kind = chance.randrange(4)
        if kind == 0:
            words[at] = chance.choice(FIELDS)
        elif kind == 1:
            words.insert(at + 1, chance.choice(FIELDS))
        elif kind == 2:
            words.insert(at + 1, words.pop(chance.randrange(len(words))))
        elif len(words) > 1:
            del words[at]
    return b" ".join(words)


def broken_input(chance: random.Random, requests: list[bytes]) -> bytes:
    if chance.random() < 0.3:
        return bytes(chance.choice(b"\r\n #=-0123456789spanio\x00\xff") for _ in range(chance.randrange(120)))
    pieces = []
    for _ in range(chance.randrange(1, 4)):
        line = bytearray(request_like(chance, chance.choice(requests)) or b" ")
        for _ in range(chance.choice([0, 0, 1, 2])):
            at = chance.randrange(len(line))
            kind = chance.randrange(3)
            if kind == 0:
                line[at] = chance.randrange(256)
            elif kind == 1 and len(line) > 1:
                del line[at]
            else:
                line.insert(at, chance.choice(b" =-0123456789\r"))
        pieces.append(bytes(line))
    return chance.choice([b"\n", b"\r\n", b"\n\n"]).join(pieces) + chance.choice([b"", b"\n"])


def asking_lines(data: bytes) -> list[tuple[int, bytes]]:
    """The lines that are answered, with their numbers, and with a CR at the end as it stands."""
    lines = data.split(b"\n")
    if not lines[-1]:
        lines.pop()
    numbered = list(enumerate(lines, 1))
    return [(n, line) for n, line in numbered if line not in (b"", b"\r") and not line.startswith(b"#")]


def fault_of_line(line: bytes) -> str | None:
    """What is wrong with a line that is answered; None where it is a request."""
    if len(line) > LONGEST_LINE:
        return "long"
    line = line.removesuffix(b"\r")
    match = REQUEST.fullmatch(line)
    if not match:
        return "syntax"
    once = all(has_each_key_once(bag.split(b" ")[1:]) for bag in match.groups()[-2:])
    return None if once else "syntax"


def is_row(line: bytes) -> bool:
    line = line.removesuffix(b"\r")
    return len(line) <= LONGEST_LINE and (line == b"row" or line.startswith(b"row "))


def check_broken(chance: random.Random, requests: list[bytes]) -> None:
    """Each line gets its answer. A row line ends the run: behind a request it is late, and what comes of a request is no row."""
    data = broken_input(chance, requests)
    status, got = answers(data)
    asking = asking_lines(data)
    row_at = next((at for at, (_, line) in enumerate(asking) if is_row(line)), None)
    if row_at is not None:
        fault = b"late" if row_at else b"syntax"
        if status != TABLE_REFUSED or got[-1:] != [b"table line %d %s" % (asking[row_at][0], fault)]:
            raise SystemExit(f"{got[-1:]!r} and status {status} for the row line of {data!r}")
        asking, got = asking[:row_at], got[:-1]
    if len(got) != len(asking):
        raise SystemExit(f"{len(got)} answers to {data!r}")
    refused = False
    for (number, line), answer in zip(asking, got):
        fault = fault_of_line(line)
        wanted = fault and b"err line %d %s" % (number, fault.encode())
        if not (answer == wanted if fault else ANSWER.fullmatch(answer)):
            raise SystemExit(f"{answer!r} is no answer to {line!r}, in {data!r}")
        refused = refused or answer.startswith(b"err")
    if row_at is None and status != int(refused):
        raise SystemExit(f"status {status} for {data!r}")


def check_broken_rows(chance: random.Random, inputs: list[bytes]) -> None:
    """Row lines and requests, some of their bytes changed: at most one line is written for each, and a table line is the last."""
    lines = chance.choice(inputs).split(b"\n")
    data = bytearray(b"\n".join(lines[: chance.randrange(1, 12)]))
    for _ in range(chance.choice([1, 1, 2, 3])):
        data[chance.randrange(len(data))] = chance.choice(b" -0123456789ls\n\r") if chance.random() < 0.9 else chance.randrange(256)
    status, got = answers(bytes(data))
    tables = [answer for answer in got if answer.startswith(b"table ")]
    if len(got) > len(asking_lines(bytes(data))) + 1 or tables not in ([], got[-1:]):
        raise SystemExit(f"{got!r} for {bytes(data)!r}")
    for answer in got[: len(got) - len(tables)]:
        if not (ANSWER.fullmatch(answer) or LINE_FAULT.fullmatch(answer)):
            raise SystemExit(f"{answer!r} is no answer, in {bytes(data)!r}")
    refused = any(answer.startswith(b"err") for answer in got)
    if status != (TABLE_REFUSED if tables else int(refused)) or not all(map(TABLE_LINE.fullmatch, tables)):
        raise SystemExit(f"status {status} and {tables!r} for {bytes(data)!r}")


def compare_cases() -> str:
    count = sum(compare(name) for name in NAMES) + sum(compare_table(name) for name in STATUSES)
    return f"{count} answers, {compare_lists(LISTS)}, and {compare_conversions()}"


def compare_all() -> None:
    compared = compare_cases()
    chance = random.Random(20260101)
    requests = [line for name in NAMES for line in (HERE / f"{name}.in").read_bytes().split(b"\n")[:-1]]
    for _ in range(BROKEN_INPUTS):
        check_broken(chance, requests)
    inputs = [(TABLES / f"{name}.in").read_bytes() for name in STATUSES]
    for _ in range(BROKEN_ROWS):
        check_broken_rows(chance, inputs)
    compared += f", {compare_with_span()}, {compare_explanations()}, {compare_records()}"
    compare_words(chance, [case for path in LISTS for case in cases_of(path)], BROKEN_WORDS)
    print(f"cases: {compared}; {BROKEN_INPUTS + BROKEN_ROWS} broken inputs and {BROKEN_WORDS} broken command lines are answered")


def main() -> int:
    arguments = argparse.ArgumentParser(description=__doc__, formatter_class=argparse.RawDescriptionHelpFormatter)
    arguments.add_argument("--lists", type=Path, metavar="FILE", help="compare the lists of this file, of the form of lists.jsonl, and nothing else")
    arguments.add_argument("--program", metavar="FILE", help="compare this program with the cases, in place of the built one, and nothing else")
    given = arguments.parse_args()
    path = given.lists
    if given.program:
        PROGRAM[0] = lists.PROGRAM = given.program
        print(f"cases: {compare_cases()}")
        return 0
    # The script builds the program where a source is newer; what it built is asked.
    subprocess.run([lists.SCRIPT, "span"], stdin=subprocess.DEVNULL, check=True)
    if path:
        print(f"cases: {compare_lists([path])}")
    else:
        compare_all()
    return 0


if __name__ == "__main__":
    sys.exit(main())
