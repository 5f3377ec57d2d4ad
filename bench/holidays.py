#!/usr/bin/env python3
"""Measures the built program on a book of a hundred rules over a century: the best of many runs, and what an empty book takes beside it.

The rules are taken evenly from the books in `books/`, so that all their calendars and kinds of rules are among them.
"""

import subprocess
import sys
import tempfile
import time
from collections import Counter
from datetime import date
from pathlib import Path

TOP = Path(__file__).resolve().parent.parent
# The script builds the program where a source is newer; what it built is run without it.
BUILD = [str(TOP / "calspan"), "holidays", "1", "1"]
PROGRAM = str(TOP / "crates/calspan/out/calspan")
FIRST, LAST = date(2000, 1, 1), date(2099, 12, 31)
RULES = 100
RUNS = 300


def hundred_rules() -> list[str]:
    """Each record of a book is a line."""
    rules = [rule for path in sorted((TOP / "books").glob("*.csv")) for rule in path.read_text(encoding="ascii").splitlines()]
    return [rules[at * len(rules) // RULES] for at in range(RULES)]


def run(book: bytes) -> tuple[float, int]:
    """How long the program takes over the book, and how many holidays it lists."""
    words = [PROGRAM, "holidays", str(FIRST.toordinal()), str(LAST.toordinal())]
    with tempfile.TemporaryFile() as source:
        source.write(book)
        source.seek(0)
        start = time.perf_counter()
        done = subprocess.run(words, stdin=source, stdout=subprocess.PIPE, check=True)
        return time.perf_counter() - start, done.stdout.count(b"\n")


def milliseconds(book: bytes) -> tuple[float, int]:
    runs = [run(book) for _ in range(RUNS)]
    return 1000 * min(taken for taken, _ in runs), runs[0][1]


def main() -> int:
    subprocess.run(BUILD, stdin=subprocess.DEVNULL, stdout=subprocess.DEVNULL, check=False)
    rules = hundred_rules()
    kinds = Counter(rule.split(",")[0] for rule in rules)
    calendars = Counter(rule.rsplit(",", 4)[1] for rule in rules)
    taken, count = milliseconds("\n".join(rules).encode() + b"\n")
    started, _ = milliseconds(b"")
    print(f"{len(rules)} rules: " + ", ".join(f"{n} {kind}" for kind, n in kinds.items()))
    print("in " + ", ".join(f"{name} ({n})" for name, n in calendars.items()))
    print(f"{FIRST} to {LAST}: {count} holidays, {taken:.2f} ms, the best of {RUNS} runs; with an empty book {started:.2f} ms")
    return 0


if __name__ == "__main__":
    sys.exit(main())
