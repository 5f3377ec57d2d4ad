#!/usr/bin/env python3
"""Refuses memory to the program, one allocation at a time, over inputs that have rows, and over a book.

Each run must end with NoMemory and nothing written, or as the run does that is refused nothing. The program runs as `rt try` has it, with
nothing proved, which takes half a minute each time. It doesn't tell whether there was such an allocation, so the trials stop after some
in a row that end as if nothing were refused.
"""

import re
import subprocess
import sys
from dataclasses import dataclass
from pathlib import Path

CRATE = Path(__file__).resolve().parent.parent / "crates/calspan"
ROW = "row hijri 1445 738720 sllslslslsll\n"
REQUEST = "span islamic-umalqura iso days reject none from year=1445 month=M02 day=1 to year=1446 month=M01 day=1\n"
BOOK = """easter,Easter,gregorian,,0,
easter,Pascha,julian,,0,
weekday,Thanksgiving,gregorian,M11,4,thursday
fixed,Purim,hebrew,M06,14,constrain
"""
RUNS = [
    (["span"], ROW + REQUEST),
    (["anniversary", "islamic-umalqura", "iso", "exact", "M02", "1", "738720", "739100"], ROW),
    (["holidays", "738886", "739251"], BOOK),
]
WHOLE_IN_A_ROW = 3
ENDED = re.compile(r"^run=ended status=(\d+)", re.MULTILINE)


@dataclass(frozen=True)
class End:
    status: int
    written: str


LACKING = End(5, "")


def run(words: list[str], source: str, flags: list[str]) -> End:
    ran = subprocess.run(["rt", "try", *flags, "--", *words], cwd=CRATE, input=source, capture_output=True, check=False, text=True)
    ended = ENDED.search(ran.stderr)
    if not ended:
        raise SystemExit(f"{words} {flags}: {ran.stderr}")
    return End(int(ended.group(1)), ran.stdout)


def ends_of(words: list[str], source: str, whole: End) -> list[End]:
    """How the run ends where its first allocation is refused, its second, and so on, as far as there are any."""
    ends = []
    while set(ends[-WHOLE_IN_A_ROW:]) != {whole} or len(ends) < WHOLE_IN_A_ROW:
        ends.append(run(words, source, ["--fail-alloc", str(len(ends) + 1)]))
        if ends[-1] not in (whole, LACKING):
            raise SystemExit(f"{words}, allocation {len(ends)} refused: {ends[-1]} in place of {whole}")
        print(f"{' '.join(words)}, allocation {len(ends)}: status {ends[-1].status}", flush=True)
    return ends[:-WHOLE_IN_A_ROW]


def main() -> int:
    for words, source in RUNS:
        whole = run(words, source, [])
        if whole.status or not whole.written:
            raise SystemExit(f"{words}: {whole} with nothing refused")
        ends = ends_of(words, source, whole)
        print(f"{' '.join(words)}: {ends.count(LACKING)} of the first {len(ends)} allocations, refused, end with NoMemory and nothing written,")
        print(f"  the others as if nothing were refused, as do the next {WHOLE_IN_A_ROW}")
    return 0


if __name__ == "__main__":
    sys.exit(main())
