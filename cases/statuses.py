#!/usr/bin/env python3
"""Runs the linked program once for each exit status, and compares the status and what is written.

A read fails on a folder as standard input, a write on /dev/full, and memory for a book under a limit of the process's memory.
The program says on standard error in one line why the status is above 1, with its usage where the first word is no command, and the script ends
as the program does, with the same output.
A signal to the script has to end the program, too.
"""

import re
import resource
import select
import signal
import subprocess
import sys
import tempfile
import time
from pathlib import Path
from typing import NamedTuple

TOP = Path(__file__).resolve().parent.parent
PROGRAM = TOP / "crates/calspan/out/calspan"
SCRIPT = TOP / "calspan"
LIMIT = 16777216
# A process of this many bytes of memory starts, and can't hold a book of half as many.
LITTLE_MEMORY = 24 << 20
REQUEST = b"span iso iso days reject none from year=2024 month=M01 day=1 to year=2024 month=M02 day=%d\n"
ROW = b"row china 2024\n"
TOO_LONG = b"calspan: input longer than 16777216 bytes; %s; see the manual\n"


class Run(NamedTuple):
    status: int
    words: list[str | bytes]
    source: bytes | None
    begins: bytes
    says: bytes = b"calspan: "


RUNS = [
    Run(0, ["gen", "1"], None, b"gen 1 ok 1 err 0 "),
    Run(0, ["span"], REQUEST % 1, b"ok 2024/"),
    Run(1, ["span"], REQUEST % 30, b"err to InvalidDay 29\n"),
    Run(0, ["explain"], b"row persian 1\n" + REQUEST % 30, b""),
    Run(1, ["explain"], b"row\n", b"line 1 word 2: china, "),
    Run(0, ["explain", "holidays"], b"row persian 1\n#\neaster,Easter,gregorian,,0,\n", b""),
    Run(1, ["explain", "holidays"], b"easter,Easter,iso,,0,\n", b"record 1 field 3 iso: gregorian or julian\n"),
    Run(2, [], None, b"", b"calspan: word 1 is missing: convert, "),
    Run(2, ["spam"], None, b"", b"calspan: word 1 spam: convert, "),
    Run(2, ["span", "span"], None, b"", b"calspan: word 2 span: no more words; nothing was read\n"),
    Run(2, ["span", "a\nb"], None, b"", b"calspan: word 2 a\\nb: no more words; nothing was read\n"),
    Run(2, ["convert", "iso", "gregorain", "reject"], None, b"", b"calspan: word 3 gregorain: a calendar: iso, "),
    Run(2, ["convert", "iso", "roc"], None, b"", b"calspan: word 4 is missing: constrain or reject; "),
    Run(2, ["rrule", "iso", "iso", "1", "9", "day=1", "day=2", "FREQ=DAILY"], None, b"", b"calspan: word 8 FREQ=DAILY: no more words, "),
    Run(2, ["explain", "books"], None, b"", b"calspan: word 2 books: holidays, or no more words; "),
    Run(6, ["explain", "holidays"], ROW, b"table line 1 syntax\n"),
    Run(6, ["span"], ROW, b"table line 1 syntax\n"),
    Run(7, ["span"], b"#" * LIMIT + b"#\n", b"", TOO_LONG % b"the first 0 lines were answered"),
    Run(7, ["span"], b"#\n" * (LIMIT // 2) + b"#\n", b"", TOO_LONG % b"the first 8388608 lines were answered"),
    Run(7, ["explain"], b"row\n" + b"#" * LIMIT, b"line 1 word 2: china, ", TOO_LONG % b"the first 1 lines were answered"),
    Run(7, ["explain", "holidays"], b"x\n" * LIMIT, b"", TOO_LONG % b"nothing is written"),
    Run(7, ["holidays", "1", "2"], b"#\n" * LIMIT, b"", TOO_LONG % b"nothing is written"),
]
TOLD = {"--help": b"usage: calspan ", "-h": b"usage: calspan ", "--version": b"calspan, of icu_calendar proved in Rattle"}


def is_said(run: Run, said: bytes) -> bool:
    """Whether standard error says why a run ended with a status."""
    if run.status < 2:
        return not said
    refused = rb"calspan: (word [0-9]+ .*|a word isn't UTF-8); nothing was read\n(usage: calspan (.*\n)+)?"
    why = refused if run.status == 2 else rb"calspan: .*; see the manual\n"
    return said.startswith(run.says) and bool(re.fullmatch(why, said))


def ends_with(it: Run, **options) -> bool:
    run = subprocess.run([PROGRAM, *it.words], timeout=60, check=False, stderr=subprocess.PIPE, **options)
    written = run.stdout or b""
    if run.returncode == it.status and written.startswith(it.begins) and (it.begins or not written) and is_said(it, run.stderr):
        return True
    print(f"{it.words}: status {run.returncode} in place of {it.status}, {written[:80]!r}, {run.stderr[:80]!r}", file=sys.stderr)
    return False


def says_why(run: Run) -> bool:
    """Whether the script ends as the program does, and says why."""
    source = {"stdin": subprocess.DEVNULL} if run.source is None else {"input": run.source}
    it = subprocess.run([SCRIPT, *run.words], timeout=60, check=False, capture_output=True, **source)
    if it.returncode == run.status and it.stdout.startswith(run.begins) and (run.begins or not it.stdout) and is_said(run, it.stderr):
        return True
    print(f"script, {run.words}: status {it.returncode} in place of {run.status}, {it.stdout[:80]!r}, {it.stderr!r}", file=sys.stderr)
    return False


def tells(word: str) -> bool:
    """Whether the program answers `--help` and `--version` on standard error."""
    it = subprocess.run([PROGRAM, word], timeout=60, check=False, capture_output=True, stdin=subprocess.DEVNULL)
    if it.returncode == 0 and not it.stdout and it.stderr.startswith(TOLD[word]):
        return True
    print(f"{word}: status {it.returncode}, {it.stdout[:80]!r}, {it.stderr[:80]!r}", file=sys.stderr)
    return False


def ends_with_script() -> bool:
    """Whether the program ends when a signal ends the script: it would keep the output open, and wait for more input."""
    with subprocess.Popen([SCRIPT, "span"], stdin=subprocess.PIPE, stdout=subprocess.PIPE) as run:
        children, most = Path(f"/proc/{run.pid}/task/{run.pid}/children"), time.monotonic() + 30
        while not any(map(is_program, children.read_text().split())) and time.monotonic() < most:
            time.sleep(0.01)
        run.send_signal(signal.SIGTERM)
        has_ended = bool(select.select([run.stdout], [], [], 30)[0])
        run.stdin.close()
    if has_ended and run.returncode == -signal.SIGTERM:
        return True
    print(f"script: status {run.returncode} after SIGTERM, and the program {'ends' if has_ended else 'goes on'}", file=sys.stderr)
    return False


def is_program(pid: str) -> bool:
    """Whether a process is the program by now. One that has ended is none."""
    try:
        return Path(f"/proc/{pid}/exe").resolve() == PROGRAM
    except OSError:
        return False


def limit_memory() -> None:
    resource.setrlimit(resource.RLIMIT_AS, (LITTLE_MEMORY, LITTLE_MEMORY))


def main() -> int:
    good = []
    for it in RUNS:
        source = {"stdin": subprocess.DEVNULL} if it.source is None else {"input": it.source}
        good.append(ends_with(it, stdout=subprocess.PIPE, **source))
    with tempfile.TemporaryDirectory() as folder:
        # A folder can be opened and not read.
        with subprocess.Popen(["bash", "-c", 'exec "$0" span < "$1"', PROGRAM, folder], stdout=subprocess.PIPE) as run:
            written = run.stdout.read()
        good.append(run.returncode == 3 and not written)
    with open("/dev/full", "wb") as full:
        good.append(ends_with(Run(4, ["gen", "1"], None, b""), stdout=full, stdin=subprocess.DEVNULL))
    book = b"fixed,A,iso,M01,1,exact\n" * (LITTLE_MEMORY // 48)
    good.append(ends_with(Run(5, ["holidays", "1", "2"], book, b""), stdout=subprocess.PIPE, input=book, preexec_fn=limit_memory))
    good += [says_why(it) for it in RUNS if it.words]
    good.append(says_why(Run(2, ["recur", "iso", "iso", "days", "1", "skip", "1", "2", b"era=\xff"], None, b"")))
    good += [tells(it) for it in TOLD]
    good.append(ends_with_script())
    print(f"statuses: {len(good)} runs, {good.count(False)} end otherwise")
    return int(not all(good))


if __name__ == "__main__":
    sys.exit(main())
