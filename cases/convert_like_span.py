#!/usr/bin/env python3
"""Compares `calspan convert` with `calspan span` over generated dates of all calendars, good and bad, and cuts the input of `convert` anywhere.

A request with a date twice shows it in the second calendar, or names the cause for which there is none: the answer of `convert` to the same
date has to say the same. The inputs that are cut are small: a source gives them in two pieces, cut at each place. A read fails on a folder as
standard input, and a write on /dev/full and on a pipe that is closed.
"""

import argparse
import random
import re
import subprocess
import sys
import tempfile
import time
from concurrent.futures import ThreadPoolExecutor
from pathlib import Path

import lists
from calendars import ERAS
from lists import stop_at_first

ROWS = Path(__file__).resolve().parent.parent / "rows"
SHOWN = re.compile(rb"ok \S+ (-?\d+)/([a-z]+)\.(-?\d+)/(M\d\dL?)/(\d\d)@\S+ ")
CAUSE = re.compile(rb"err from (.*)")
YEARS = {"hebrew": 5784, "chinese": 2024, "dangi": 2024, "buddhist": 2567, "roc": 113, "coptic": 1740, "ethiopic": 2016, "ethioaa": 7516}
YEARS |= {"indian": 1945, "persian": 1402}
MONTHS = [*(b"M%02d" % n for n in range(1, 13)), *(b"%d" % n for n in range(1, 14)), b"M13", b"M05L", b"M02L", b"M00", b"M99", b"0", b"14"]
CUT = [
    b"5784-M05L-10\tDana\n\n5783-M05L-10\tA\n@738935",
    b"row persian 1502\n#\n2-2-2\t\t\r\nam 6-1\nam 6-1-1\n",
    b"\n1-1-1\r\n\x00\n#\n-1-M01-01",
]


def year_of(chance: random.Random, name: str) -> int:
    own = YEARS.get(name, 1445 if name.startswith("islamic") else 2024)
    if chance.random() < 0.8:
        return own + chance.randrange(-400, 401)
    return chance.choice([0, -1, 1, chance.randrange(-999999, 1000000), 1040000, -1040000, 1040001, -1040001, 999999999])


def date_of(chance: random.Random, name: str) -> tuple[bytes, list[bytes]]:
    """A date as a line has it, and the fields of a request that say the same."""
    year, month, day = year_of(chance, name), chance.choice(MONTHS), chance.choice([1, 2, 15, 28, 29, 30, 31, 32, 0, 99, chance.randrange(1, 31)])
    month_field = (b"month=" if month.startswith(b"M") else b"ordinal=") + month
    eras = [it for it in [*ERAS[name], "am", "ce", "zz"] if it]
    if chance.random() < 0.3:
        era = chance.choice(eras).encode()
        return era + b" %d-%s-%d" % (year, month, day), [b"era=" + era, b"era-year=%d" % year, month_field, b"day=%d" % day]
    return b"%d-%s-%d" % (year, month, day), [b"year=%d" % year, month_field, b"day=%d" % day]


def answer_of(reply: bytes, shown: str) -> bytes:
    """What `convert` has to answer where `span` gives this reply."""
    date = SHOWN.match(reply)
    if not date:
        return b"!" + CAUSE.fullmatch(reply)[1]
    extended, era, year, code, day = date.groups()
    has_era = era != b"cycle" and shown != "iso"
    return (era + b" " + year if has_era else extended) + b"-" + code + b"-" + day


def fault_of(given: tuple[str, str, str, int]) -> str | None:
    name, shown, overflow, seed = given
    chance, rows = random.Random(seed), b"".join(it.read_bytes() for it in sorted(ROWS.glob("*.rows"))) if seed % 2 else b""
    dates = [date_of(chance, name) for _ in range(400)]
    requests = [b" ".join([b"span", name.encode(), shown.encode(), b"days", overflow.encode(), b"none from", *it, b"to", *it]) for _, it in dates]
    spans = lists.run(lists.PROGRAM, [b"span"], rows + b"\n".join(requests)).stdout.splitlines()
    wanted = [answer_of(it, shown) + b"\t%d" % n for n, it in enumerate(spans)]
    source = rows + b"\n".join(date + b"\t%d" % n for n, (date, _) in enumerate(dates))
    ran = lists.run(lists.PROGRAM, [b"convert", name.encode(), shown.encode(), overflow.encode()], source)
    got = ran.stdout.splitlines()
    for (date, _), want, have in zip(dates, wanted, got):
        if want != have:
            return f"{name} to {shown}, {overflow}: {date!r}\n  span    {want!r}\n  convert {have!r}"
    if not len(dates) == len(wanted) == len(got) or ran.returncode != int(any(it.startswith(b"!") for it in wanted)):
        return f"{name} to {shown}, {overflow}: {len(got)} answers, status {ran.returncode}"
    return None


def fault_of_cut(given: tuple[bytes, int]) -> str | None:
    source, at = given
    words = [lists.PROGRAM, "convert", "hebrew", "iso", "reject"]
    whole = lists.run(lists.PROGRAM, words[1:], source)
    with subprocess.Popen(words, stdin=subprocess.PIPE, stdout=subprocess.PIPE, stderr=subprocess.DEVNULL) as run:
        run.stdin.write(source[:at])
        run.stdin.flush()
        time.sleep(0.01)
        text = run.communicate(source[at:], timeout=20)[0]
    if text != whole.stdout or run.returncode != whole.returncode:
        return f"{source!r}, cut at {at}: {text!r}, status {run.returncode}"
    return None


def faults_of_calls() -> list[str]:
    """Ends of runs whose reads or writes fail that are other than the manual's."""
    words = ["convert", "iso", "iso", "reject"]
    found = []
    with tempfile.TemporaryDirectory() as folder:
        run = subprocess.run(["bash", "-c", 'exec "$0" "$@" < ' + f"'{folder}'", lists.PROGRAM, *words], capture_output=True, timeout=60, check=False)
    if run.returncode != 3 or run.stdout:
        found.append(f"a read that fails: status {run.returncode}, {run.stdout[:80]!r}")
    with open("/dev/full", "wb") as full:
        run = subprocess.run([lists.PROGRAM, *words], input=b"1-1-1\n" * 10000, stdout=full, stderr=subprocess.PIPE, timeout=60, check=False)
    if run.returncode != 4:
        found.append(f"a write that fails: status {run.returncode}")
    with subprocess.Popen([lists.PROGRAM, *words], stdin=subprocess.PIPE, stdout=subprocess.PIPE, stderr=subprocess.DEVNULL) as run:
        run.stdout.close()
        try:
            run.stdin.write(b"1-1-1\n" * 100000)
            run.stdin.close()
        except BrokenPipeError:
            pass
        status = run.wait(timeout=60)
    if status not in (4, -13):
        found.append(f"a pipe that is closed: status {status}")
    return found


def compare_with_span(seeds: int = 3) -> str:
    chance = random.Random(20261201)
    names = list(ERAS)
    pairs = [(name, chance.choice(names), overflow, n * 100 + k) for n, name in enumerate(names) for k, overflow in enumerate(["constrain", "reject"] * seeds)]
    stop_at_first(fault_of, pairs)
    cuts = [(source, at) for source in CUT for at in range(len(source) + 1)]
    with ThreadPoolExecutor(8) as pool:
        found = [it for it in pool.map(fault_of_cut, cuts) if it] + faults_of_calls()
    if found:
        raise SystemExit(found[0])
    return f"{400 * len(pairs)} conversions agree with spans, and {len(cuts)} cuts change nothing"


def main() -> int:
    arguments = argparse.ArgumentParser(description=__doc__, formatter_class=argparse.RawDescriptionHelpFormatter)
    arguments.add_argument("--program", metavar="FILE", help="compare this program in place of the built one")
    given = arguments.parse_args()
    if given.program:
        lists.PROGRAM = given.program
    print(f"cases: {compare_with_span()}")
    return 0


if __name__ == "__main__":
    sys.exit(main())
