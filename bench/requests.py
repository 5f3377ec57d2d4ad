#!/usr/bin/env python3
"""Measures the built program on a large input of requests: requests and bytes a second, peak memory, instructions a request.

The requests are for ISO and Gregorian, in days; with `--all` for all calendars, in all units; with `--bags` for all calendars, in
all units, with bags of all kinds: eras, month codes, places in the year, missing fields, and all options.
"""

import argparse
import random
import re
import shutil
import subprocess
import sys
import tempfile
import time
from pathlib import Path

TOP = Path(__file__).resolve().parent.parent
sys.path.insert(0, str(TOP / "cases"))

from calendars import CALENDARS as ALL_CALENDARS, ERAS  # noqa: E402

# The script builds the program where a source is newer; what it built is run without it.
BUILD = [str(TOP / "calspan"), "span"]
PROGRAM = [str(TOP / "crates/calspan/out/calspan"), "span"]
REQUESTS = 130_000
ROUNDS = 5
CALENDARS = ["iso", "gregorian"]
UNITS = ["days"]
ALL_UNITS = ["years", "months", "weeks", "days", "none"]
OVERFLOWS = ["constrain", "reject", "none"]
STRATEGIES = ["reject", "ecma", "none"]
LONGEST_INPUT = 1 << 24


def request(chance: random.Random, calendars: list[str], units: list[str]) -> str:
    def bag() -> str:
        return f"year={chance.randint(1600, 2400)} month=M{chance.randint(1, 12):02} day={chance.randint(1, 28)}"

    names = f"{chance.choice(calendars)} {chance.choice(calendars)}"
    unit = units[0] if len(units) == 1 else chance.choice(units)
    return f"span {names} {unit} reject none from {bag()} to {bag()}\n"


def year_fields(chance: random.Random, calendar: str) -> list[str]:
    """The fields of a bag that speak of the year, mostly such as agree."""
    year = chance.choice([chance.randint(1600, 2400), chance.randint(-9999, 9999)])
    era = chance.choice(ERAS[calendar])
    era_year = 1 - year if era in ("bce", "bc", "broc", "bh") else year
    of_era = [f"era={era}", f"era-year={era_year}"]
    kinds = [[f"year={year}"], of_era, [*of_era, f"year={year}"], [], [*of_era, f"year={year + 1}"], of_era[1:]]
    return chance.choices(kinds, [40, 35, 10, 11, 2, 2])[0]


def month_fields(chance: random.Random) -> list[str]:
    """The fields of a bag that speak of the month, mostly such as agree."""
    number = chance.randint(1, 12)
    code, place = f"M{number:02}", f"ordinal={number}"
    kinds = [
        *[[f"month={code}"], [f"month-code={code}"], [place], [f"month={code}", place], [f"month-code={code}", place]],
        *[[f"month={code}", f"month-code={code}"], [f"month-code={code}L"], ["month=M13"], ["month-code=13"], []],
        *[[f"month={code}", f"ordinal={number + 1}"], ["ordinal=13"]],
    ]
    return chance.choices(kinds, [25, 25, 15, 10, 10, 2, 3, 2, 2, 2, 2, 2])[0]


def day_fields(chance: random.Random) -> list[str]:
    day = chance.choices([chance.randint(1, 28), chance.randint(29, 31), 0, 32], [70, 16, 2, 2])[0]
    return [f"day={day}"] if chance.random() < 0.9 else []


def request_of_all_kinds(chance: random.Random) -> str:
    calendar = chance.choice(ALL_CALENDARS)

    def bag() -> str:
        fields = [*year_fields(chance, calendar), *month_fields(chance), *day_fields(chance)]
        return "".join(f" {field}" for field in chance.sample(fields, len(fields)))

    unit, overflow, strategy = chance.choice(ALL_UNITS), chance.choice(OVERFLOWS), chance.choice(STRATEGIES)
    shown = chance.choice(ALL_CALENDARS)
    return f"span {calendar} {shown} {unit} {overflow} {strategy} from{bag()} to{bag()}\n"


def seconds(path: Path) -> float:
    with path.open("rb") as data:
        start = time.perf_counter()
        subprocess.run(PROGRAM, stdin=data, stdout=subprocess.DEVNULL, check=False)
        return time.perf_counter() - start


def instructions(path: Path) -> int:
    command = ["valgrind", "--tool=callgrind", "--callgrind-out-file=/dev/null", *PROGRAM]
    with path.open("rb") as data:
        run = subprocess.run(command, stdin=data, stdout=subprocess.DEVNULL, stderr=subprocess.PIPE, check=False, text=True)
    found = re.search(r"Collected : (\d+)", run.stderr)
    return int(found.group(1)) if found else 0


def peak_memory(path: Path) -> int:
    """KiB of the running program, once it has answered the whole input."""
    with subprocess.Popen(PROGRAM, stdin=subprocess.PIPE, stdout=subprocess.DEVNULL) as run:
        run.stdin.write(path.read_bytes())
        run.stdin.flush()
        time.sleep(0.2)
        status = Path(f"/proc/{run.pid}/status").read_text()
        run.stdin.close()
    return int(re.search(r"VmHWM:\s+(\d+)", status).group(1))


def write(folder: Path, count: int, kind: str) -> Path:
    chance = random.Random(7)
    path = folder / f"{count}.txt"
    calendars, units = (ALL_CALENDARS, ALL_UNITS) if kind == "all" else (CALENDARS, UNITS)
    lines = (request_of_all_kinds(chance) if kind == "bags" else request(chance, calendars, units) for _ in range(count))
    path.write_text("".join(lines))
    if path.stat().st_size > LONGEST_INPUT:
        raise SystemExit(f"{path.stat().st_size} bytes are more than the program takes")
    return path


def main() -> int:
    arguments = argparse.ArgumentParser(description=__doc__, formatter_class=argparse.RawDescriptionHelpFormatter)
    kinds = arguments.add_mutually_exclusive_group()
    kinds.set_defaults(kind="plain")
    kinds.add_argument("--all", action="store_const", const="all", dest="kind", help="all calendars, in all units")
    kinds.add_argument("--bags", action="store_const", const="bags", dest="kind", help="the same, with bags of all kinds")
    kind = arguments.parse_args().kind
    subprocess.run(BUILD, stdin=subprocess.DEVNULL, check=False)
    with tempfile.TemporaryDirectory() as name:
        folder = Path(name)
        large = write(folder, REQUESTS, kind)
        size = large.stat().st_size
        best = min(seconds(large) for _ in range(ROUNDS))
        print(f"{REQUESTS} requests, {size} bytes: {best:.3f} s, the best of {ROUNDS}")
        print(f"{REQUESTS / best:,.0f} requests a second, {size / best / 1e6:.0f} MB a second")
        print(f"peak memory {peak_memory(write(folder, 1000, kind))} KiB for 1000 requests, {peak_memory(large)} KiB for all")
        if shutil.which("valgrind"):
            few, more = write(folder, 1000, kind), write(folder, 3000, kind)
            print(f"{(instructions(more) - instructions(few)) / 2000:.0f} instructions a request")
    return 0


if __name__ == "__main__":
    sys.exit(main())
