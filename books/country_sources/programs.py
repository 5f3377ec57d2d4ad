"""The days of countries as other programs have them."""

import re
import subprocess
from collections.abc import Callable, Iterable
from dataclasses import dataclass, field
from datetime import date, timedelta

import expected
import holidays
from lunardate import LunarDate
from workalendar.registry import registry

Day = tuple[date, str]
Program = Callable[[range], list[Day]]
HOLIDAYS, WORKALENDAR, HEBCAL = "python3-holidays 0.10.1", "python3-workalendar 17.0.0", "hebcal 4.31 (Debian 4.31-1)"


@dataclass
class Country:
    """The days of a country in some years, by a program whose names are translated into those of the book."""

    program: Program
    sources: list[str]
    years: range
    names: dict[str, str]
    # Names of days in place of others.
    shifted: dict[str, str] = field(default_factory=dict)
    left_out: set[str] = field(default_factory=set)
    # Days of the law that the program lacks, days it has and the law hasn't, and days it has on another day (`FROM TO NAME`).
    more: list[str] = field(default_factory=list)
    less: list[str] = field(default_factory=list)
    moves: list[str] = field(default_factory=list)

    def known(self) -> set[str]:
        return {*self.names, *self.shifted, *self.left_out}

    def day(self, line: str) -> Day:
        day, name = line.split(" ", 1)
        return date.fromisoformat(day), name


def by_holidays(country: str, **options) -> Program:
    return lambda years: list(getattr(holidays, country)(years=years, **options).items())


def by_workalendar(code: str) -> Program:
    return lambda years: [(day, name) for year in years for day, name in registry.get(code)().holidays(year)]


def only(program: Program, names: Iterable[str]) -> Program:
    """The days of some names."""
    kept = set(names)
    return lambda years: [(day, it) for day, name in program(years) for it in {name, *name.split(", ")} & kept]


def without(program: Program, names: Iterable[str]) -> Program:
    dropped = set(names)
    return lambda years: [day for day in program(years) if day[1] not in dropped]


def both(*programs: Program) -> Program:
    return lambda years: [day for program in programs for day in program(years)]


def since(first: int, program: Program) -> Program:
    """The days of a program from a year on, for one that knows no year before."""
    return lambda years: program(range(max(first, years.start), max(first, years.stop)))


def by_hebcal(years: range) -> list[Day]:
    words = ["hebcal", "-i", "-g", "--years", str(len(years)), str(years.start)]
    lines = subprocess.run(words, capture_output=True, text=True, check=True).stdout.splitlines()
    return [(date.fromisoformat(day), name) for day, name in (line.split(" ", 1) for line in lines)]


def same(*names: str) -> dict[str, str]:
    return {name: name for name in names}


def marked(mark: str, names: dict[str, str]) -> dict[str, str]:
    """The same names with a mark for a day in place of another."""
    return {f"{name} {mark}": book_name for name, book_name in names.items()}


def in_runs(program: Program, runs: dict[str, list[str]]) -> Program:
    """The days of a program, in which days in a row that have one name are named by their places."""

    def days(years: range) -> list[Day]:
        found, last = [], {}
        for day, name in sorted(program(years)):
            at, run = last.get(name, (date.min, 0))
            run = run + 1 if day - at == timedelta(days=1) else 0
            last[name] = day, run
            found.append((day, runs[name][run % len(runs[name])] if name in runs else name))
        return found

    return days


def renamed_from(program: Program, year: int, names: dict[str, str]) -> Program:
    """The days of a program, with other names from a year on."""
    return lambda years: [(day, names.get(name, name) if day.year >= year else name) for day, name in program(years)]


def moving(program: Program, names: set[str], moves: dict[int, int], since_year: int, until_year: int = 9999) -> Program:
    """The days of a program. The law moves some of them off certain weekdays (0 is a Monday)."""

    def moved(day: date, name: str) -> date:
        kept = name not in names or not since_year <= day.year <= until_year
        return day if kept else day + timedelta(days=moves.get(day.weekday(), 0))

    return lambda years: [(moved(day, name), name) for day, name in program(years)]


def with_substitutes(program: Program, substitute: str) -> Program:
    """The days of a program that names substitute days by one name: each gets the name of the last holiday on a Sunday before it."""

    def days(years: range) -> list[Day]:
        found = sorted(program(years))
        sundays = [day for day in found if day[0].weekday() == 6]
        return [(day, f"{[n for d, n in sundays if d < day][-1]} (moved)" if name == substitute else name) for day, name in found]

    return days


def by_lunardate(names: dict[str, tuple[int, int]]) -> Program:
    """Days of Chinese years; 30 is the last day of the last month."""

    def day_of(year: int, month: int, day: int) -> date:
        if (month, day) == (12, 30):
            return LunarDate(year + 1, 1, 1).toSolarDate() - timedelta(days=1)
        return LunarDate(year, month, day).toSolarDate()

    return lambda years: [(day_of(year, *of_month), name) for year in range(years.start - 1, years.stop) for name, of_month in names.items()]


def by_gcal(code: str) -> Program:
    return lambda years: [day for year in years for day in expected.gcal(f"--cc-holidays={code}", year)]


def by_icu(names: dict[str, tuple[int, int]]) -> Program:
    """Days of Umm al-Qura in the years 2015 to 2034."""
    return lambda years: expected.by_icu("ar_SA@calendar=islamic-umalqura", "Asia/Riyadh", names)


def last_of_ramadan(years: range) -> list[Day]:
    """Ramadan 30 of the years that have it; where ICU is asked for a day behind the last one, the last one is meant."""
    days = by_icu({"Ramadan 29": (9, 29), "Eve of Eid al-Fitr": (9, 30)})(years)
    before = {day for day, name in days if name == "Ramadan 29"}
    return [(day, name) for day, name in days if name != "Ramadan 29" and day not in before]


def in_brackets(program: Program) -> Program:
    """The days of a program that has English names in brackets."""
    return lambda years: [(day, it) for day, name in program(years) for it in re.findall(r"\[([^]]*)\]", name)]


def yearly(names: dict[str, str]) -> Program:
    """Days that the law names, as `MONTH-DAY`."""
    return lambda years: [(date.fromisoformat(f"{year}-{day}"), name) for year in years for day, name in names.items()]


TO_MONDAY = {5: 2, 6: 1}
