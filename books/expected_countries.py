#!/usr/bin/python3
"""Makes the files of `expected/countries/`: the days of the books in `countries/`, as other programs have them.

The programs are packages of Debian 12, and the gate does without them. `country_sources/` says which program has which country.

    apt-get install gcal hebcal python3-holidays python3-workalendar python3-icu python3-lunardate
    /usr/bin/python3 books/expected_countries.py [BOOK ..]

A day that a program lacks, or has otherwise than the law, stands there as `more` or `less`; `countries/README.md` says why.
"""

import sys
import warnings
from datetime import timedelta
from pathlib import Path

from country_sources import COUNTRIES, Country, Day

HERE = Path(__file__).resolve().parent / "expected" / "countries"
# A day in place of another is at most so far from it.
REACH = timedelta(days=5)


def named(country: Country, day: Day) -> list[Day]:
    """A day of a program under the names of the book; a program may join the names of one day."""
    at, name = day
    names = [name] if name in country.known() else name.split(", ")
    unknown = [it for it in names if it not in country.known()]
    if unknown:
        raise SystemExit(f"{at}: {unknown} is no name")
    return [(at, it) for it in names if it not in country.left_out]


def days_of(country: Country) -> set[Day]:
    """The days of a country: a day in place of another is listed under its name, and the other is not."""
    around = range(country.years.start - 1, country.years.stop + 1)
    found = [day for it in country.program(around) for day in named(country, it)]
    shifted = {(at, country.shifted[name]) for at, name in found if name in country.shifted}
    plain = {(at, country.names[name]) for at, name in found if name in country.names}
    for at, name in shifted:
        replaced = [day for day in plain if day[1] == name and timedelta(0) < abs(day[0] - at) <= REACH]
        plain -= set(replaced)
    days = plain | shifted
    return corrected(country, {day for day in days if day[0].year in country.years})


def corrected(country: Country, days: set[Day]) -> set[Day]:
    """The days by the law, which says at least one day otherwise for each line."""
    less = country.less + [f"{line[:10]} {line[22:]}" for line in country.moves]
    more = country.more + [line[11:] for line in country.moves]
    for line in less:
        if country.day(line) not in days:
            raise SystemExit(f"{line} is no day of the program")
        days.remove(country.day(line))
    for line in more:
        if country.day(line) in days:
            raise SystemExit(f"{line} is a day of the program")
        days.add(country.day(line))
    return days


def write(book: str) -> int:
    country = COUNTRIES[book]
    days = sorted(days_of(country))
    head = [f"# Days of {country.years.start} to {country.years.stop - 1}, made by books/expected_countries.py from:"]
    head += [f"# {source}" for source in country.sources]
    corrections = len(country.more) + len(country.less) + len(country.moves)
    if corrections:
        head.append(f"# and {corrections} days that are otherwise by the law (country_sources, countries/README.md)")
    (HERE / f"{book}.txt").write_text("\n".join([*head, *(f"{day} {name}" for day, name in days)]) + "\n", encoding="ascii")
    return len(days)


def main(names: list[str]) -> int:
    warnings.simplefilter("ignore")
    for book in names or COUNTRIES:
        print(f"{book}: {write(book)} days")
    return 0


if __name__ == "__main__":
    sys.exit(main(sys.argv[1:]))
