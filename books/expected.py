#!/usr/bin/python3
"""Makes the files of `expected/`: the days of each book, as other programs have them.

None of them is of this repository. They are packages of Debian 12, and the gate does without them: the files they made are kept.

    apt-get install gcal calendar hebcal python3-holidays python3-workalendar python3-convertdate python3-dateutil python3-icu python3-lunardate locales
    localedef -i ru_RU -f UTF-8 ru_RU.UTF-8
    /usr/bin/python3 books/expected.py [BOOK ..]

`books/README.md` says what each book has from which of them, and where they are wrong or differ.
"""

import re
import subprocess
import sys
from collections.abc import Callable, Iterable
from datetime import date, timedelta
from functools import cache
from pathlib import Path

import holidays
import icu
from convertdate import persian
from dateutil.easter import EASTER_ORTHODOX, easter
from lunardate import LunarDate
from workalendar.usa import UnitedStates

HERE = Path(__file__).resolve().parent / "expected"
Day = tuple[date, str]
YEARS = range(2015, 2035)
US_YEARS = range(2021, 2041)
MONTHS = ["Jan", "Feb", "Mar", "Apr", "May", "Jun", "Jul", "Aug", "Sep", "Oct", "Nov", "Dec"]
RUSSIAN_MONTHS = ["янв", "фев", "мар", "апр", "мая", "июн", "июл", "авг", "сен", "окт", "ноя", "дек"]
ONE_DAY = timedelta(days=1)
ORDINALS = ["first", "second", "third", "fourth", "fifth", "sixth", "seventh", "eighth"]
# The days from Julian to Gregorian dates, from March 1900 to February 2100.
JULIAN_SHIFT = timedelta(days=13)
SHARE = "/usr/share/calendar/"
GCAL = re.compile(r"(.*?) \([\w*]+\) +[-+*#] \w\w,[ :]*(\d+)[: ](\w{3}) (\d{4})")
CALENDAR = re.compile(r"(\w{3}) (\d\d)[* ]\t(.*)")


def lines(*words: str) -> list[str]:
    return subprocess.run(words, capture_output=True, text=True, check=True).stdout.splitlines()


@cache
def gcal(list_name: str, year: int) -> list[Day]:
    """A list of gcal: `--christian-holidays` for one of its calendars, or `--cc-holidays=RU` for one of its countries."""
    matches = filter(None, map(GCAL.match, lines("gcal", "-u", "-n", "-X", "-H", "no", list_name, str(year))))
    return [(date(int(y), MONTHS.index(month) + 1, int(day)), name) for name, day, month, y in (m.groups() for m in matches)]


@cache
def freebsd(file: str, year: int) -> list[Day]:
    """A file of the program `calendar`, read by this program."""
    ahead = str((date(year, 12, 31) - date(year, 1, 1)).days)
    found = []
    for line in lines("calendar", "-f", SHARE + file, "-t", f"{year}0101", "-A", ahead):
        month, day, name = CALENDAR.fullmatch(line).groups()
        months = MONTHS if month in MONTHS else RUSSIAN_MONTHS
        found.append((date(year, months.index(month) + 1, int(day)), name))
    return found


def renamed(days: Iterable[Day], names: dict[str, str]) -> list[Day]:
    """The days whose names are among the keys, under the names of the book."""
    return [(day, names[name]) for day, name in days if name in names]


def from_easter(method: Callable[[int], date], offsets: dict[str, int]) -> list[Day]:
    return [(method(year) + timedelta(days=offset), name) for year in YEARS for name, offset in offsets.items()]


def orthodox_easter(year: int) -> date:
    return easter(year, EASTER_ORTHODOX)


def us_federal() -> list[Day]:
    names = {
        "New Year's Day": "New Year's Day",
        "Martin Luther King, Jr. Day": "Birthday of Martin Luther King, Jr.",
        "Washington's Birthday": "Washington's Birthday",
        "Memorial Day": "Memorial Day",
        "Independence Day": "Independence Day",
        "Labor Day": "Labor Day",
        "Columbus Day": "Columbus Day",
        "Veterans Day": "Veterans Day",
        "Thanksgiving": "Thanksgiving Day",
        "Christmas Day": "Christmas Day",
    }
    program = holidays.UnitedStates(years=US_YEARS, observed=False)
    return renamed(program.items(), names) + [UnitedStates().get_juneteenth_day(year) for year in US_YEARS]


WESTERN = {
    "Septuagesima Sunday": "Septuagesima",
    "Sexagesima Sunday": "Sexagesima",
    "Quinquagesima Sunday": "Quinquagesima",
    "Ash Wednesday": "Ash Wednesday",
    "1st Sunday in Lent": "First Sunday in Lent",
    "2nd Sunday in Lent": "Second Sunday in Lent",
    "3rd Sunday in Lent": "Third Sunday in Lent",
    "4th Sunday in Lent": "Fourth Sunday in Lent",
    "Passion Sunday": "Passion Sunday",
    "Palm Sunday": "Palm Sunday",
    "Good Friday": "Good Friday",
    "Good Saturday/Easter Eve": "Holy Saturday",
    "Easter Sunday": "Easter Sunday",
    "Easter Monday": "Easter Monday",
    "Rogation Sunday": "Rogation Sunday",
    "Christ's Ascension Day": "Ascension Day",
    "Whitsunday/Pentecost": "Pentecost",
    "Whit Monday": "Whit Monday",
    "Holy Trinity": "Trinity Sunday",
    "Feast of Corpus Christi": "Corpus Christi",
    "Feast of Heart Jesus": "Sacred Heart",
    "Mary - Blessed Virgin": "Mary, Mother of God",
    "Epiphany/Three King's Day": "Epiphany",
    "Mary's Candlemas": "Candlemas",
    "St Valentine's Day": "Saint Valentine",
    "St Joseph's Day": "Saint Joseph",
    "Mary's Annunciation Day": "Annunciation",
    "St John's/Midsummer Day": "Nativity of Saint John the Baptist",
    "St Peter and St Paul": "Saints Peter and Paul",
    "St Laurentius Day": "Saint Lawrence",
    "Mary's Ascension Day": "Assumption",
    "St Bartholomew Day": "Saint Bartholomew",
    "Mary's Nativity": "Nativity of Mary",
    "Mary's Name": "Holy Name of Mary",
    "Reformation Day": "Reformation Day",
    "All Saints' Day": "All Saints",
    "All Souls' Day": "All Souls",
    "Martinimas": "Martinmas",
    "Mary's Sacrifice": "Presentation of Mary",
    "St Andrew's Day": "Saint Andrew",
    "St Nicholas' Day": "Saint Nicholas",
    "Mary's Immaculate Conception": "Immaculate Conception",
    "Christmas Eve": "Christmas Eve",
    "Christmas Day": "Christmas Day",
    "Boxing Day": "Saint Stephen",
}


def western_christian() -> list[Day]:
    rest = {
        "Shrove Tuesday / Mardi Gras (day before Ash Wednesday)": "Shrove Tuesday",
        "Maundy Thursday (3 days before Easter)": "Maundy Thursday",
    }
    found = []
    for year in YEARS:
        found += renamed(gcal("--christian-holidays", year), WESTERN) + renamed(freebsd("calendar.christian", year), rest)
    return found


ORTHODOX_MOVABLE = {
    "Великий Пост": "Clean Monday",
    "Вход Господень в Иерусалим. Вербное Воскресенье": "Palm Sunday",
    "Великий Четверг": "Great Thursday",
    "Страстная Пятница": "Great Friday",
    "Воскресение Христово": "Pascha",
    "Вознесение": "Ascension",
    "День Святой Троицы. Пятидесятница": "Pentecost",
}
ORTHODOX_FIXED = {
    "Обрезание Господне": "Circumcision of the Lord",
    "Богоявление или Крещение Господне": "Theophany",
    "Сретение Господне": "Meeting of the Lord",
    "Благовещение Пресвятой Богородицы": "Annunciation",
    "Рождество Иоанна Предтечи": "Nativity of John the Baptist",
    "День святых первоверховных апостолов Петра и Павла": "Apostles Peter and Paul",
    "Преображение Господне": "Transfiguration",
    "Успение Пресвятой Богородицы": "Dormition",
    "Усекновение главы Иоанна Предтечи": "Beheading of John the Baptist",
    "Рождество Пресвятой Богородицы": "Nativity of the Theotokos",
    "Воздвижение Креста Господня": "Exaltation of the Cross",
    "Введение во храм Пресвятой Богородицы": "Entry of the Theotokos into the Temple",
    "Рождество Христово": "Nativity of Christ",
}
# The offsets of the Triodion and of the Pentecostarion, for days that none of the programs has.
ORTHODOX_OFFSETS = {
    "Sunday of the Publican and the Pharisee": -70,
    "Sunday of the Prodigal Son": -63,
    "Sunday of the Last Judgement": -56,
    "Forgiveness Sunday": -49,
    "Sunday of Orthodoxy": -42,
    "Sunday of the Cross": -28,
    "Lazarus Saturday": -8,
    "Thomas Sunday": 7,
    "Sunday of the Myrrh-bearing Women": 14,
    "Mid-Pentecost": 24,
    "Sunday of All Saints": 56,
    "Fast of the Apostles begins": 57,
}
# Where Pascha is late there is no fast of the Apostles in the new calendar.
NEW_OFFSETS = {name: offset for name, offset in ORTHODOX_OFFSETS.items() if name != "Fast of the Apostles begins"}


def orthodox_movable(year: int) -> list[Day]:
    return [
        *renamed(freebsd("ru_RU/calendar.orthodox", year), ORTHODOX_MOVABLE),
        *renamed(gcal("--orthodox-old-holidays", year), {"Good Saturday/Easter Eve": "Great Saturday"}),
        *renamed(gcal("--cc-holidays=GR", year), {"Easter Monday": "Bright Monday", "Whit Monday": "Monday of the Holy Spirit"}),
    ]


def orthodox_christian() -> list[Day]:
    fixed = ORTHODOX_FIXED | {"Покров Пресвятой Богородицы": "Protection of the Theotokos"}
    found = from_easter(orthodox_easter, ORTHODOX_OFFSETS)
    for year in YEARS:
        found += orthodox_movable(year) + renamed(freebsd("ru_RU/calendar.orthodox", year), fixed)
        found += renamed(gcal("--orthodox-old-holidays", year), {"Christmas Eve": "Eve of the Nativity of Christ"})
    return found + renamed(holidays.Belarus(years=YEARS).items(), {"Радуница": "Radonitsa"})


def orthodox_new_calendar() -> list[Day]:
    names = {
        "Epiphany/Three King's Day": "Theophany",
        "Mary's Candlemas": "Meeting of the Lord",
        "Mary's Annunciation Day": "Annunciation",
        "Transfiguration Day": "Transfiguration",
        "Mary's Ascension Day": "Dormition",
        "Mary's Nativity": "Nativity of the Theotokos",
        "Cross Raising Day": "Exaltation of the Cross",
        "Christmas Eve": "Eve of the Nativity of Christ",
        "Christmas Day": "Nativity of Christ",
    }
    shifted = {russian: name for russian, name in ORTHODOX_FIXED.items() if name not in names.values()}
    found = from_easter(orthodox_easter, NEW_OFFSETS)
    for year in YEARS:
        found += orthodox_movable(year) + renamed(gcal("--orthodox-new-holidays", year), names)
    for year in [*YEARS, YEARS.stop]:
        # The old calendar's feast is thirteen days later: the first of the year after belongs to the last year here.
        found += [(day - JULIAN_SHIFT, name) for day, name in renamed(freebsd("ru_RU/calendar.orthodox", year), shifted)]
    return found


@cache
def hebcal(*options: str) -> list[Day]:
    split = (line.split(" ", 1) for line in lines("hebcal", "-g", *options, "--years", str(len(YEARS)), str(YEARS.start)))
    return [(date.fromisoformat(day), name) for day, name in split]


def hebrew_dates() -> dict[date, str]:
    """The Hebrew date of each day without its year, as `3rd of Tevet`."""
    return {day: name.split(",")[0] for day, name in hebcal("-d", "-h", "-x")}


ROMAN = ["I", "II", "III (CH''M)", "IV (CH''M)", "V (CH''M)", "VI (CH''M)", "VII", "VIII"]
JEWISH = {
    **{name: name for name in ["Yom Kippur", "Simchat Torah", "Asara B'Tevet", "Tu BiShvat", "Purim Katan", "Purim"]},
    **{name: name for name in ["Shabbat Zachor", "Shabbat HaGadol", "Pesach Sheni", "Lag BaOmer", "Yom Yerushalayim", "Tu B'Av"]},
    **{f"Sukkot {ROMAN[n]}": f"Sukkot, {ORDINALS[n]} day" for n in range(6)},
    **{f"Pesach {ROMAN[n]}": f"Pesach, {ORDINALS[n]} day" for n in range(8)},
    **{f"Shavuot {ROMAN[n]}": f"Shavuot, {ORDINALS[n]} day" for n in range(2)},
    **{f"Rosh Hashana {year + 3761}": "Rosh Hashanah, first day" for year in YEARS},
    "Rosh Hashana II": "Rosh Hashanah, second day",
    "Sukkot VII (Hoshana Raba)": "Hoshana Rabbah",
    "Shmini Atzeret": "Shemini Atzeret",
    # The second candle is lit at the end of the first day.
    "Chanukah: 2 Candles": "Hanukkah, first day",
    **{f"Chanukah: {n} Candles": "Hanukkah" for n in range(3, 9)},
    "Chanukah: 8th Day": "Hanukkah",
    **{f"Rosh Chodesh {name}": f"Rosh Chodesh {name}" for name in ["Cheshvan", "Kislev", "Tevet", "Adar", "Nisan", "Sivan", "Av", "Elul"]},
    **{f"Rosh Chodesh Adar {n}": "Rosh Chodesh Adar" for n in ["I", "II"]},
    "Rosh Chodesh Sh'vat": "Rosh Chodesh Shevat",
    "Rosh Chodesh Iyyar": "Rosh Chodesh Iyar",
    "Rosh Chodesh Tamuz": "Rosh Chodesh Tammuz",
}


def jewish() -> list[Day]:
    """The days of hebcal, without the last day of Hanukkah where it is the 3rd of Tevet; and the 15th of Adar.

    hebcal has Shushan Purim a day later where this is a Saturday: the name is of the date here.
    """
    dates = hebrew_dates()
    shushan = [(day, "Shushan Purim") for day, name in dates.items() if name in ("15th of Adar", "15th of Adar II")]
    days = renamed(hebcal(), JEWISH)
    return shushan + [(day, name) for day, name in days if not (name == "Hanukkah" and dates[day] == "3rd of Tevet")]


MONDAY, FRIDAY, SATURDAY, SUNDAY = 0, 4, 5, 6
# For a day that moves: its name in the book, its Hebrew dates, and by how many days it moves from which weekdays.
MOVED = {
    "Tzom Gedaliah": ("Tzom Gedaliah (if a Saturday: the day after)", {"3rd of Tishrei"}, {SATURDAY: 1}),
    "Ta'anit Esther": ("Ta'anit Esther (if a Saturday: the Thursday before)", {"13th of Adar", "13th of Adar II"}, {SATURDAY: -2}),
    "Ta'anit Bechorot": ("Ta'anit Bechorot (if a Saturday: the Thursday before)", {"14th of Nisan"}, {SATURDAY: -2}),
    "Yom HaShoah": ("Yom HaShoah (if a Friday: day before; if a Sunday: day after)", {"27th of Nisan"}, {FRIDAY: -1, SUNDAY: 1}),
    "Yom HaAtzma'ut": (
        *("Yom HaAtzma'ut (Fri or Sat: Thursday before; Mon: day after)", {"5th of Iyyar"}),
        {FRIDAY: -1, SATURDAY: -2, MONDAY: 1},
    ),
    "Tzom Tammuz": ("Tzom Tammuz (if a Saturday: the day after)", {"17th of Tamuz"}, {SATURDAY: 1}),
    "Tish'a B'Av": ("Tish'a B'Av (if a Saturday: the day after)", {"9th of Av"}, {SATURDAY: 1}),
}


def jewish_moved() -> list[Day]:
    """The dates from which the days are counted; that they move as their names say is asked of hebcal too."""
    dates = hebrew_dates()
    kept = {(day, name.removesuffix(" (observed)")) for day, name in hebcal()}
    found = [(day, "Hanukkah, last day (only after a Kislev of 29 days)") for day, name in dates.items() if name == "3rd of Tevet"]
    for event, (name, named, moves) in MOVED.items():
        days = [day for day in dates if dates[day] in named]
        for day in days:
            moved = day + moves.get(day.weekday(), 0) * ONE_DAY
            if (moved, event) not in kept:
                raise SystemExit(f"hebcal doesn't keep {event} on {moved}")
        found += [(day, name) for day in days]
    return found


def numbered(days: Iterable[Day], name: str, book_name: str) -> list[Day]:
    """The days of the name, each with its place in its run of days."""
    found, run = [], 0
    kept = sorted(day for day, listed in days if listed == name)
    for at, day in enumerate(kept):
        run = run + 1 if at and kept[at - 1] == day - ONE_DAY else 0
        found.append((day, f"{book_name}, {ORDINALS[run]} day"))
    return found


def islamic() -> list[Day]:
    names = {
        **{f"Islamic New Year's Day {year}": "Islamic New Year" for year in range(1430, 1470)},
        "Ashura'": "Ashura",
        "Eid-i-Milad-un-Nabi": "Mawlid",
        "Shab-e-Mi'raj": "Laylat al-Mi'raj",
        "Shab-e-Bara't": "Mid-Sha'ban",
        "Ramadan": "First day of Ramadan",
        "Nuzul-al-Qur'an": "Nuzul al-Qur'an",
        "Shab-e Qadr": "Laylat al-Qadr",
        "Quds Day": "Quds Day",
        "Waqf-al-Arafat": "Day of Arafah",
        "Ghadir": "Eid al-Ghadir",
    }
    days = [day for year in YEARS for day in gcal("--islamic-civil-holidays", year)]
    return renamed(days, names) + numbered(days, "Eid-al-Fitr", "Eid al-Fitr") + numbered(days, "Eid-al-Adha", "Eid al-Adha")


# Months and days by which the holidays of Iran's official calendar, commemorations and old feasts are named.
IRANIAN = [
    *[("Nowruz", 1, 1), ("Nowruz holiday", 1, 2), ("Nowruz holiday", 1, 3), ("Nowruz holiday", 1, 4), ("Islamic Republic Day", 1, 12)],
    *[("Nature Day (Sizdah Bedar)", 1, 13), ("Saadi Day", 2, 1), ("Teachers' Day", 2, 12), ("Ferdowsi Day", 2, 25), ("Khayyam Day", 2, 28)],
    *[("Liberation of Khorramshahr", 3, 3), ("Death of Khomeini", 3, 14), ("Uprising of 15 Khordad", 3, 15), ("Tirgan", 4, 13)],
    *[("Avicenna Day", 6, 1), ("Rumi Day", 7, 8), ("Mehregan", 7, 16), ("Hafez Day", 7, 20), ("Students' Day", 9, 16)],
    *[("Yalda Night", 9, 30), ("Sadeh", 11, 10), ("Victory of the Revolution", 11, 22), ("Nationalization of the Oil Industry", 12, 29)],
]


def iranian() -> list[Day]:
    """The years of convertdate begin at the equinox, as it is seen from Iran's meridian."""
    found = []
    for year in range(YEARS.start - 622, YEARS.stop - 621):
        found += [(date(*persian.to_gregorian(year, month, day)), name) for name, month, day in IRANIAN]
        last = date(*persian.to_gregorian(year + 1, 1, 1)) - ONE_DAY
        back = (last.weekday() - 2) % 7
        found.append((last, "Last day of the year"))
        found.append((last - back * ONE_DAY, "Last Wednesday of the year (Chaharshanbe Suri on its eve)"))
    return found


# Months and days of the Ethiopian calendar, as its feasts and its national days are named.
ETHIOPIAN = [
    *[("Enkutatash", 1, 1), ("Demera", 1, 16), ("Meskel", 1, 17), ("Gishen Mariam", 1, 21), ("Saint Michael", 3, 12), ("Hidar Tsion", 3, 21)],
    *[("Saint Gabriel of Kulubi", 4, 19), ("Ketera", 5, 10), ("Timket", 5, 11), ("Cana of Galilee", 5, 12), ("Astereyo Mariam", 5, 21)],
    *[("Kidane Mehret", 6, 16), ("Victory of Adwa", 6, 23), ("Annunciation", 7, 29), ("Patriots' Victory Day", 8, 27)],
    *[("Lideta Mariam", 9, 1), ("Downfall of the Derg", 9, 20), ("Saint Michael", 10, 12), ("Apostles Peter and Paul", 11, 5)],
    *[("Saint Gabriel", 11, 19), ("Fast of Filseta begins", 12, 1), ("Buhe", 12, 13), ("Filseta", 12, 16), ("Saint Raphael", 13, 3)],
]
# The days of the Bahire Hasab, from the Fast of Nineveh, less 69.
ETHIOPIAN_OFFSETS = {
    "Fast of Nineveh begins": -69,
    "Great Lent begins": 14 - 69,
    "Debre Zeit": 41 - 69,
    "Hosanna": 62 - 69,
    "Siklet (Good Friday)": 67 - 69,
    "Fasika": 0,
    "Rikbe Kahnat": 93 - 69,
    "Erget (Ascension)": 108 - 69,
    "Paraclete (Pentecost)": 118 - 69,
    "Fast of the Apostles begins": 119 - 69,
    "Fast of Salvation begins": 121 - 69,
}


def ethiopian() -> list[Day]:
    found = from_easter(orthodox_easter, ETHIOPIAN_OFFSETS)
    for year in range(YEARS.start - 1, YEARS.stop):
        months = [day for day, name in gcal("--ethiopic-months", year)]
        numbers = [int(re.search(r"month (\d\d)/", name)[1]) for _, name in gcal("--ethiopic-months", year)]
        # The days between Nehase and Meskerem are gcal's second month 12.
        for at in range(1, len(numbers)):
            numbers[at] = 13 if numbers[at] == numbers[at - 1] else numbers[at]
        for start, number in zip(months, numbers):
            found += [(start + (day - 1) * ONE_DAY, name) for name, month, day in ETHIOPIAN if month == number]
        found += renamed(gcal("--cc-holidays=ET", year), {"Christmas Day": "Genna"})
        found.append((date(year, 5, 1), "Labour Day"))
    return found


GCAL_WORDS = "gcal 4.1 (Debian 4.1-3.1): gcal -u -n -X -H no"
CALENDAR_WORDS = "calendar of FreeBSD (Debian 12.1.8): calendar -f /usr/share/calendar"


def orthodox_sources(offsets: dict[str, int]) -> list[str]:
    return [
        f"{CALENDAR_WORDS}/ru_RU/calendar.orthodox -t YEAR0101 -A 364 (365 in a leap year)",
        f"{GCAL_WORDS} --orthodox-old-holidays YEAR: Great Saturday",
        f"{GCAL_WORDS} --cc-holidays=GR YEAR: Bright Monday, Monday of the Holy Spirit",
        "python3-dateutil 2.8.2: dateutil.easter.easter(YEAR, EASTER_ORTHODOX), with the offsets of the Triodion and the Pentecostarion:",
        *(f"  {name}" for name in offsets),
    ]


# The days of the books in lunar calendars, by month and day; 30 is the last day of the last month.
CHINESE = {
    "Spring Festival": (1, 1),
    "Lantern Festival": (1, 15),
    "Longtaitou": (2, 2),
    "Shangsi Festival": (3, 3),
    "Buddha's Birthday": (4, 8),
    "Dragon Boat Festival": (5, 5),
    "Qixi Festival": (7, 7),
    "Zhongyuan Festival": (7, 15),
    "Mid-Autumn Festival": (8, 15),
    "Double Ninth Festival": (9, 9),
    "Xiayuan Festival": (10, 15),
    "Laba Festival": (12, 8),
    "New Year's Eve": (12, 30),
}
KOREAN = {
    "Eve of Seollal": (12, 30),
    "Seollal": (1, 1),
    "Day after Seollal": (1, 2),
    "Jeongwol Daeboreum": (1, 15),
    "Samjinnal": (3, 3),
    "Buddha's Birthday": (4, 8),
    "Dano": (5, 5),
    "Yudu": (6, 15),
    "Chilseok": (7, 7),
    "Baekjung": (7, 15),
    "Day before Chuseok": (8, 14),
    "Chuseok": (8, 15),
    "Day after Chuseok": (8, 16),
    "Jungyangjeol": (9, 9),
}
UMM_AL_QURA = {
    "Islamic New Year": (1, 1),
    "Tasua": (1, 9),
    "Ashura": (1, 10),
    "Mawlid": (3, 12),
    "Laylat al-Mi'raj": (7, 27),
    "Mid-Sha'ban": (8, 15),
    "First day of Ramadan": (9, 1),
    "Eid al-Fitr, first day": (10, 1),
    "Eid al-Fitr, second day": (10, 2),
    "Eid al-Fitr, third day": (10, 3),
    "Day of Arafah": (12, 9),
    "Eid al-Adha, first day": (12, 10),
    "Eid al-Adha, second day": (12, 11),
    "Eid al-Adha, third day": (12, 12),
}


# UCAL_IS_LEAP_MONTH, which python3-icu doesn't name.
IS_LEAP_MONTH = 22


def by_icu(locale: str, zone: str, names: dict[str, tuple[int, int]]) -> list[Day]:
    """The days of the years on which a calendar of ICU has one of the months, no leap month, and days."""
    calendar = icu.Calendar.createInstance(icu.TimeZone.createTimeZone(zone), icu.Locale(locale))
    found = []
    day = date(YEARS.start, 1, 1)
    while day.year < YEARS.stop:
        # Noon of the day there.
        calendar.setTime((day.toordinal() - date(1970, 1, 1).toordinal()) * 86400.0 + 43200 - calendar.getTimeZone().getRawOffset() / 1000)
        month, number = calendar.get(icu.UCalendarDateFields.MONTH) + 1, calendar.get(icu.UCalendarDateFields.DATE)
        is_leap = calendar.get(IS_LEAP_MONTH) if "islamic" not in locale else 0
        last = calendar.getActualMaximum(icu.UCalendarDateFields.DATE)
        for name, (of_month, of_day) in names.items():
            if not is_leap and month == of_month and number == min(of_day, last):
                found.append((day, name))
        day += ONE_DAY
    return found


def chinese() -> list[Day]:
    """The days of lunardate, whose table is that of the Hong Kong Observatory."""
    found = []
    for day in (date(YEARS.start, 1, 1) + n * ONE_DAY for n in range(366 * len(YEARS))):
        of_lunar, next_day = (LunarDate.fromSolarDate(it.year, it.month, it.day) for it in (day, day + ONE_DAY))
        is_last = of_lunar.month != next_day.month
        for name, (month, number) in CHINESE.items():
            if not of_lunar.isLeapMonth and of_lunar.month == month and (of_lunar.day == number or (number == 30 and is_last)):
                found.append((day, name))
    return found


def korean() -> list[Day]:
    return by_icu("ko@calendar=dangi", "Asia/Seoul", KOREAN)


def umm_al_qura() -> list[Day]:
    return by_icu("ar_SA@calendar=islamic-umalqura", "Asia/Riyadh", UMM_AL_QURA)


HEBCAL_WORDS = "hebcal 4.31 (Debian 4.31-1): hebcal -g"
BOOKS = {
    "us-federal": (us_federal, US_YEARS, [
        "python3-holidays 0.10.1: holidays.UnitedStates(years=range(2021, 2041), observed=False)",
        "python3-workalendar 17.0.0: workalendar.usa.UnitedStates().get_juneteenth_day(YEAR)",
    ]),
    "western-christian": (western_christian, YEARS, [
        f"{GCAL_WORDS} --christian-holidays YEAR",
        f"{CALENDAR_WORDS}/calendar.christian -t YEAR0101 -A 364 (365 in a leap year): Shrove Tuesday, Maundy Thursday",
    ]),
    "orthodox-christian": (orthodox_christian, YEARS, [
        *orthodox_sources(ORTHODOX_OFFSETS),
        f"{GCAL_WORDS} --orthodox-old-holidays YEAR: Eve of the Nativity of Christ",
        "python3-holidays 0.10.1: holidays.Belarus(years=range(2015, 2035)): Radonitsa",
    ]),
    "orthodox-new-calendar": (orthodox_new_calendar, YEARS, [
        f"{GCAL_WORDS} --orthodox-new-holidays YEAR",
        *orthodox_sources(NEW_OFFSETS),
        "  and for five fixed feasts that gcal lacks or has on another day the first of these, less thirteen days",
    ]),
    "jewish": (jewish, YEARS, [
        f"{HEBCAL_WORDS} --years 20 2015, without the last day of Hanukkah where it is the 3rd of Tevet",
        f"{HEBCAL_WORDS} -d -h -x --years 20 2015: Shushan Purim, as the 15th of Adar",
    ]),
    "jewish-moved": (jewish_moved, YEARS, [f"{HEBCAL_WORDS} -d -h -x --years 20 2015", "the Hebrew dates from which the days are counted"]),
    "islamic": (islamic, YEARS, [f"{GCAL_WORDS} --islamic-civil-holidays YEAR"]),
    "iranian": (iranian, YEARS, [
        "python3-convertdate 2.4.0: convertdate.persian.to_gregorian(YEAR, MONTH, DAY), which finds the equinox by python3-pymeeus 0.5.11",
    ]),
    "ethiopian": (ethiopian, YEARS, [
        f"{GCAL_WORDS} --ethiopic-months YEAR",
        f"{GCAL_WORDS} --cc-holidays=ET YEAR: Genna",
        "python3-dateutil 2.8.2: dateutil.easter.easter(YEAR, EASTER_ORTHODOX), with the offsets of the Bahire Hasab",
    ]),
    "chinese": (chinese, YEARS, [
        "python3-lunardate 0.2.0: LunarDate.fromSolarDate(YEAR, MONTH, DAY)",
    ]),
    "korean": (korean, YEARS, ["ICU 72.1 (python3-icu 2.10.2): the calendar `dangi` at Seoul, day by day"]),
    "umm-al-qura": (umm_al_qura, YEARS, ["ICU 72.1 (python3-icu 2.10.2): the calendar `islamic-umalqura`, day by day"]),
}


def write(book: str) -> int:
    make, years, sources = BOOKS[book]
    days = sorted({(day, name) for day, name in make() if day.year in years})
    head = [f"# Days of {years.start} to {years.stop - 1}, made by books/expected.py from:", *(f"# {source}" for source in sources)]
    (HERE / f"{book}.txt").write_text("\n".join([*head, *(f"{day} {name}" for day, name in days)]) + "\n", encoding="ascii")
    return len(days)


def main(names: list[str]) -> int:
    for book in names or BOOKS:
        print(f"{book}: {write(book)} days")
    return 0


if __name__ == "__main__":
    sys.exit(main(sys.argv[1:]))
