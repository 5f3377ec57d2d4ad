"""Books of the east and south of Asia: the programs that have their days, under which names, and days that are otherwise by the law."""

from datetime import date

from .programs import (
    HOLIDAYS,
    TO_MONDAY,
    WORKALENDAR,
    Country,
    Day,
    Program,
    both,
    by_gcal,
    by_holidays,
    by_lunardate,
    by_workalendar,
    in_runs,
    marked,
    moving,
    only,
    renamed_from,
    same,
    since,
    with_substitutes,
    without,
    yearly,
)

SOUTH_KOREA = Country(
    in_runs(by_workalendar("KR"), {
        "Korean New Year's Day": ["Eve of Seollal", "Seollal", "Day after Seollal"],
        "Midautumn Festival": ["Day before Chuseok", "Chuseok", "Day after Chuseok"],
    }),
    [f"{WORKALENDAR}: asia.SouthKorea, without days in place of others"],
    range(2013, 2025),
    {
        "New year": "New Year's Day",
        "Independence Day": "Independence Movement Day",
        **same("Eve of Seollal", "Seollal", "Day after Seollal", "Day before Chuseok", "Chuseok", "Day after Chuseok", "Buddha's Birthday"),
        **same("Children's Day", "Memorial Day", "Liberation Day", "National Foundation Day", "Hangul Day", "Christmas Day"),
    },
    more=["2017-10-06 Chuseok (in place of a shared day)"],
    moves=[
        *("2014-09-07 2014-09-10 Day before Chuseok", "2015-09-27 2015-09-29 Chuseok", "2016-02-07 2016-02-10 Eve of Seollal"),
        *("2017-01-29 2017-01-30 Day after Seollal", "2018-05-05 2018-05-07 Children's Day", "2018-09-23 2018-09-26 Day before Chuseok"),
        *("2019-05-05 2019-05-06 Children's Day", "2020-01-26 2020-01-27 Day after Seollal", "2021-08-15 2021-08-16 Liberation Day"),
        *("2021-10-03 2021-10-04 National Foundation Day", "2021-10-09 2021-10-11 Hangul Day", "2022-09-11 2022-09-12 Day after Chuseok"),
        *("2022-10-09 2022-10-10 Hangul Day", "2023-01-22 2023-01-24 Seollal", "2023-05-26 2023-05-29 Buddha's Birthday"),
        *("2024-02-11 2024-02-12 Day after Seollal", "2024-05-05 2024-05-06 Children's Day"),
    ],
)
JAPANESE = {
    "元日": "New Year's Day",
    "成人の日": "Coming of Age Day",
    "建国記念の日": "National Foundation Day",
    "天皇誕生日": "Emperor's Birthday",
    "春分の日": "Vernal Equinox Day",
    "昭和の日": "Showa Day",
    "憲法記念日": "Constitution Memorial Day",
    "みどりの日": "Greenery Day",
    "こどもの日": "Children's Day",
    "海の日": "Marine Day",
    "山の日": "Mountain Day",
    "敬老の日": "Respect for the Aged Day",
    "秋分の日": "Autumnal Equinox Day",
    "体育の日": "Health and Sports Day",
    "スポーツの日": "Sports Day",
    "文化の日": "Culture Day",
    "勤労感謝の日": "Labour Thanksgiving Day",
    "国民の休日": "Citizens' holiday",
    "天皇の即位の日": "Enthronement of the Emperor",
    "即位礼正殿の儀が行われる日": "Ceremony of the Enthronement",
}
JAPAN = Country(
    with_substitutes(renamed_from(by_holidays("Japan"), 2020, {"体育の日": "スポーツの日"}), "振替休日"),
    [f"{HOLIDAYS}: Japan"],
    range(1980, 2031),
    JAPANESE,
    marked("(moved)", JAPANESE),
    more=[
        *("1989-02-24 Funeral of Emperor Showa", "1990-11-12 Ceremony of the Enthronement", "1993-06-09 Wedding of Crown Prince Naruhito"),
    ],
    moves=[
        *("2021-07-19 2021-07-22 Marine Day", "2021-10-11 2021-07-23 Sports Day", "2021-08-11 2021-08-09 Mountain Day"),
        "2025-02-23 2025-02-24 Emperor's Birthday",
    ],
)
INDIA = Country(
    both(by_holidays("India"), only(by_gcal("IN"), ["Good Friday"])),
    [f"{HOLIDAYS}: India", "gcal 4.1 (Debian 4.1-3.1): Good Friday of --cc-holidays=IN"],
    range(2000, 2030),
    {"Gandhi Jayanti": "Gandhi's Birthday", "Christmas": "Christmas Day", **same("Republic Day", "Good Friday", "Independence Day")},
    left_out={"Makar Sankranti / Pongal", "Labour Day"},
)
OF_CHINA = {
    "Spring Festival, first day": (1, 1),
    "Spring Festival, second day": (1, 2),
    "Spring Festival, third day": (1, 3),
    "Dragon Boat Festival": (5, 5),
    "Mid-Autumn Festival": (8, 15),
}
LUNARDATE = "python3-lunardate 0.2.0: LunarDate(YEAR, MONTH, DAY).toSolarDate()"
DAYS_OF_CHINA = {"01-01": "New Year's Day", "05-01": "Labour Day", "10-01": "National Day", "10-02": "National Day", "10-03": "National Day"}
CHINA = Country(
    both(
        by_lunardate(OF_CHINA),
        since(2025, by_lunardate({"New Year's Eve": (12, 30)})),
        only(by_workalendar("TW"), ["Qingming Festival"]),
        yearly(DAYS_OF_CHINA),
        since(2025, yearly({"05-02": "Labour Day"})),
    ),
    [LUNARDATE, f"{WORKALENDAR}: asia.Taiwan, Qingming", "and the dates of the law"],
    range(2014, 2035),
    {"Qingming Festival": "Qingming", **same(*OF_CHINA, "New Year's Eve", *DAYS_OF_CHINA.values())},
)
TAIWANESE = {
    "New year": "Founding Day",
    "Chinese New Year's eve": "New Year's Eve",
    "Chinese New Year": "Spring Festival, first day",
    "Chinese New Year (2nd day)": "Spring Festival, second day",
    "Chinese New Year (3rd day)": "Spring Festival, third day",
    "228 Peace Memorial Day": "Peace Memorial Day",
    "Combination of Women's Day and Children's Day": "Children's Day",
    "Qingming Festival": "Qingming",
    "National Day/Double Tenth Day": "National Day",
    **same("Dragon Boat Festival", "Mid-Autumn Festival"),
}
TAIWAN = Country(
    moving(
        by_workalendar("TW"),
        {"New year", "228 Peace Memorial Day", "Dragon Boat Festival", "Mid-Autumn Festival", "National Day/Double Tenth Day"},
        {5: -1, 6: 1},
        2015,
    ),
    [f"{WORKALENDAR}: asia.Taiwan, with days off weekends by the law of 2014"],
    range(2015, 2025),
    TAIWANESE,
    moves=[
        *("2016-02-07 2016-02-11 New Year's Eve", "2017-01-28 2017-01-31 Spring Festival, first day"),
        *("2015-02-21 2015-02-23 Spring Festival, third day", "2017-01-29 2017-02-01 Spring Festival, second day"),
        *("2018-02-17 2018-02-19 Spring Festival, second day", "2018-02-18 2018-02-20 Spring Festival, third day"),
        *("2020-01-25 2020-01-28 Spring Festival, first day", "2020-01-26 2020-01-29 Spring Festival, second day"),
        *("2021-02-13 2021-02-15 Spring Festival, second day", "2021-02-14 2021-02-16 Spring Festival, third day"),
        *("2023-01-21 2023-01-25 New Year's Eve", "2023-01-22 2023-01-26 Spring Festival, first day"),
        *("2024-02-10 2024-02-13 Spring Festival, first day", "2024-02-11 2024-02-14 Spring Festival, second day"),
    ],
)
SEPTEMBER_2015 = "The 70th anniversary day of the victory of the Chinese people's war of resistance against Japanese aggression"
HONG_KONG_DAYS = {
    "The first day of January": "First day of January",
    "Lunar New Year's Day": "Lunar New Year's Day",
    "The second day of Lunar New Year": "Second day of Lunar New Year",
    "The third day of Lunar New Year": "Third day of Lunar New Year",
    "Good Friday": "Good Friday",
    "The day following Good Friday": "Day following Good Friday",
    "Easter Monday": "Easter Monday",
    "Ching Ming Festival": "Ching Ming Festival",
    "Labour Day": "Labour Day",
    "Birthday of the Buddha": "Birthday of the Buddha",
    "Tuen Ng Festival": "Tuen Ng Festival",
    "Hong Kong Special Administrative Region Establishment Day": "Establishment Day",
    "The day following the Chinese Mid-Autumn Festival": "Day following the Mid-Autumn Festival",
    "Chinese Mid-Autumn Festival": "Day following the Mid-Autumn Festival",
    "National Day": "National Day",
    "Chung Yeung Festival": "Chung Yeung Festival",
    "Christmas Day": "Christmas Day",
    "The first weekday after Christmas Day": "First weekday after Christmas Day",
    SEPTEMBER_2015: "Victory in the war of resistance",
}


def fourth_days(program: Program) -> Program:
    """The fourth day of Lunar New Year is in place of the one of the first three that is a Sunday."""
    places = ["The third day of Lunar New Year", "The second day of Lunar New Year", "Lunar New Year's Day"]

    def named(day: date, name: str) -> str:
        return f"{places[day.weekday()]} (moved)" if name == "The fourth day of Lunar New Year" else name

    return lambda years: [(day, named(day, name)) for day, name in program(years)]


HONG_KONG = Country(
    fourth_days(by_holidays("HongKong")),
    [f"{HOLIDAYS}: HongKong"],
    range(2011, 2026),
    HONG_KONG_DAYS,
    {
        **marked("(moved)", HONG_KONG_DAYS),
        **{f"The day following {name.replace('The first', 'the first')}": book for name, book in HONG_KONG_DAYS.items()},
        "The second weekday after Christmas Day": "Christmas Day",
    },
    left_out={"The day preceding Lunar New Year's Day"},
    moves=["2022-09-10 2022-09-12 Day following the Mid-Autumn Festival"],
)
# Written more than once among the days in place of others: they are days of their own.
for own in ("The day following Good Friday", "The day following the Chinese Mid-Autumn Festival"):
    HONG_KONG.shifted.pop(own, None)
OF_THAILAND = {
    "King Rama I Memorial Day/Chakri": "Chakri Memorial Day",
    "The Queen's Birthday": "Queen Sirikit's Birthday",
    "King Rama V Memorial Day": "Chulalongkorn Day",
    "The King's Birthday": "King Bhumibol's Birthday",
    "Constitution Anniversary": "Constitution Day",
}
SONGKRAN = dict.fromkeys(["04-13", "04-14", "04-15"], "Songkran")
THAI_DATES = {"01-01": "New Year's Day", **SONGKRAN, "05-01": "Labour Day", "12-31": "New Year's Eve"}
NEW_THAI_DATES = {"07-28": "King Vajiralongkorn's Birthday", "10-13": "King Bhumibol Memorial Day"}
THAILAND = Country(
    both(
        only(by_gcal("TH"), OF_THAILAND),
        yearly(THAI_DATES),
        moving(since(2017, yearly(NEW_THAI_DATES)), set(NEW_THAI_DATES.values()), TO_MONDAY, 2017),
        moving(since(2019, yearly({"06-03": "Queen Suthida's Birthday"})), {"Queen Suthida's Birthday"}, TO_MONDAY, 2019),
        moving(since(2020, yearly({"05-04": "Coronation Day"})), {"Coronation Day"}, TO_MONDAY, 2020),
    ),
    ["gcal 4.1 (Debian 4.1-3.1): five days of --cc-holidays=TH", "and the dates of the law"],
    range(2017, 2035),
    {**OF_THAILAND, **same(*THAI_DATES.values(), *NEW_THAI_DATES.values(), "Queen Suthida's Birthday", "Coronation Day")},
)
COUNTRIES = {
    "china": CHINA,
    "taiwan": TAIWAN,
    "hong-kong": HONG_KONG,
    "south-korea": SOUTH_KOREA,
    "japan": JAPAN,
    "india": INDIA,
    "thailand": THAILAND,
}
