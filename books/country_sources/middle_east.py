"""Books of the Middle East and Ethiopia: the programs that have their days, under which names, and days that are otherwise by the law."""

import expected

from .programs import (
    HEBCAL,
    HOLIDAYS,
    WORKALENDAR,
    Country,
    Day,
    both,
    by_hebcal,
    by_holidays,
    by_icu,
    by_workalendar,
    last_of_ramadan,
    only,
    same,
    without,
    yearly,
)

ISRAEL_YEARS = range(1998, 2035)
ISRAELI = {
    **{f"Rosh Hashana {year + 3761}": "Rosh Hashanah, first day" for year in range(1990, 2040)},
    "Rosh Hashana II": "Rosh Hashanah, second day",
    "Sukkot I": "Sukkot",
    "Shmini Atzeret": "Simchat Torah",
    "Pesach I": "Pesach",
    "Pesach VII": "Seventh day of Pesach",
    "Shavuot I": "Shavuot",
    **same("Yom Kippur", "Yom HaShoah", "Yom HaZikaron", "Yom HaAtzma'ut", "Yom Yerushalayim"),
}
ISRAEL = Country(only(by_hebcal, ISRAELI), [f"{HEBCAL}: hebcal -i -g"], ISRAEL_YEARS, ISRAELI)
ETHIOPIAN = [
    *("Enkutatash", "Meskel", "Genna", "Timket", "Victory of Adwa", "Fasika", "Labour Day"),
    *("Patriots' Victory Day", "Downfall of the Derg"),
]
ETHIOPIA = Country(
    only(lambda years: expected.ethiopian(), [*ETHIOPIAN, "Siklet (Good Friday)"]), ["as ../ethiopian.txt"], range(2015, 2035),
    {**same(*ETHIOPIAN), "Siklet (Good Friday)": "Siklet"},
)  # fmt: skip
EID = {
    **{f"Eid al-Fitr, {place} day": (10, day) for day, place in enumerate(["first", "second", "third"], 1)},
    "Day of Arafah": (12, 9),
    **{f"Eid al-Adha, {place} day": (12, day) for day, place in enumerate(["first", "second", "third"], 10)},
}
ICU = "ICU 72.1 (python3-icu 2.10.2): the calendar `islamic-umalqura`, day by day"
OF_EGYPT = EID | {"Islamic New Year": (1, 1), "Mawlid": (3, 12)}
EGYPT = Country(
    both(by_holidays("Egypt"), by_icu(OF_EGYPT)),
    [f"{HOLIDAYS}: Egypt", ICU],
    range(2015, 2035),
    {
        "Revolution Day - January 25": "Revolution of 25 January",
        "Sham El Nessim": "Sham el-Nessim",
        "30 June Revolution Day": "Revolution of 30 June",
        "Revolution Day": "Revolution of 23 July",
        **same("Coptic Christmas", "Sinai Liberation Day", "Labour Day", "Armed Forces Day", *OF_EGYPT),
    },
    left_out={"New Year's Day - Bank Holiday", "Coptic Easter Sunday"},
)
SAUDI_ARABIA = Country(
    both(by_icu(EID), last_of_ramadan, yearly({"02-22": "Founding Day", "09-23": "National Day"})),
    [f"{ICU}; and the dates of the law"],
    range(2022, 2035),
    same(*EID, "Eve of Eid al-Fitr", "Founding Day", "National Day"),
)
OF_TURKIYE = {
    **{f"Ramadan Feast, {place} day": (10, day) for day, place in enumerate(["first", "second", "third"], 1)},
    **{f"Sacrifice Feast, {place} day": (12, day) for day, place in enumerate(["first", "second", "third", "fourth"], 10)},
}
TURKIYE = Country(
    both(by_workalendar("TR"), by_icu(OF_TURKIYE)),
    [f"{WORKALENDAR}: europe.Turkey, without feasts", ICU],
    range(2015, 2035),
    {
        "New year": "New Year's Day",
        "Labor and Solidarity Day": "Labour and Solidarity Day",
        "Commemoration of Atatürk, Youth and Sports Day": "Commemoration of Ataturk, Youth and Sports Day",
        **same("National Sovereignty and Children's Day", "Democracy and National Unity Day", "Victory Day", "Republic Day", *OF_TURKIYE),
    },
    left_out={"Eid al-Fitr", "Eid al-Adha", "New Year shift"},
    less=["2015-07-15 Democracy and National Unity Day", "2016-07-15 Democracy and National Unity Day"],
)
IRANIAN = [
    *("Nowruz", "Nowruz holiday", "Islamic Republic Day", "Nature Day (Sizdah Bedar)", "Death of Khomeini", "Uprising of 15 Khordad"),
    *("Victory of the Revolution", "Nationalization of the Oil Industry"),
]
IRAN = Country(only(lambda years: expected.iranian(), IRANIAN), ["as ../iranian.txt"], range(2015, 2035), same(*IRANIAN))
COUNTRIES = {
    "ethiopia": ETHIOPIA,
    "egypt": EGYPT,
    "saudi-arabia": SAUDI_ARABIA,
    "turkiye": TURKIYE,
    "iran": IRAN,
    "israel": ISRAEL,
}
