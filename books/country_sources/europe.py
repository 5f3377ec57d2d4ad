"""Books of Europe: the programs that have their days, under which names, and days that are otherwise by the law."""

from .programs import (
    HOLIDAYS,
    TO_MONDAY,
    WORKALENDAR,
    Country,
    Day,
    by_holidays,
    by_workalendar,
    marked,
    moving,
    only,
    same,
    without,
)

GB = {
    **same("New Year's Day", "Good Friday", "Easter Monday", "Christmas Day", "Boxing Day"),
    "May Day": "Early May bank holiday",
    "Spring Bank Holiday": "Spring bank holiday",
    "Late Summer Bank Holiday": "Summer bank holiday",
    "Diamond Jubilee of Elizabeth II": "Diamond Jubilee",
    "Golden Jubilee of Elizabeth II": "Golden Jubilee",
    "Wedding of William and Catherine": "Royal wedding",
    "Millennium Celebrations": "Millennium",
    "Silver Jubilee of Elizabeth II": "Silver Jubilee",
    "Wedding of Charles and Diana": "Royal wedding",
}
OF_2022 = ["2022-06-03 Platinum Jubilee", "2022-09-19 State funeral of Elizabeth II", "2023-05-08 Coronation of Charles III"]
ENGLAND = Country(
    by_holidays("England"),
    [f"{HOLIDAYS}: England"],
    range(1978, 2035),
    GB,
    marked("(Observed)", GB),
    more=OF_2022,
    moves=["2002-05-27 2002-06-04 Spring bank holiday", "2022-05-30 2022-06-02 Spring bank holiday"],
)
SCOTTISH = {
    **{name: book for name, book in GB.items() if not name.startswith("Late")},
    "New Year Holiday": "2 January",
    "Summer Bank Holiday": "Summer bank holiday",
    "St. Andrew's Day": "Saint Andrew's Day",
}
# The years that begin on a Sunday.
FIRST_SUNDAYS = [1978, 1984, 1989, 1995, 2006, 2012, 2017, 2023, 2034]
SCOTLAND = Country(
    moving(by_holidays("Scotland"), {"St. Andrew's Day"}, TO_MONDAY, 2007),
    [f"{HOLIDAYS}: Scotland; Saint Andrew's Day moved by the act of 2007"],
    range(1978, 2035),
    SCOTTISH,
    marked("(Observed)", SCOTTISH),
    more=OF_2022,
    less=[f"{year}-11-30 Saint Andrew's Day" for year in range(1978, 2007)],
    moves=["2002-05-27 2002-06-04 Spring bank holiday", "2022-05-30 2022-06-02 Spring bank holiday"]
    # The program moves January 1 to the 2nd and this to the 3rd: the days are the same.
    + [f"{year}-01-02 {year}-01-03 New Year's Day" for year in FIRST_SUNDAYS]
    + [f"{year}-01-03 {year}-01-02 2 January" for year in FIRST_SUNDAYS],
)
SWEDEN = Country(
    by_workalendar("SE"),
    [f"{WORKALENDAR}: europe.Sweden"],
    range(2005, 2035),
    {
        "New year": "New Year's Day",
        "Easter Sunday": "Easter Day",
        "Labour Day": "May Day",
        "Ascension Thursday": "Ascension Day",
        "Midsummer's Eve": "Midsummer Eve",
        "Midsummer's Day": "Midsummer Day",
        "All Saints": "All Saints' Day",
        "Second Day of Christmas": "Second day of Christmas",
        **same("Epiphany", "Good Friday", "Easter Monday", "Pentecost", "National Day", "Christmas Eve", "Christmas Day", "New Year's Eve"),
    },
)
GERMAN = {
    "Neujahr": "New Year's Day",
    "Karfreitag": "Good Friday",
    "Ostermontag": "Easter Monday",
    "Erster Mai": "Labour Day",
    "Christi Himmelfahrt": "Ascension Day",
    "Pfingstmontag": "Whit Monday",
    "Tag der Deutschen Einheit": "Day of German Unity",
    "Erster Weihnachtstag": "Christmas Day",
    "Zweiter Weihnachtstag": "Second day of Christmas",
}
OF_STATES = {
    "Heilige Drei Könige": "Epiphany",
    "Internationaler Frauentag": "Women's Day",
    "75. Jahrestag der Befreiung vom Nationalsozialismus und der Beendigung des Zweiten Weltkriegs in Europa": "Liberation Day",
    "Ostersonntag": "Easter Sunday",
    "Pfingstsonntag": "Whit Sunday",
    "Fronleichnam": "Corpus Christi",
    "Mariä Himmelfahrt": "Assumption",
    "Weltkindertag": "Children's Day",
    "Reformationstag": "Reformation Day",
    "Buß- und Bettag": "Day of Repentance and Prayer",
    "Allerheiligen": "All Saints' Day",
}
GERMANY = Country(
    by_holidays("Germany"), [f"{HOLIDAYS}: Germany"], range(1992, 2030),
    GERMAN | {"Reformationstag": "Reformation Day", "Buß- und Bettag": "Day of Repentance and Prayer"},
)  # fmt: skip
STATES = {
    "baden-wuerttemberg": "BW", "bavaria": "BY", "bavaria-catholic": "BY", "berlin": "BE", "brandenburg": "BB", "bremen": "HB", "hamburg": "HH",
    "hesse": "HE", "lower-saxony": "NI", "mecklenburg-vorpommern": "MV", "north-rhine-westphalia": "NW", "rhineland-palatinate": "RP",
    "saarland": "SL", "saxony": "SN", "saxony-anhalt": "ST", "schleswig-holstein": "SH", "thuringia": "TH",
}  # fmt: skip
STATE_DAYS = {
    "berlin": ["2025-05-08 Liberation Day", "2028-06-17 Anniversary of 17 June 1953"],
    "mecklenburg-vorpommern": [f"{year}-03-08 Women's Day" for year in range(2023, 2030)],
}


def state(book: str, code: str) -> Country:
    """What a state adds to the days of all states."""
    program = by_holidays("Germany", prov=code)
    if code == "BY":
        # The program has Bavaria with Assumption, which is kept where more are Catholic than Protestant.
        program = (only if book == "bavaria-catholic" else without)(program, ["Mariä Himmelfahrt"])
    of_2017 = ["2017-10-31 Reformation Day"] if any(name == "Reformationstag" for _, name in program(range(2017, 2018))) else []
    return Country(
        program, [f"{HOLIDAYS}: Germany(prov='{code}'), less Germany()"], range(1995, 2030), OF_STATES,
        left_out=set(GERMAN), more=STATE_DAYS.get(book, []), less=of_2017,
    )  # fmt: skip


FRENCH = {
    "New year": "New Year's Day",
    "Victory in Europe Day": "Victory Day",
    "Ascension Thursday": "Ascension Day",
    "Bastille Day": "National Day",
    "Assumption of Mary to Heaven": "Assumption",
    "All Saints Day": "All Saints' Day",
    **same("Easter Monday", "Labour Day", "Whit Monday", "Armistice Day", "Christmas Day"),
}
FRANCE = Country(by_workalendar("FR"), [f"{WORKALENDAR}: europe.France"], range(2000, 2030), FRENCH)
ALSACE = {"Vendredi saint": "Good Friday", "Deuxième jour de Noël": "Second day of Christmas"}
ALSACE_MOSELLE = Country(
    only(by_holidays("France", prov="Alsace-Moselle"), ALSACE), [f"{HOLIDAYS}: France(prov='Alsace-Moselle')"], range(2000, 2030), ALSACE
)  # fmt: skip
ITALY = Country(
    by_holidays("Italy"),
    [f"{HOLIDAYS}: Italy"],
    range(2001, 2035),
    {
        "Capodanno": "New Year's Day",
        "Epifania del Signore": "Epiphany",
        "Lunedì dell'Angelo": "Easter Monday",
        "Festa della Liberazione": "Liberation Day",
        "Festa dei Lavoratori": "Labour Day",
        "Festa della Repubblica": "Republic Day",
        "Assunzione della Vergine": "Assumption",
        "Tutti i Santi": "All Saints' Day",
        "Immacolata Concezione": "Immaculate Conception",
        "Natale": "Christmas Day",
        "Santo Stefano": "Saint Stephen",
    },
    left_out={"Pasqua di Resurrezione"},
    more=[f"{year}-10-04 Saint Francis" for year in range(2026, 2035)],
)
SPAIN = Country(
    by_workalendar("ES"),
    [f"{WORKALENDAR}: europe.Spain"],
    range(2000, 2030),
    {
        "New year": "New Year's Day",
        "Día del trabajador": "Labour Day",
        "Assumption of Mary to Heaven": "Assumption",
        "Fiesta nacional de España": "National Day",
        "All Saints Day": "All Saints' Day",
        "Día de la Constitución Española": "Constitution Day",
        **same("Epiphany", "Good Friday", "Immaculate Conception", "Christmas Day"),
    },
)
POLAND = Country(
    by_holidays("Poland"),
    [f"{HOLIDAYS}: Poland"],
    range(1991, 2030),
    {
        "Nowy Rok": "New Year's Day",
        "Święto Trzech Króli": "Epiphany",
        "Niedziela Wielkanocna": "Easter Sunday",
        "Poniedziałek Wielkanocny": "Easter Monday",
        "Święto Państwowe": "State Holiday",
        "Święto Narodowe Trzeciego Maja": "Constitution Day",
        "Zielone Świątki": "Pentecost",
        "Dzień Bożego Ciała": "Corpus Christi",
        "Wniebowzięcie Najświętszej Marii Panny": "Assumption",
        "Uroczystość Wszystkich świętych": "All Saints' Day",
        "Narodowe Święto Niepodległości": "Independence Day",
        "Boże Narodzenie (pierwszy dzień)": "Christmas Day",
        "Boże Narodzenie (drugi dzień)": "Second day of Christmas",
    },
    more=[f"{year}-12-24 Christmas Eve" for year in range(2025, 2030)],
)
GREECE = Country(
    by_workalendar("GR"),
    [f"{WORKALENDAR}: europe.Greece"],
    range(1990, 2035),
    {
        "New year": "New Year's Day",
        "Whit Monday": "Monday of the Holy Spirit",
        "Assumption of Mary to Heaven": "Dormition",
        "Glorifying Mother of God": "Second day of Christmas",
        **same("Epiphany", "Clean Monday", "Independence Day", "Good Friday", "Easter Monday", "Labour Day", "Ohi Day", "Christmas Day"),
    },
    left_out={"Annunciation", "Easter Sunday", "Pentecost"},
)
RUSSIA = Country(
    by_holidays("Russia"),
    [f"{HOLIDAYS}: Russia"],
    range(2013, 2030),
    {
        "Новый год": "New Year holidays",
        "Православное Рождество": "Christmas Day",
        "День защитника отечества": "Defender of the Fatherland Day",
        "День женщин": "Women's Day",
        "Праздник Весны и Труда": "Spring and Labour Day",
        "День Победы": "Victory Day",
        "День России": "Russia Day",
        "День народного единства": "Unity Day",
    },
)
UKRAINE = Country(
    by_holidays("Ukraine"),
    [f"{HOLIDAYS}: Ukraine"],
    range(1992, 2025),
    {
        "Новий рік": "New Year's Day",
        "Різдво Христове (православне)": "Orthodox Christmas",
        "Міжнародний жіночий день": "Women's Day",
        "Пасха (Великдень)": "Easter Sunday",
        "День міжнародної солідарності трудящих": "Labour Day",
        "День праці": "Labour Day",
        "День перемоги": "Victory Day",
        "Трійця": "Trinity Sunday",
        "День Конституції України": "Constitution Day",
        "День незалежності України": "Independence Day",
        "День захисника України": "Defenders' Day",
        "Різдво Христове (католицьке)": "Christmas Day",
    },
    left_out={"Річниця жовтневого перевороту", "Річниця Великої Жовтневої соціалістичної революції"},
    more=["2022-07-28 Statehood Day", "2023-07-28 Statehood Day", "2024-07-15 Statehood Day", "2024-05-08 Remembrance and Victory Day"],
    less=["2024-01-07 Orthodox Christmas", "2024-05-09 Victory Day"],
    moves=["2023-10-14 2023-10-01 Defenders' Day", "2024-10-14 2024-10-01 Defenders' Day"],
)
COUNTRIES = {
    "england-and-wales": ENGLAND,
    "scotland": SCOTLAND,
    "germany": GERMANY,
    **{f"germany-{book}": state(book, code) for book, code in STATES.items()},
    "france": FRANCE,
    "france-alsace-moselle": ALSACE_MOSELLE,
    "italy": ITALY,
    "spain": SPAIN,
    "poland": POLAND,
    "sweden": SWEDEN,
    "greece": GREECE,
    "russia": RUSSIA,
    "ukraine": UKRAINE,
}
