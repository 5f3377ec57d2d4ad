"""Books of America: the programs that have their days, under which names, and days that are otherwise by the law."""

from workalendar.usa import FederalReserveSystem

from .programs import (
    HOLIDAYS,
    WORKALENDAR,
    Country,
    Day,
    both,
    by_holidays,
    by_workalendar,
    in_brackets,
    marked,
    moving,
    only,
    same,
    since,
    without,
)

US = {
    **same("New Year's Day", "Washington's Birthday", "Memorial Day", "Independence Day", "Labor Day", "Columbus Day", "Veterans Day"),
    **same("Christmas Day"),
    "Martin Luther King, Jr. Day": "Birthday of Martin Luther King, Jr.",
    "Thanksgiving": "Thanksgiving Day",
    "Juneteenth National Independence Day": "Juneteenth National Independence Day",
}
JUNETEENTH = ["Juneteenth National Independence Day", "Juneteenth National Independence Day (Observed)"]
UNITED_STATES = Country(
    both(by_holidays("UnitedStates"), only(lambda years: [day for year in years for day in FederalReserveSystem().holidays(year)], JUNETEENTH)),
    [f"{HOLIDAYS}: UnitedStates", f"{WORKALENDAR}: usa.FederalReserveSystem, Juneteenth"],
    range(1971, 2035),
    US,
    marked("(Observed)", US),
)
INAUGURATION = Country(
    only(by_holidays("UnitedStates", state="DC"), ["Inauguration Day", "Inauguration Day (Observed)"]),
    [f"{HOLIDAYS}: UnitedStates(state='DC')"],
    range(1961, 2034),
    same("Inauguration Day"),
    {"Inauguration Day (Observed)": "Inauguration Day"},
)
CANADA = Country(
    both(by_holidays("Canada", observed=False), only(by_holidays("Canada", prov="AB", observed=False), ["Remembrance Day"])),
    [f"{HOLIDAYS}: Canada(observed=False), and Remembrance Day of Canada(prov='AB')"],
    range(1983, 2030),
    {
        "Thanksgiving": "Thanksgiving Day",
        **same("New Year's Day", "Good Friday", "Victoria Day", "Canada Day", "Labour Day", "Remembrance Day", "Christmas Day", "Boxing Day"),
    },
    left_out={"Family Day", "Civic Holiday", "Dominion Day"},
    more=[f"{year}-09-30 National Day for Truth and Reconciliation" for year in range(2021, 2030)],
    moves=[f"{year}-07-01 {year}-07-02 Canada Day" for year in (1984, 1990, 2001, 2007, 2012, 2018, 2029)],
)
MEXICO = Country(
    both(
        by_workalendar("MX"),
        only(by_holidays("Mexico"), ["Transmisión del Poder Ejecutivo Federal [Change of Federal Government]"]),
    ),
    [f"{WORKALENDAR}: america.Mexico, without substitutes", f"{HOLIDAYS}: Mexico, change of government"],
    range(2006, 2030),
    {
        "New year": "New Year's Day",
        "Benito Juárez's birthday": "Benito Juarez's Birthday",
        "Transmisión del Poder Ejecutivo Federal [Change of Federal Government]": "Change of the federal government",
        **same("Constitution Day", "Labour Day", "Independence Day", "Revolution Day", "Christmas Day"),
    },
    left_out={f"{name} substitute" for name in ("New year", "New Year Day", "Labour Day", "Independence Day", "Christmas Day")},
    moves=["2024-12-01 2024-10-01 Change of the federal government"],
)
BRAZIL = Country(
    by_workalendar("BR"),
    [f"{WORKALENDAR}: america.Brazil"],
    range(2003, 2030),
    {
        "New year": "New Year's Day",
        "Tiradentes' Day": "Tiradentes",
        **same("Labour Day", "Independence Day", "Our Lady of Aparecida", "All Souls' Day", "Republic Day", "Christmas Day"),
    },
    left_out={"Easter Sunday"},
    more=[f"{year}-11-20 Zumbi and Black Awareness Day" for year in range(2024, 2030)],
)
ARGENTINE = {
    "New Year's Day": "New Year's Day",
    "Carnival's Day": "Carnival",
    "Memory's National Day for the Truth and Justice": "Day of Memory for Truth and Justice",
    "Veterans Day and the Fallen in the Malvinas War": "Malvinas Day",
    "Holy day (Holy Friday)": "Good Friday",
    "Labour Day": "Labour Day",
    "May Revolution Day": "May Revolution Day",
    "Day Pass to the Immortality of General Martín Miguel de Güemes": "Guemes Day",
    "Day Pass to the Immortality of General D. Manuel Belgrano": "Flag Day",
    "Independence Day": "Independence Day",
    "Day Pass to the Immortality of General D. José de San Martin": "San Martin Day",
    "Respect for Cultural Diversity Day": "Day of Respect for Cultural Diversity",
    "National Sovereignty Day": "National Sovereignty Day",
    "Immaculate Conception": "Immaculate Conception",
    "Christmas": "Christmas Day",
}
MONDAYS_OF_OCTOBER = ["2011-10-10", "2012-10-08", "2013-10-14", "2014-10-13", "2016-10-10"]
DAYS_OF_NOVEMBER = ["2011-11-28", "2012-11-26", "2013-11-25", "2014-11-24", "2015-11-27", "2016-11-28"]
ARGENTINA = Country(
    moving(
        in_brackets(by_holidays("Argentina")),
        {name for name, book in ARGENTINE.items() if "Immortality of General Mart" in name or book[:3] in ("San", "Nat") or "Respect" in name},
        {1: -1, 2: -2, 3: 4, 4: 3},
        2017,
    ),
    [f"{HOLIDAYS}: Argentina, with days moved by article 6 of law 27399 since 2017"],
    range(2011, 2025),
    ARGENTINE,
    left_out={"Holy day (Holy Thursday)", "Easter Day"},
    less=[f"{year}-06-17 Guemes Day" for year in range(2011, 2016)],
    moves=[
        *("2011-08-17 2011-08-15 San Martin Day", "2012-08-17 2012-08-20 San Martin Day", "2013-08-17 2013-08-19 San Martin Day"),
        *("2014-08-17 2014-08-18 San Martin Day", "2016-08-17 2016-08-15 San Martin Day"),
        *(f"{day[:4]}-10-12 {day} Day of Respect for Cultural Diversity" for day in MONDAYS_OF_OCTOBER),
        *(f"{day[:4]}-11-20 {day} National Sovereignty Day" for day in DAYS_OF_NOVEMBER),
        *("2020-04-02 2020-03-31 Malvinas Day", "2022-06-20 2022-06-17 Guemes Day"),
    ],
)
COUNTRIES = {
    "united-states": UNITED_STATES,
    "united-states-inauguration": INAUGURATION,
    "canada": CANADA,
    "mexico": MEXICO,
    "brazil": BRAZIL,
    "argentina": ARGENTINA,
}
