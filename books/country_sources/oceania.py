"""Books of Australia and New Zealand: the programs that have their days, under which names, and days that are otherwise by the law."""

from dateutil.easter import easter

from .programs import HOLIDAYS, Country, Day, by_holidays, marked, same

MATARIKI = ["2022-06-24", "2023-07-14", "2024-06-28", "2025-06-20", "2026-07-10", "2027-06-25", "2028-07-14", "2029-07-06"]
OF_NEW_ZEALAND = {
    "Queen's Birthday": "Sovereign's Birthday",
    **same("New Year's Day", "Day after New Year's Day", "Waitangi Day", "Good Friday", "Easter Monday", "Anzac Day", "Labour Day"),
    **same("Christmas Day", "Boxing Day"),
}
NEW_ZEALAND = Country(
    by_holidays("NewZealand"),
    [f"{HOLIDAYS}: NewZealand"],
    range(2000, 2030),
    OF_NEW_ZEALAND,
    marked("(Observed)", OF_NEW_ZEALAND),
    more=[*(f"{day} Matariki" for day in MATARIKI), "2022-09-26 Memorial Day for Elizabeth II"],
)
OF_AUSTRALIA = {
    "Queen's Birthday": "Sovereign's Birthday",
    "Family & Community Day": "Family and Community Day",
    "Foundation Day": "Western Australia Day",
    **same("New Year's Day", "Australia Day", "Canberra Day", "Good Friday", "Easter Saturday", "Easter Sunday", "Easter Monday", "Anzac Day"),
    **same("Labour Day", "Christmas Day", "Boxing Day", "Reconciliation Day", "May Day", "Picnic Day", "Adelaide Cup", "Proclamation Day"),
    **same("Eight Hours Day", "Melbourne Cup", "Western Australia Day"),
}
STATES_OF_AUSTRALIA = {
    "australian-capital-territory": "ACT", "new-south-wales": "NSW", "northern-territory": "NT", "queensland": "QLD",
    "south-australia": "SA", "tasmania": "TAS", "victoria": "VIC", "western-australia": "WA",
}  # fmt: skip
# The first years in which Easter Sunday is a holiday, and whether the program has it as one in all years.
EASTER_SUNDAY = {"ACT": (2016, True), "NT": (2023, False), "QLD": (2017, True), "SA": (2024, False), "VIC": (2016, True), "WA": (2022, False)}
ANZAC_MOVES = {
    "ACT": ["2015-04-25 2015-04-27 Anzac Day", "2020-04-25 2020-04-27 Anzac Day"],
    "NT": ["2015-04-27 2015-04-25 Anzac Day", "2020-04-27 2020-04-25 Anzac Day"],
}


def australian(code: str) -> Country:
    years = range(2013, 2025)
    first, has_all = EASTER_SUNDAY.get(code, (years.stop, False))
    easter_sundays = {year: f"{easter(year)} Easter Sunday" for year in years}
    left_out = {"Bank Holiday", "The Royal Queensland Show", "Queen's Diamond Jubilee", "Grand Final Day"}
    if code == "WA":
        left_out.add("Queen's Birthday")
    names = {name: book for name, book in OF_AUSTRALIA.items() if name not in left_out}
    return Country(
        by_holidays("Australia", prov=code), [f"{HOLIDAYS}: Australia(prov='{code}')"], years, names, marked("(Observed)", names), left_out,
        more=["2022-09-22 National Day of Mourning", *([] if has_all else [easter_sundays[it] for it in years if it >= first])],
        less=[easter_sundays[it] for it in years if it < first] if has_all else [],
        moves=ANZAC_MOVES.get(code, []),
    )  # fmt: skip


COUNTRIES = {
    **{f"australia-{book}": australian(code) for book, code in STATES_OF_AUSTRALIA.items()},
    "new-zealand": NEW_ZEALAND,
}
