"""Which programs have the days of the books in `countries/`, under which names, and which days are otherwise by the law."""

from . import america, asia, europe, middle_east, oceania
from .programs import Country, Day

COUNTRIES = america.COUNTRIES | europe.COUNTRIES | middle_east.COUNTRIES | asia.COUNTRIES | oceania.COUNTRIES
__all__ = ["COUNTRIES", "Country", "Day"]
