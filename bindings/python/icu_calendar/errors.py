"""The errors of the calls. Each says what was given and what would do."""

from typing import ClassVar


class CalendarError(ValueError):
    """A call on dates failed. `code` is the header's code, and `max` the greatest valid number, or 0 if the error has none."""

    code: ClassVar[int] = 0
    # What would do; `{max}` stands for the greatest valid number.
    advice: ClassVar[str] = ""

    def __init__(self, limit: int = 0, given: str = "", advice: str = ""):
        self.max = limit
        self.given = given
        sentences = [type(self).__doc__ or "", (advice or self.advice).format(max=limit), f"Given: {given}." if given else ""]
        super().__init__(" ".join(it for it in sentences if it))


class UnknownCalendar(CalendarError):
    """No calendar has the name or code."""

    code = 1
    advice = "A member of Calendar or its name, such as 'hebrew', would do."


class UnknownYears(CalendarError):
    """The code stands for neither computed nor published years."""

    code = 2
    advice = "Years.PUBLISHED or Years.COMPUTED would do."


class UnknownOption(CalendarError):
    """No option has the code."""

    code = 3
    advice = "A member of Overflow, Missing or Unit would do."


class InvalidDayNumber(CalendarError):
    """The day number isn't from -365242499 to 365242134."""

    code = 4


class LengthsDiffer(CalendarError):
    """The columns don't have the same length."""

    code = 9


class NotEnoughFields(CalendarError):
    """A field that the date needs is missing."""

    code = 10
    advice = "A year or an era with its era_year, a month, month_code or ordinal_month, and a day would do, or missing=Missing.ECMA."


class TooManyFields(CalendarError):
    """Both a month and a month code are given."""

    code = 11
    advice = "One of them would do."


class OutOfRange(CalendarError):
    """A year, a duration or a date is out of range."""

    code = 12
    advice = "Dates from -999999-01-01 to 999999-12-31 in the ISO calendar would do."


class InvalidEra(CalendarError):
    """The calendar doesn't have the era."""

    code = 13
    advice = "An era of Calendar.eras, or a year without an era, would do."


class InconsistentYear(CalendarError):
    """The era year and the extended year differ."""

    code = 14
    advice = "One of them would do."


class MonthCodeSyntax(CalendarError):
    """The month code isn't `M`, two digits and an optional `L`."""

    code = 15
    advice = "A code such as M05 or M05L would do."


class MonthNotInCalendar(CalendarError):
    """No year of the calendar has the month."""

    code = 16


class MonthNotInYear(CalendarError):
    """This year doesn't have the month."""

    code = 17
    advice = "With overflow=Overflow.CONSTRAIN the month that stands in for it is taken."


class InconsistentMonth(CalendarError):
    """The month and the ordinal month differ."""

    code = 18
    advice = "One of them would do."


class InvalidOrdinalMonth(CalendarError):
    """The year doesn't have this ordinal month."""

    code = 19
    advice = "1 to {max} would do."


class InvalidDay(CalendarError):
    """The month doesn't have the day."""

    code = 20
    advice = "1 to {max} would do. With overflow=Overflow.CONSTRAIN the nearest day is taken."


BY_CODE: dict[int, type[CalendarError]] = {it.code: it for it in CalendarError.__subclasses__()}


class InvalidText(CalendarError):
    """The text isn't a date of RFC 9557."""

    advice = "A text such as 2024-03-01, +012024-03-01 or 2024-03-01[u-ca=hebrew] would do."


# What is wrong with a recurrence rule, by the program's names.
RULE_CAUSES = {
    "BadPart": "A part isn't NAME=VALUE.",
    "UnknownPart": "A part has a name that neither RFC 5545 nor RFC 7529 has.",
    "RepeatedPart": "A part comes twice.",
    "TimeNotSupported": "A part is about times of the day.",
    "BadValue": "A value doesn't have the form of its part.",
    "ValueOutOfRange": "A value isn't in the range of its part, or the calendar doesn't have the month.",
    "UnknownCalendar": "No calendar has the name in RSCALE.",
    "MismatchedCalendar": "RSCALE names another calendar than that of the list.",
    "MissingPart": "A part is missing.",
    "CountWithUntil": "COUNT and UNTIL exclude each other.",
    "PartNotAllowed": "The frequency doesn't allow a part.",
    "OrdinalNotAllowed": "A number in BYDAY needs FREQ=YEARLY or MONTHLY, without BYWEEKNO.",
    "SetPosAlone": "BYSETPOS needs another BY-part.",
}


class RuleError(CalendarError):
    """The text isn't a recurrence rule of the calendar."""

    def __init__(self, cause: str, part: str | None = None, given: str = ""):
        super().__init__(given=given, advice=f"{RULE_CAUSES[cause]} ({' '.join(it for it in (cause, part) if it)})")
        # The program's name of the error, and the name of the part that it is about, such as BYDAY, or None.
        self.cause, self.part = cause, part


def settle(code: int, limit: int = 0, given: str = "") -> None:
    """Raises the error of a code, unless the code is 0."""
    if code:
        raise BY_CODE[code](limit, given)


class ProgramError(ValueError):
    """The words are no command, or the input is too long. `status` is the program's exit status, and `output` what it wrote."""

    def __init__(self, why: str, status: int, output: bytes):
        super().__init__(why)
        self.status, self.output = status, output


class Refused(ProgramError):
    """The program rejected its arguments or input. The last line of `output` says why."""
