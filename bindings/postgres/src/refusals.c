/* Errors: each has an SQLSTATE of class 22 and, in its detail, the cause as docs/MANUAL.md names it. */
#include "pgcal.h"

/* An error of a call: its code, its SQLSTATE, its cause, its message, and a hint if a caller can act. */
typedef struct {
    uint8_t code;
    int state;
    const char *cause;
    const char *message;
    const char *hint;
} refusal;

static const refusal REFUSALS[] = {
    {ICU_CALENDAR_INVALID_DAY_NUMBER, ERRCODE_DATETIME_VALUE_OUT_OF_RANGE, "Overflow", "date out of range",
     "Dates up to 999999-12-31 can be shown in a calendar."},
    {ICU_CALENDAR_NOT_ENOUGH_FIELDS, ERRCODE_INVALID_PARAMETER_VALUE, "NotEnoughFields", "a field is missing",
     "Give a year, or an era and its year; a month; and a day."},
    {ICU_CALENDAR_TOO_MANY_FIELDS, ERRCODE_INVALID_PARAMETER_VALUE, "TooManyFields", "the month is given twice", NULL},
    {ICU_CALENDAR_OUT_OF_RANGE, ERRCODE_DATETIME_VALUE_OUT_OF_RANGE, "Overflow", "year, duration or date out of range",
     "Dates go from -999999-01-01 to 999999-12-31 in the ISO calendar."},
    {ICU_CALENDAR_INVALID_ERA, ERRCODE_INVALID_PARAMETER_VALUE, "InvalidEra", "no year is in the era",
     "The column eras of the table calendars has the eras."},
    {ICU_CALENDAR_INCONSISTENT_YEAR, ERRCODE_INVALID_PARAMETER_VALUE, "InconsistentYear", "the year is not the year of the era",
     "Leave out the year, or the era and its year."},
    {ICU_CALENDAR_MONTH_CODE_SYNTAX, ERRCODE_INVALID_DATETIME_FORMAT, "MonthCodeInvalidSyntax", "invalid month code",
     "A month code is M and two digits, with an L for a leap month, such as M05L."},
    {ICU_CALENDAR_MONTH_NOT_IN_CALENDAR, ERRCODE_DATETIME_VALUE_OUT_OF_RANGE, "MonthNotInCalendar", "no year has the month",
     "The column months of the table calendars has the months."},
    {ICU_CALENDAR_MONTH_NOT_IN_YEAR, ERRCODE_DATETIME_VALUE_OUT_OF_RANGE, "MonthNotInYear", "the leap month does not occur in the year",
     "'constrain' uses the month that stands in for it."},
    {ICU_CALENDAR_INCONSISTENT_MONTH, ERRCODE_INVALID_PARAMETER_VALUE, "InconsistentMonth", "the month is not the place of the month code",
     "Leave out one of the two."},
    {ICU_CALENDAR_INVALID_ORDINAL_MONTH, ERRCODE_DATETIME_VALUE_OUT_OF_RANGE, "InvalidOrdinalMonth", "month out of range",
     "'constrain' uses the nearest month."},
    {ICU_CALENDAR_INVALID_DAY, ERRCODE_DATETIME_VALUE_OUT_OF_RANGE, "InvalidDay", "day of month out of range",
     "'constrain' uses the nearest day."},
};

static const refusal *refusal_of(uint8_t code) {
    for (size_t place = 0; place < lengthof(REFUSALS); place++) {
        if (REFUSALS[place].code == code) {
            return &REFUSALS[place];
        }
    }
    /* The arguments exclude the other codes. */
    elog(ERROR, "icu_calendar: a call returned the code %u", code);
}

/* Raises the error of a code that a call returned. `max` is the greatest valid number, or 0 if there is none. */
void pgcal_refuse(pgcal_chosen chosen, uint8_t code, uint8_t max) {
    const refusal *it = refusal_of(code);
    ereport(ERROR, (errcode(it->state), errmsg("calendar %s: %s", pgcal_name_of(chosen.calendar), it->message),
                    max ? errdetail("Cause: %s %u.", it->cause, max) : errdetail("Cause: %s.", it->cause), it->hint ? errhint("%s", it->hint) : 0));
}

/* Raises the error of an argument that is refused before any call. */
void pgcal_refuse_argument(const char *cause, const char *message, const char *hint) {
    ereport(ERROR, (errcode(ERRCODE_INVALID_PARAMETER_VALUE), errmsg("%s", message), errdetail("Cause: %s.", cause), hint ? errhint("%s", hint) : 0));
}
