/* The calls with the types of PostgreSQL: dates count from 2000-01-01 there, and day numbers from 0001-01-01. */
#include "pgcal.h"

/* The day number of 2000-01-01. */
#define DAY_OF_2000 INT64CONST(730120)

static const uint8_t NOTHING[1] = {0};

pgcal_chosen pgcal_chosen_of(Datum calendar, Datum is_published) {
    uint8_t years = DatumGetBool(is_published) ? ICU_CALENDAR_PUBLISHED : ICU_CALENDAR_COMPUTED;
    return (pgcal_chosen){(uint8_t)DatumGetChar(calendar), years};
}

/* Returns the day number of a date. It may be past the last one that calls take. */
int64_t pgcal_day_of(DateADT date) {
    if (DATE_NOT_FINITE(date)) {
        ereport(ERROR, (errcode(ERRCODE_DATETIME_VALUE_OUT_OF_RANGE), errmsg("an infinite date has no place in a calendar"),
                        errdetail("Cause: Infinity."), errhint("isfinite(date) tells such dates apart.")));
    }
    return (int64_t)date + DAY_OF_2000;
}

/* Returns the date of a valid day number. */
DateADT pgcal_date_of(int64_t day) {
    DateADT date = (DateADT)(day - DAY_OF_2000);
    if (!IS_VALID_DATE(date)) {
        ereport(ERROR, (errcode(ERRCODE_DATETIME_VALUE_OUT_OF_RANGE), errmsg("date out of range"), errdetail("Cause: Overflow."),
                        errhint("The first date of the type date is 4714-11-24 BC.")));
    }
    return date;
}

/* Returns the shape of the result, which is found at the first call of a statement and kept with it. */
TupleDesc pgcal_kept_shape(FunctionCallInfo fcinfo) {
    FmgrInfo *info = fcinfo->flinfo;
    if (info->fn_extra == NULL) {
        TupleDesc found;
        if (get_call_result_type(fcinfo, NULL, &found) != TYPEFUNC_COMPOSITE) {
            elog(ERROR, "icu_calendar: the result has no columns");
        }
        MemoryContext before = MemoryContextSwitchTo(info->fn_mcxt);
        info->fn_extra = BlessTupleDesc(CreateTupleDescCopy(found));
        MemoryContextSwitchTo(before);
    }
    return (TupleDesc)info->fn_extra;
}

/* Returns the window of two dates. */
pgcal_window pgcal_window_of(DateADT first, DateADT last) {
    pgcal_window window = {pgcal_day_of(first), pgcal_day_of(last)};
    if (window.first > window.last) {
        pgcal_refuse_argument("InvalidWindow", "the first date is after the last", "Give the earlier date first.");
    }
    return window;
}

/* Shows a day in a calendar. */
void pgcal_show(pgcal_chosen chosen, int64_t day, icu_calendar_date *date) {
    uint8_t code = icu_calendar_date_of_day(chosen.calendar, chosen.years, day, date);
    if (unlikely(code)) {
        pgcal_refuse(chosen, code, 0);
    }
}

/* Creates a date from fields, and returns the code of the call. */
uint8_t pgcal_name(pgcal_chosen chosen, const pgcal_bag *bag, uint8_t overflow, uint8_t missing, icu_calendar_date *date, uint8_t *max) {
    pgcal_bytes era = bag->era, month = bag->month_code;
    *max = 0;
    return icu_calendar_date_of_fields(chosen.calendar, chosen.years, &bag->fields, era.bytes ? era.bytes : NOTHING, era.bytes ? era.len : 0,
                                       month.bytes ? month.bytes : NOTHING, month.bytes ? month.len : 0, overflow, missing, date, max);
}

/* Finds a day of a month in a year, and returns whether it is there. */
bool pgcal_day_in_year(pgcal_chosen chosen, int32_t year, pgcal_month month, int day, uint8_t overflow, icu_calendar_date *date) {
    pgcal_bag bag = {.fields = {.has_extended_year = 1,
                                .extended_year = year,
                                .has_month = 1,
                                .month_number = month.number,
                                .month_is_leap = month.is_leap,
                                .has_day = 1,
                                .day = (uint8_t)day}};
    uint8_t max;
    return pgcal_name(chosen, &bag, overflow, ICU_CALENDAR_MISSING_REJECT, date, &max) == ICU_CALENDAR_DONE;
}

/* Returns the month of a code that some year of the calendar has. */
pgcal_month pgcal_month_of(pgcal_chosen chosen, pgcal_bytes code) {
    pgcal_bag bag = {.fields = {.has_extended_year = 1, .extended_year = 1, .has_day = 1, .day = 1}, .month_code = code};
    icu_calendar_date date;
    uint8_t max;
    uint8_t refused = pgcal_name(chosen, &bag, ICU_CALENDAR_REJECT, ICU_CALENDAR_MISSING_REJECT, &date, &max);
    if (code.len == 0) {
        refused = ICU_CALENDAR_MONTH_CODE_SYNTAX;
    }
    if (refused && refused != ICU_CALENDAR_MONTH_NOT_IN_YEAR) {
        pgcal_refuse(chosen, refused, 0);
    }
    /* The code is M, two digits, and L for a leap month. */
    return (pgcal_month){(uint8_t)(10 * (code.bytes[1] - '0') + code.bytes[2] - '0'), code.len == 4};
}

/* Returns the greatest valid number of a month or a day, from asking for one that doesn't exist. */
static uint8_t greatest(pgcal_chosen chosen, int32_t year, uint8_t ordinal_month, uint8_t day) {
    pgcal_bag bag = {
        .fields = {.has_extended_year = 1, .extended_year = year, .has_ordinal_month = 1, .ordinal_month = ordinal_month, .has_day = 1, .day = day}};
    icu_calendar_date date;
    uint8_t max;
    uint8_t code = pgcal_name(chosen, &bag, ICU_CALENDAR_REJECT, ICU_CALENDAR_MISSING_REJECT, &date, &max);
    if (code != ICU_CALENDAR_INVALID_DAY && code != ICU_CALENDAR_INVALID_ORDINAL_MONTH) {
        elog(ERROR, "icu_calendar: a call returned the code %u", code);
    }
    return max;
}

uint8_t pgcal_days_in_month(pgcal_chosen chosen, int32_t year, uint8_t ordinal_month) {
    return greatest(chosen, year, ordinal_month, PGCAL_NOWHERE);
}

uint8_t pgcal_months_in_year(pgcal_chosen chosen, int32_t year) {
    return greatest(chosen, year, PGCAL_NOWHERE, 1);
}
