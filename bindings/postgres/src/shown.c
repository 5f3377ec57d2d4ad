/* A date shown in a calendar: its parts, one part, a text, and the key of its anniversaries. */
#include "pgcal.h"

#include "access/htup_details.h"

/* The longest era has 16 bytes. */
#define ERA_ROOM 16
/* M, two digits and L. */
#define MONTH_CODE_ROOM 8

PG_FUNCTION_INFO_V1(pgcal_parts);
PG_FUNCTION_INFO_V1(pgcal_part);
PG_FUNCTION_INFO_V1(pgcal_era);
PG_FUNCTION_INFO_V1(pgcal_month_code);
PG_FUNCTION_INFO_V1(pgcal_text);
PG_FUNCTION_INFO_V1(pgcal_anniversary_key);

enum {
    PART_YEAR,
    PART_ERA_YEAR,
    PART_CYCLIC_YEAR,
    PART_MONTH,
    PART_DAY,
    PART_DAY_OF_YEAR,
    PART_DAYS_IN_MONTH,
    PART_DAYS_IN_YEAR,
    PART_MONTHS_IN_YEAR
};

static const pgcal_word PARTS[] = {
    {"year", PART_YEAR},
    {"month", PART_MONTH},
    {"day", PART_DAY},
    {"era_year", PART_ERA_YEAR},
    {"cyclic_year", PART_CYCLIC_YEAR},
    {"day_of_year", PART_DAY_OF_YEAR},
    {"doy", PART_DAY_OF_YEAR},
    {"days_in_month", PART_DAYS_IN_MONTH},
    {"days_in_year", PART_DAYS_IN_YEAR},
    {"months_in_year", PART_MONTHS_IN_YEAR},
};
static const pgcal_words ALL_PARTS = {
    PARTS, lengthof(PARTS), "part",
    "Use 'year', 'month', 'day', 'era_year', 'cyclic_year', 'day_of_year', 'days_in_month', 'days_in_year' or 'months_in_year'."};

/* Writes the code of the era of a day, and a 0 behind it. It is empty for a year of the cycle of sixty. */
static void write_era(pgcal_chosen chosen, int64_t day, char era[ERA_ROOM + 1]) {
    size_t written = 0;
    uint8_t code = icu_calendar_era_of_day(chosen.calendar, chosen.years, day, (uint8_t *)era, ERA_ROOM, &written);
    if (code || written > ERA_ROOM) {
        elog(ERROR, "icu_calendar: a call returned the code %u", code);
    }
    era[written] = 0;
}

static void write_month_code(const icu_calendar_date *date, char code[MONTH_CODE_ROOM]) {
    snprintf(code, MONTH_CODE_ROOM, "M%02u%s", date->month_number, date->month_is_leap ? "L" : "");
}

/* Returns the days of the months of a year before one of them. */
static int days_before(pgcal_chosen chosen, int32_t year, uint8_t ordinal_month) {
    int days = 0;
    for (uint8_t month = 1; month < ordinal_month; month++) {
        days += pgcal_days_in_month(chosen, year, month);
    }
    return days;
}

/* Returns a part of a date, but for a year of the cycle. */
static int part_of(pgcal_chosen chosen, const icu_calendar_date *date, uint8_t part) {
    switch (part) {
    case PART_YEAR:
        return date->extended_year;
    case PART_ERA_YEAR:
        return date->era_year;
    case PART_MONTH:
        return date->ordinal_month;
    case PART_DAY:
        return date->day;
    case PART_DAY_OF_YEAR:
        return days_before(chosen, date->extended_year, date->ordinal_month) + date->day;
    case PART_DAYS_IN_MONTH:
        return pgcal_days_in_month(chosen, date->extended_year, date->ordinal_month);
    case PART_DAYS_IN_YEAR:
        return days_before(chosen, date->extended_year, pgcal_months_in_year(chosen, date->extended_year) + 1);
    default:
        return pgcal_months_in_year(chosen, date->extended_year);
    }
}

/* calendar_part(part, calendar, d, published) */
Datum pgcal_part(PG_FUNCTION_ARGS) {
    uint8_t part = pgcal_code_of(PG_GETARG_TEXT_PP(0), &ALL_PARTS);
    pgcal_chosen chosen = pgcal_chosen_of(PG_GETARG_DATUM(1), PG_GETARG_DATUM(3));
    icu_calendar_date date;
    pgcal_show(chosen, pgcal_day_of(PG_GETARG_DATEADT(2)), &date);
    if (part == PART_CYCLIC_YEAR && date.cyclic_year == 0) {
        PG_RETURN_NULL();
    }
    if (part == PART_ERA_YEAR && date.cyclic_year != 0) {
        PG_RETURN_NULL();
    }
    PG_RETURN_INT32(part == PART_CYCLIC_YEAR ? date.cyclic_year : part_of(chosen, &date, part));
}

/* calendar_parts(calendar, d, published) */
Datum pgcal_parts(PG_FUNCTION_ARGS) {
    pgcal_chosen chosen = pgcal_chosen_of(PG_GETARG_DATUM(0), PG_GETARG_DATUM(2));
    int64_t day = pgcal_day_of(PG_GETARG_DATEADT(1));
    icu_calendar_date date;
    pgcal_show(chosen, day, &date);
    char era[ERA_ROOM + 1], code[MONTH_CODE_ROOM];
    write_era(chosen, day, era);
    write_month_code(&date, code);
    bool is_cyclic = date.cyclic_year != 0;
    Datum values[7] = {is_cyclic ? (Datum)0 : CStringGetTextDatum(era), Int32GetDatum(date.era_year),      Int32GetDatum(date.extended_year),
                       Int32GetDatum(date.cyclic_year),                 CStringGetTextDatum(code),         Int32GetDatum(date.ordinal_month),
                       Int32GetDatum(date.day)};
    bool nulls[7] = {is_cyclic, is_cyclic, false, !is_cyclic, false, false, false};
    PG_RETURN_DATUM(HeapTupleGetDatum(heap_form_tuple(pgcal_kept_shape(fcinfo), values, nulls)));
}

/* calendar_era(calendar, d, published) */
Datum pgcal_era(PG_FUNCTION_ARGS) {
    pgcal_chosen chosen = pgcal_chosen_of(PG_GETARG_DATUM(0), PG_GETARG_DATUM(2));
    int64_t day = pgcal_day_of(PG_GETARG_DATEADT(1));
    icu_calendar_date date;
    char era[ERA_ROOM + 1];
    pgcal_show(chosen, day, &date);
    if (date.cyclic_year != 0) {
        PG_RETURN_NULL();
    }
    write_era(chosen, day, era);
    PG_RETURN_TEXT_P(cstring_to_text(era));
}

/* calendar_month_code(calendar, d, published) */
Datum pgcal_month_code(PG_FUNCTION_ARGS) {
    pgcal_chosen chosen = pgcal_chosen_of(PG_GETARG_DATUM(0), PG_GETARG_DATUM(2));
    icu_calendar_date date;
    char code[MONTH_CODE_ROOM];
    pgcal_show(chosen, pgcal_day_of(PG_GETARG_DATEADT(1)), &date);
    write_month_code(&date, code);
    PG_RETURN_TEXT_P(cstring_to_text(code));
}

/* calendar_text(calendar, d, published): in the form of the program's command `convert`. */
Datum pgcal_text(PG_FUNCTION_ARGS) {
    pgcal_chosen chosen = pgcal_chosen_of(PG_GETARG_DATUM(0), PG_GETARG_DATUM(2));
    int64_t day = pgcal_day_of(PG_GETARG_DATEADT(1));
    icu_calendar_date date;
    pgcal_show(chosen, day, &date);
    char era[ERA_ROOM + 1], code[MONTH_CODE_ROOM], shown[64];
    write_month_code(&date, code);
    if (date.cyclic_year != 0 || chosen.calendar == ICU_CALENDAR_ISO) {
        snprintf(shown, sizeof shown, "%d-%s-%02u", date.extended_year, code, date.day);
    } else {
        write_era(chosen, day, era);
        snprintf(shown, sizeof shown, "%s %d-%s-%02u", era, date.era_year, code, date.day);
    }
    PG_RETURN_TEXT_P(cstring_to_text(shown));
}

/* calendar_anniversary_key(calendar, born, published): the month's number, whether it is a leap month, and two digits of the day. */
Datum pgcal_anniversary_key(PG_FUNCTION_ARGS) {
    pgcal_chosen chosen = pgcal_chosen_of(PG_GETARG_DATUM(0), PG_GETARG_DATUM(2));
    icu_calendar_date date;
    pgcal_show(chosen, pgcal_day_of(PG_GETARG_DATEADT(1)), &date);
    PG_RETURN_INT32(1000 * date.month_number + 100 * date.month_is_leap + date.day);
}
