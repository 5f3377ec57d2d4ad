/* Dates from fields. */
#include "pgcal.h"

#include "access/htup_details.h"
#include "utils/typcache.h"

PG_FUNCTION_INFO_V1(pgcal_date);
PG_FUNCTION_INFO_V1(pgcal_date_ordinal);
PG_FUNCTION_INFO_V1(pgcal_date_era);
PG_FUNCTION_INFO_V1(pgcal_date_era_ordinal);
PG_FUNCTION_INFO_V1(pgcal_date_parts);

/* Returns a number of a month or a day in a byte. No month and no day is above 254 or below 1, so the ends stand for all beyond. */
static uint8_t in_byte(int32_t number) {
    return (uint8_t)Min(Max(number, 0), PGCAL_NOWHERE);
}

/* Returns the bytes of a code. An empty one would count as not given, and a space is in no code. */
static pgcal_bytes given_code(const text *code) {
    pgcal_bytes bytes = pgcal_bytes_of(code);
    return bytes.len ? bytes : pgcal_bytes_of_word(" ");
}

static void set_year(pgcal_bag *bag, int32_t year) {
    bag->fields.has_extended_year = 1;
    bag->fields.extended_year = year;
}

static void set_era_year(pgcal_bag *bag, int32_t year) {
    bag->fields.has_era_year = 1;
    bag->fields.era_year = year;
}

static void set_month(pgcal_bag *bag, int32_t month) {
    bag->fields.has_ordinal_month = 1;
    bag->fields.ordinal_month = in_byte(month);
}

static void set_day(pgcal_bag *bag, int32_t day) {
    bag->fields.has_day = 1;
    bag->fields.day = in_byte(day);
}

static Datum date_of(pgcal_chosen chosen, const pgcal_bag *bag, const text *overflow, uint8_t missing) {
    icu_calendar_date date;
    uint8_t max;
    uint8_t code = pgcal_name(chosen, bag, pgcal_code_of(overflow, &pgcal_overflows), missing, &date, &max);
    if (unlikely(code)) {
        pgcal_refuse(chosen, code, max);
    }
    return DateADTGetDatum(pgcal_date_of(date.day_number));
}

/* calendar_date(calendar, year, month_code, day, overflow, published) */
Datum pgcal_date(PG_FUNCTION_ARGS) {
    pgcal_bag bag = {.month_code = given_code(PG_GETARG_TEXT_PP(2))};
    set_year(&bag, PG_GETARG_INT32(1));
    set_day(&bag, PG_GETARG_INT32(3));
    return date_of(pgcal_chosen_of(PG_GETARG_DATUM(0), PG_GETARG_DATUM(5)), &bag, PG_GETARG_TEXT_PP(4), ICU_CALENDAR_MISSING_REJECT);
}

/* calendar_date(calendar, year, month, day, overflow, published) */
Datum pgcal_date_ordinal(PG_FUNCTION_ARGS) {
    pgcal_bag bag = {0};
    set_year(&bag, PG_GETARG_INT32(1));
    set_month(&bag, PG_GETARG_INT32(2));
    set_day(&bag, PG_GETARG_INT32(3));
    return date_of(pgcal_chosen_of(PG_GETARG_DATUM(0), PG_GETARG_DATUM(5)), &bag, PG_GETARG_TEXT_PP(4), ICU_CALENDAR_MISSING_REJECT);
}

/* calendar_date(calendar, era, era_year, month_code, day, overflow, published) */
Datum pgcal_date_era(PG_FUNCTION_ARGS) {
    pgcal_bag bag = {.era = given_code(PG_GETARG_TEXT_PP(1)), .month_code = given_code(PG_GETARG_TEXT_PP(3))};
    set_era_year(&bag, PG_GETARG_INT32(2));
    set_day(&bag, PG_GETARG_INT32(4));
    return date_of(pgcal_chosen_of(PG_GETARG_DATUM(0), PG_GETARG_DATUM(6)), &bag, PG_GETARG_TEXT_PP(5), ICU_CALENDAR_MISSING_REJECT);
}

/* calendar_date(calendar, era, era_year, month, day, overflow, published) */
Datum pgcal_date_era_ordinal(PG_FUNCTION_ARGS) {
    pgcal_bag bag = {.era = given_code(PG_GETARG_TEXT_PP(1))};
    set_era_year(&bag, PG_GETARG_INT32(2));
    set_month(&bag, PG_GETARG_INT32(3));
    set_day(&bag, PG_GETARG_INT32(4));
    return date_of(pgcal_chosen_of(PG_GETARG_DATUM(0), PG_GETARG_DATUM(6)), &bag, PG_GETARG_TEXT_PP(5), ICU_CALENDAR_MISSING_REJECT);
}

/* Reads the fields of a `calendar_parts`. A null counts as not given, and the year of the cycle is not read. */
static void read_parts(HeapTupleHeader row, pgcal_bag *bag) {
    TupleDesc shape = lookup_rowtype_tupdesc(HeapTupleHeaderGetTypeId(row), HeapTupleHeaderGetTypMod(row));
    HeapTupleData tuple = {.t_len = HeapTupleHeaderGetDatumLength(row), .t_data = row};
    Datum values[7];
    bool nulls[7];
    if (shape->natts != lengthof(values)) {
        elog(ERROR, "icu_calendar: calendar_parts has %d columns", shape->natts);
    }
    heap_deform_tuple(&tuple, shape, values, nulls);
    ReleaseTupleDesc(shape);
    if (!nulls[0]) {
        bag->era = given_code(DatumGetTextPP(values[0]));
    }
    if (!nulls[1]) {
        set_era_year(bag, DatumGetInt32(values[1]));
    }
    if (!nulls[2]) {
        set_year(bag, DatumGetInt32(values[2]));
    }
    if (!nulls[4]) {
        bag->month_code = given_code(DatumGetTextPP(values[4]));
    }
    if (!nulls[5]) {
        set_month(bag, DatumGetInt32(values[5]));
    }
    if (!nulls[6]) {
        set_day(bag, DatumGetInt32(values[6]));
    }
}

/* calendar_date(calendar, parts, overflow, missing, published) */
Datum pgcal_date_parts(PG_FUNCTION_ARGS) {
    pgcal_bag bag = {0};
    read_parts(PG_GETARG_HEAPTUPLEHEADER(1), &bag);
    uint8_t missing = pgcal_code_of(PG_GETARG_TEXT_PP(3), &pgcal_missing);
    return date_of(pgcal_chosen_of(PG_GETARG_DATUM(0), PG_GETARG_DATUM(4)), &bag, PG_GETARG_TEXT_PP(2), missing);
}
