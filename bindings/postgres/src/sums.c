/* Sums and differences. */
#include "pgcal.h"

#include "access/htup_details.h"
#include "utils/typcache.h"

PG_FUNCTION_INFO_V1(pgcal_add);
PG_FUNCTION_INFO_V1(pgcal_add_duration);
PG_FUNCTION_INFO_V1(pgcal_until);
PG_FUNCTION_INFO_V1(pgcal_until_text);

/* The parts of a duration, from years to days, each with the sign of the whole. */
typedef struct {
    int64_t parts[4];
} signed_parts;

static icu_calendar_duration duration_of(const signed_parts *given) {
    bool is_positive = false, is_negative = false;
    uint32_t sizes[4] = {0};
    for (int place = 0; place < 4; place++) {
        int64_t part = given->parts[place];
        is_positive |= part > 0;
        is_negative |= part < 0;
        sizes[place] = (uint32_t)(part < 0 ? -part : part);
    }
    if (is_positive && is_negative) {
        pgcal_refuse_argument("MixedSigns", "years, months, weeks and days have different signs", "Add them one after another.");
    }
    return (icu_calendar_duration){.years = sizes[0], .months = sizes[1], .weeks = sizes[2], .days = sizes[3], .is_negative = is_negative};
}

static Datum sum_of(pgcal_chosen chosen, DateADT start, const signed_parts *given, const text *overflow) {
    icu_calendar_duration duration = duration_of(given);
    icu_calendar_date date;
    uint8_t max = 0;
    uint8_t handling = pgcal_code_of(overflow, &pgcal_overflows);
    uint8_t code = icu_calendar_add(chosen.calendar, chosen.years, pgcal_day_of(start), &duration, handling, &date, &max);
    if (unlikely(code)) {
        pgcal_refuse(chosen, code, max);
    }
    return DateADTGetDatum(pgcal_date_of(date.day_number));
}

/* calendar_add(d, calendar, years, months, weeks, days, overflow, published) */
Datum pgcal_add(PG_FUNCTION_ARGS) {
    signed_parts given = {{PG_GETARG_INT32(2), PG_GETARG_INT32(3), PG_GETARG_INT32(4), PG_GETARG_INT32(5)}};
    pgcal_chosen chosen = pgcal_chosen_of(PG_GETARG_DATUM(1), PG_GETARG_DATUM(7));
    return sum_of(chosen, PG_GETARG_DATEADT(0), &given, PG_GETARG_TEXT_PP(6));
}

/* Reads a `calendar_duration`. A null counts as 0. */
static signed_parts read_duration(HeapTupleHeader row) {
    TupleDesc shape = lookup_rowtype_tupdesc(HeapTupleHeaderGetTypeId(row), HeapTupleHeaderGetTypMod(row));
    HeapTupleData tuple = {.t_len = HeapTupleHeaderGetDatumLength(row), .t_data = row};
    signed_parts read = {{0}};
    Datum values[4];
    bool nulls[4];
    if (shape->natts != lengthof(values)) {
        elog(ERROR, "icu_calendar: calendar_duration has %d columns", shape->natts);
    }
    heap_deform_tuple(&tuple, shape, values, nulls);
    ReleaseTupleDesc(shape);
    for (int place = 0; place < 4; place++) {
        read.parts[place] = nulls[place] ? 0 : DatumGetInt32(values[place]);
    }
    return read;
}

/* calendar_add(d, calendar, duration, overflow, published) */
Datum pgcal_add_duration(PG_FUNCTION_ARGS) {
    signed_parts given = read_duration(PG_GETARG_HEAPTUPLEHEADER(2));
    return sum_of(pgcal_chosen_of(PG_GETARG_DATUM(1), PG_GETARG_DATUM(4)), PG_GETARG_DATEADT(0), &given, PG_GETARG_TEXT_PP(3));
}

/* Computes the difference that the arguments (a, b, calendar, unit, published) ask for. */
static icu_calendar_duration difference(FunctionCallInfo fcinfo) {
    pgcal_chosen chosen = pgcal_chosen_of(PG_GETARG_DATUM(2), PG_GETARG_DATUM(4));
    int64_t first = pgcal_day_of(PG_GETARG_DATEADT(0)), second = pgcal_day_of(PG_GETARG_DATEADT(1));
    icu_calendar_duration apart;
    uint8_t unit = pgcal_code_of(PG_GETARG_TEXT_PP(3), &pgcal_units);
    uint8_t code = icu_calendar_until(chosen.calendar, chosen.years, first, second, unit, &apart);
    if (unlikely(code)) {
        pgcal_refuse(chosen, code, 0);
    }
    return apart;
}

/* calendar_until(a, b, calendar, unit, published). No part is above the days from 4713 BC to 999999, so each has a sign. */
Datum pgcal_until(PG_FUNCTION_ARGS) {
    icu_calendar_duration apart = difference(fcinfo);
    int32_t sign = apart.is_negative ? -1 : 1;
    Datum values[4] = {Int32GetDatum(sign * (int32_t)apart.years), Int32GetDatum(sign * (int32_t)apart.months),
                       Int32GetDatum(sign * (int32_t)apart.weeks), Int32GetDatum(sign * (int32_t)apart.days)};
    bool nulls[4] = {false, false, false, false};
    PG_RETURN_DATUM(HeapTupleGetDatum(heap_form_tuple(pgcal_kept_shape(fcinfo), values, nulls)));
}

/* Writes a part and its letter behind a text, unless it is 0. */
static int write_part(char *text, int room, uint32_t part, char letter) {
    return part ? snprintf(text, (size_t)room, "%u%c", part, letter) : 0;
}

/* calendar_until_text(a, b, calendar, unit, published): in the form of ISO 8601. */
Datum pgcal_until_text(PG_FUNCTION_ARGS) {
    icu_calendar_duration apart = difference(fcinfo);
    char shown[64];
    int at = snprintf(shown, sizeof shown, "%sP", apart.is_negative ? "-" : "");
    int begun = at;
    at += write_part(shown + at, (int)sizeof shown - at, apart.years, 'Y');
    at += write_part(shown + at, (int)sizeof shown - at, apart.months, 'M');
    at += write_part(shown + at, (int)sizeof shown - at, apart.weeks, 'W');
    at += write_part(shown + at, (int)sizeof shown - at, apart.days, 'D');
    if (at == begun) {
        snprintf(shown + at, sizeof shown - (size_t)at, "0D");
    }
    PG_RETURN_TEXT_P(cstring_to_text(shown));
}
