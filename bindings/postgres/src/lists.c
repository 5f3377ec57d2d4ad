/* Anniversaries and recurrences, one item at each call. */
#include "pgcal.h"

#include "access/htup_details.h"

PG_FUNCTION_INFO_V1(pgcal_anniversaries);
PG_FUNCTION_INFO_V1(pgcal_recurrences);

/* What is left of a month and a day, year after year. */
typedef struct {
    pgcal_chosen chosen;
    pgcal_month month;
    uint8_t day;
    uint8_t overflow;
    pgcal_window window;
    int32_t year;
    int32_t last_year;
} yearly;

static yearly yearly_of(pgcal_chosen chosen, pgcal_month month, uint8_t day, uint8_t overflow, pgcal_window window) {
    icu_calendar_date first, last;
    pgcal_show(chosen, window.first, &first);
    pgcal_show(chosen, window.last, &last);
    return (yearly){chosen, month, day, overflow, window, first.extended_year, last.extended_year};
}

/* Finds the next day of a list, and returns whether there is one. */
static bool next_yearly(yearly *list, int64_t *day) {
    while (list->year <= list->last_year) {
        icu_calendar_date date;
        CHECK_FOR_INTERRUPTS();
        bool is_there = pgcal_day_in_year(list->chosen, list->year++, list->month, list->day, list->overflow, &date);
        if (is_there && date.day_number >= list->window.first && date.day_number <= list->window.last) {
            *day = date.day_number;
            return true;
        }
    }
    return false;
}

/* Sets up a list for the arguments (calendar, month_code, day, first, last, leaping, published). */
static void begin_anniversaries(FunctionCallInfo fcinfo) {
    FuncCallContext *call = SRF_FIRSTCALL_INIT();
    pgcal_chosen chosen = pgcal_chosen_of(PG_GETARG_DATUM(0), PG_GETARG_DATUM(6));
    pgcal_window window = pgcal_window_of(PG_GETARG_DATEADT(3), PG_GETARG_DATEADT(4));
    pgcal_month month = pgcal_month_of(chosen, pgcal_bytes_of(PG_GETARG_TEXT_PP(1)));
    int32_t day = PG_GETARG_INT32(2);
    if (day < 1 || day > 31) {
        ereport(ERROR, (errcode(ERRCODE_DATETIME_VALUE_OUT_OF_RANGE), errmsg("day of month out of range"), errdetail("Cause: InvalidDay."),
                        errhint("A day is from 1 to 31.")));
    }
    uint8_t overflow = pgcal_code_of(PG_GETARG_TEXT_PP(5), &pgcal_leaping);
    yearly *list = MemoryContextAlloc(call->multi_call_memory_ctx, sizeof *list);
    *list = yearly_of(chosen, month, (uint8_t)day, overflow, window);
    call->user_fctx = list;
}

Datum pgcal_anniversaries(PG_FUNCTION_ARGS) {
    if (SRF_IS_FIRSTCALL()) {
        begin_anniversaries(fcinfo);
    }
    FuncCallContext *call = SRF_PERCALL_SETUP();
    int64_t day;
    if (next_yearly(call->user_fctx, &day)) {
        SRF_RETURN_NEXT(call, DateADTGetDatum(pgcal_date_of(day)));
    }
    SRF_RETURN_DONE(call);
}

/* What is left of a date with a step added again and again. */
typedef struct {
    pgcal_chosen chosen;
    int64_t start;
    uint8_t unit;
    uint32_t every;
    bool is_skipping;
    pgcal_window window;
    uint32_t index;
} recurrence;

/* Returns how many units can be added to the start so that the sum doesn't lie in the window, but for the last one. */
static uint32_t units_before(const recurrence *list) {
    int64_t day = list->window.first;
    icu_calendar_date start, first;
    icu_calendar_duration apart;
    if (day <= list->start) {
        return 0;
    }
    switch (list->unit) {
    case ICU_CALENDAR_DAYS:
        return (uint32_t)(day - list->start);
    case ICU_CALENDAR_WEEKS:
        return (uint32_t)((day - list->start) / 7);
    case ICU_CALENDAR_YEARS:
        pgcal_show(list->chosen, list->start, &start);
        pgcal_show(list->chosen, day, &first);
        return first.extended_year > start.extended_year ? (uint32_t)(first.extended_year - start.extended_year) : 0;
    default:
        if (icu_calendar_until(list->chosen.calendar, list->chosen.years, list->start, day, ICU_CALENDAR_MONTHS, &apart)) {
            pgcal_refuse(list->chosen, ICU_CALENDAR_INVALID_DAY_NUMBER, 0);
        }
        return apart.months;
    }
}

/* Finds the day of an index, and returns whether it is there. */
static bool occurrence(const recurrence *list, uint32_t index, uint8_t overflow, int64_t *day) {
    uint64_t amount = (uint64_t)index * list->every;
    uint32_t part = (uint32_t)amount;
    icu_calendar_duration step = {0};
    icu_calendar_date date;
    uint8_t max;
    if (amount > PG_UINT32_MAX) {
        return false;
    }
    step.years = list->unit == ICU_CALENDAR_YEARS ? part : 0;
    step.months = list->unit == ICU_CALENDAR_MONTHS ? part : 0;
    step.weeks = list->unit == ICU_CALENDAR_WEEKS ? part : 0;
    step.days = list->unit == ICU_CALENDAR_DAYS ? part : 0;
    if (icu_calendar_add(list->chosen.calendar, list->chosen.years, list->start, &step, overflow, &date, &max)) {
        return false;
    }
    *day = date.day_number;
    return true;
}

/* Finds the day of an index, or the nearest one, and whether it occurs. Returns false at the end of all days. */
static bool day_at(const recurrence *list, uint32_t index, int64_t *day, bool *occurs) {
    if (list->is_skipping && occurrence(list, index, ICU_CALENDAR_REJECT, day)) {
        *occurs = true;
        return true;
    }
    *occurs = !list->is_skipping;
    return occurrence(list, index, ICU_CALENDAR_CONSTRAIN, day);
}

/* Finds the next item, and returns whether there is one. */
static bool next_occurrence(recurrence *list, uint32_t *index, int64_t *day) {
    bool occurs;
    while (list->index < PG_INT32_MAX && day_at(list, list->index, day, &occurs)) {
        CHECK_FOR_INTERRUPTS();
        if (*day > list->window.last) {
            return false;
        }
        *index = list->index++;
        if (occurs && *day >= list->window.first) {
            return true;
        }
    }
    return false;
}

/* Sets up a list for the arguments (d, calendar, unit, every, first, last, missing, published). */
static void begin_recurrences(FunctionCallInfo fcinfo) {
    FuncCallContext *call = SRF_FIRSTCALL_INIT();
    TupleDesc shape;
    icu_calendar_date start;
    int32_t every = PG_GETARG_INT32(3);
    pgcal_window window = pgcal_window_of(PG_GETARG_DATEADT(4), PG_GETARG_DATEADT(5));
    if (every < 1) {
        pgcal_refuse_argument("Every", "the step is not above 0", NULL);
    }
    MemoryContext before = MemoryContextSwitchTo(call->multi_call_memory_ctx);
    if (get_call_result_type(fcinfo, NULL, &shape) != TYPEFUNC_COMPOSITE) {
        elog(ERROR, "icu_calendar: the result has no columns");
    }
    call->tuple_desc = BlessTupleDesc(shape);
    recurrence *list = palloc0(sizeof *list);
    MemoryContextSwitchTo(before);
    list->chosen = pgcal_chosen_of(PG_GETARG_DATUM(1), PG_GETARG_DATUM(7));
    list->start = pgcal_day_of(PG_GETARG_DATEADT(0));
    pgcal_show(list->chosen, list->start, &start);
    list->unit = pgcal_code_of(PG_GETARG_TEXT_PP(2), &pgcal_units);
    list->every = (uint32_t)every;
    list->window = window;
    pgcal_show(list->chosen, list->window.last, &start);
    list->is_skipping = pgcal_code_of(PG_GETARG_TEXT_PP(6), &pgcal_skipping) == ICU_CALENDAR_REJECT;
    list->index = units_before(list) / list->every;
    call->user_fctx = list;
}

Datum pgcal_recurrences(PG_FUNCTION_ARGS) {
    if (SRF_IS_FIRSTCALL()) {
        begin_recurrences(fcinfo);
    }
    FuncCallContext *call = SRF_PERCALL_SETUP();
    uint32_t index;
    int64_t day;
    if (next_occurrence(call->user_fctx, &index, &day)) {
        Datum values[2] = {Int32GetDatum((int32_t)index), DateADTGetDatum(pgcal_date_of(day))};
        bool nulls[2] = {false, false};
        SRF_RETURN_NEXT(call, HeapTupleGetDatum(heap_form_tuple(call->tuple_desc, values, nulls)));
    }
    SRF_RETURN_DONE(call);
}
