/* The holidays of a book, in the order of their days, one at each call. */
#include "pgcal.h"

#include "access/htup_details.h"
#include "lib/binaryheap.h"

PG_FUNCTION_INFO_V1(pgcal_holidays);

/* How many years beside that of a day an Easter may lie that leads to the day. */
#define YEARS_BESIDE 2
/* How far a day of `span` lies from its date. */
#define DAYS_BESIDE 6
/* How many occurrences of a recurrence rule a call returns. */
#define ITEMS 1024
/* The days of the first window that is asked for occurrences. Windows double. A call can't be cancelled, so a window has at most so many days, or as many
 * as lie between the start and it, since each call counts from the start on. */
#define FIRST_DAYS 1024
#define MOST_DAYS 4194304

/* The first day of a window to which a rule's own days move, of those that were looked at. */
typedef struct {
    const pgcal_rule *rule;
    pgcal_window window;
    int64_t reach; /* how far a day may move */
    bool is_found;
    int64_t day;
} earliest;

/* The first day of a rule that isn't listed yet. */
typedef struct {
    int64_t day;
    int place;
} coming;

/* What is left of the holidays. The heap has an entry for each rule that has a day left. */
typedef struct {
    pgcal_book book;
    pgcal_window window;
    coming *days;
    binaryheap *heap;
} holidays;

/* Returns the year of a day, or of the nearest one that has a year. */
static int32_t year_of(pgcal_chosen chosen, int64_t day) {
    icu_calendar_date date;
    pgcal_show(chosen, Min(Max(day, PGCAL_FIRST_DAY), PGCAL_LAST_DAY), &date);
    return date.extended_year;
}

/* Returns the weekday of the week that begins with a day, or ends with it. */
static int64_t day_in_week(int64_t day, int32_t weekday, bool is_before) {
    int64_t ahead = ((weekday - day) % 7 + 7) % 7;
    return is_before && ahead ? day + ahead - 7 : day + ahead;
}

static bool easter_day(const pgcal_rule *rule, int32_t year, int64_t *day) {
    uint8_t code = icu_calendar_easter(rule->easter, year, day);
    if (code) {
        elog(ERROR, "icu_calendar: a call returned the code %u", code);
    }
    *day += rule->offset;
    return true;
}

/* Finds the first to the fifth, or the last, of a weekday in the month of a year. */
static bool weekday_in_month(const pgcal_rule *rule, int32_t year, int64_t *day) {
    icu_calendar_date first;
    if (!pgcal_day_in_year(rule->chosen, year, rule->month, 1, ICU_CALENDAR_REJECT, &first)) {
        return false;
    }
    int64_t last = first.day_number + pgcal_days_in_month(rule->chosen, year, first.ordinal_month) - 1;
    if (rule->nth < 0) {
        *day = day_in_week(last, rule->weekday, true);
    } else {
        *day = day_in_week(first.day_number, rule->weekday, false) + 7 * (rule->nth - 1);
    }
    return *day <= last;
}

/* Finds the day of a rule in a year, before it moves, and returns whether it is there. */
static bool own_day(const pgcal_rule *rule, int32_t year, int64_t *day) {
    icu_calendar_date date;
    if (rule->kind == PGCAL_EASTER) {
        return easter_day(rule, year, day);
    }
    if (rule->kind == PGCAL_WEEKDAY) {
        return weekday_in_month(rule, year, day);
    }
    if (!pgcal_day_in_year(rule->chosen, year, rule->month, rule->day, rule->overflow, &date)) {
        return false;
    }
    *day = rule->kind == PGCAL_SPAN ? day_in_week(date.day_number, rule->weekday, rule->is_before) : date.day_number;
    return true;
}

/* Returns how far a day of a rule may move. */
static int64_t reach_of(const pgcal_rule *rule) {
    int64_t reach = 0;
    for (size_t weekday = 0; weekday < lengthof(rule->moves); weekday++) {
        reach = Max(reach, abs(rule->moves[weekday]));
    }
    return reach;
}

/* Returns the first year from `low` on in which a rule is kept. */
static int32_t first_kept(pgcal_rule_years years, int32_t low) {
    if (low <= years.since) {
        return years.since;
    }
    if (years.every == 1) {
        return low;
    }
    int32_t past = (low - years.since) % years.every;
    return past ? low + years.every - past : low;
}

/* Looks at an own day of a rule. */
static void look_at(earliest *it, int64_t own) {
    int64_t moved = own + it->rule->moves[(own % 7 + 7) % 7];
    if (moved >= it->window.first && moved <= it->window.last && (!it->is_found || moved < it->day)) {
        it->is_found = true;
        it->day = moved;
    }
}

/* Returns whether the days behind an own day, moved back as far as can be, are no earlier. */
static bool is_settled(const earliest *it, int64_t own) {
    return it->is_found && it->day + it->reach <= own;
}

/* Looks at the own days of a rule that has at most one in each year. */
static void look_at_years(earliest *it) {
    const pgcal_rule *rule = it->rule;
    int64_t beside = it->reach + (rule->kind == PGCAL_SPAN ? DAYS_BESIDE : 0), own;
    int32_t more = rule->kind == PGCAL_EASTER ? YEARS_BESIDE : 0;
    int32_t last_year = Min(year_of(rule->chosen, it->window.last + beside) + more, rule->years.until);
    for (int32_t year = first_kept(rule->years, year_of(rule->chosen, it->window.first - beside) - more); year <= last_year; year += rule->years.every) {
        CHECK_FOR_INTERRUPTS();
        if (!own_day(rule, year, &own) || own < PGCAL_FIRST_DAY || own > PGCAL_LAST_DAY) {
            continue;
        }
        look_at(it, own);
        if (is_settled(it, own)) {
            return;
        }
    }
}

/* Lists occurrences of a recurrence rule in a window, and returns how many. The list goes on from the day `next`. */
static size_t list_repeated(const pgcal_rule *rule, pgcal_window window, icu_calendar_occurrence items[ITEMS], int64_t *next) {
    icu_calendar_rule_fault fault;
    size_t count;
    uint8_t code = icu_calendar_rule_days(rule->chosen.calendar, rule->chosen.years, rule->start, rule->text.bytes, rule->text.len, window.first,
                                          window.last, items, ITEMS, &count, next, &fault);
    if (code) {
        elog(ERROR, "icu_calendar: a call returned the code %u", code);
    }
    return count;
}

/* Returns whether a rule is kept in the year of a day. */
static bool is_kept(const pgcal_rule *rule, int64_t own) {
    int32_t year = year_of(rule->chosen, own);
    return year <= rule->years.until && first_kept(rule->years, year) == year;
}

/* Looks at the own days of a recurrence rule. None comes before its start. */
static void look_at_repeated(earliest *it) {
    const pgcal_rule *rule = it->rule;
    icu_calendar_occurrence items[ITEMS];
    int64_t from = Max(Max(it->window.first - it->reach, PGCAL_FIRST_DAY), rule->start);
    int64_t last = Min(it->window.last + it->reach, PGCAL_LAST_DAY), days = FIRST_DAYS;
    while (from <= last) {
        CHECK_FOR_INTERRUPTS();
        pgcal_window some = {from, Min(from + days - 1, last)};
        size_t count = list_repeated(rule, some, items, &from);
        for (size_t place = 0; place < count; place++) {
            int64_t own = items[place].day;
            if (is_kept(rule, own)) {
                look_at(it, own);
            }
            if (is_settled(it, own)) {
                return;
            }
        }
        days = Min(2 * days, Max(MOST_DAYS, from - rule->start));
    }
}

/* Finds the first day of a rule in a window, and returns whether there is one. */
static bool first_day(const pgcal_rule *rule, pgcal_window window, int64_t *day) {
    if (window.first > window.last) {
        return false;
    }
    earliest found = {.rule = rule, .window = window, .reach = reach_of(rule)};
    if (rule->kind == PGCAL_REPEATED) {
        look_at_repeated(&found);
    } else {
        look_at_years(&found);
    }
    *day = found.day;
    return found.is_found;
}

/* Puts the earlier day on top of the heap, and on one day the rule that stands first in the book. */
static int compare_coming(Datum a, Datum b, void *days) {
    const coming *first = (const coming *)days + DatumGetInt32(a), *second = (const coming *)days + DatumGetInt32(b);
    if (first->day != second->day) {
        return first->day < second->day ? 1 : -1;
    }
    return first->place < second->place ? 1 : -1;
}

static holidays *all_holidays(const text *book, uint8_t years, pgcal_window window) {
    holidays *list = palloc0(sizeof *list);
    list->book = pgcal_read_book(book, years);
    list->window = window;
    list->days = palloc(sizeof(coming) * (size_t)Max(list->book.count, 1));
    list->heap = binaryheap_allocate(Max(list->book.count, 1), compare_coming, list->days);
    for (int place = 0; place < list->book.count; place++) {
        CHECK_FOR_INTERRUPTS();
        list->days[place].place = place;
        if (first_day(&list->book.rules[place], window, &list->days[place].day)) {
            binaryheap_add_unordered(list->heap, Int32GetDatum(place));
        }
    }
    binaryheap_build(list->heap);
    return list;
}

/* Moves a rule that is on top of the heap to its next day, which is behind `day`. */
static void move_on(holidays *list, int place, int64_t day) {
    pgcal_window rest = {day + 1, list->window.last};
    if (first_day(&list->book.rules[place], rest, &list->days[place].day)) {
        binaryheap_replace_first(list->heap, Int32GetDatum(place));
    } else {
        binaryheap_remove_first(list->heap);
    }
}

/* Sets up a list for the arguments (book, first, last, published). */
static void begin_holidays(FunctionCallInfo fcinfo) {
    FuncCallContext *call = SRF_FIRSTCALL_INIT();
    TupleDesc shape;
    pgcal_chosen iso = {ICU_CALENDAR_ISO, ICU_CALENDAR_COMPUTED};
    icu_calendar_date date;
    pgcal_window window = pgcal_window_of(PG_GETARG_DATEADT(1), PG_GETARG_DATEADT(2));
    pgcal_show(iso, window.first, &date);
    pgcal_show(iso, window.last, &date);
    MemoryContext before = MemoryContextSwitchTo(call->multi_call_memory_ctx);
    if (get_call_result_type(fcinfo, NULL, &shape) != TYPEFUNC_COMPOSITE) {
        elog(ERROR, "icu_calendar: the result has no columns");
    }
    call->tuple_desc = BlessTupleDesc(shape);
    call->user_fctx = all_holidays(PG_GETARG_TEXT_PP(0), PG_GETARG_BOOL(3) ? ICU_CALENDAR_PUBLISHED : ICU_CALENDAR_COMPUTED, window);
    MemoryContextSwitchTo(before);
}

/* calendar_holidays(book, first, last, published) */
Datum pgcal_holidays(PG_FUNCTION_ARGS) {
    if (SRF_IS_FIRSTCALL()) {
        begin_holidays(fcinfo);
    }
    FuncCallContext *call = SRF_PERCALL_SETUP();
    holidays *list = call->user_fctx;
    CHECK_FOR_INTERRUPTS();
    if (binaryheap_empty(list->heap)) {
        SRF_RETURN_DONE(call);
    }
    int place = DatumGetInt32(binaryheap_first(list->heap));
    int64_t day = list->days[place].day;
    Datum values[2] = {DateADTGetDatum(pgcal_date_of(day)), PointerGetDatum(list->book.rules[place].name)};
    bool nulls[2] = {false, false};
    move_on(list, place, day);
    SRF_RETURN_NEXT(call, HeapTupleGetDatum(heap_form_tuple(call->tuple_desc, values, nulls)));
}
