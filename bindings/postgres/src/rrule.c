/* Recurrence rules of iCalendar, by the program over memory: a window after another, and one occurrence at each call. */
#include "pgcal.h"

#include "access/htup_details.h"

PG_FUNCTION_INFO_V1(pgcal_rrule);

/* The days of the first window that the program is asked for. Windows double as long as they have fewer bytes of lines than `MANY`. A run can't be
 * cancelled, so a window has at most so many days, or as many as lie between the start and it, since each run counts from the start on. */
#define FIRST_DAYS 1024
#define MOST_DAYS 4194304
#define MANY 1048576
/* The room for the lines of the first window. */
#define FIRST_ROOM 4096

/* What is left of a list: the lines of a window, and the days behind it. */
typedef struct {
    pgcal_chosen chosen;
    int64_t start;
    char *rule;
    StringInfoData rows;
    pgcal_window window;
    int64_t days;
    uint8_t *lines;
    size_t room;
    size_t at;
    size_t end;
} list;

/* An error of a rule: its name in the program, and its message. */
typedef struct {
    const char *cause;
    const char *message;
} fault;

static const fault FAULTS[] = {
    {"BadPart", "a part is not NAME=VALUE"},
    {"UnknownPart", "there is no part of this name"},
    {"RepeatedPart", "a part comes twice"},
    {"TimeNotSupported", "times of the day are not supported"},
    {"BadValue", "a value does not have the form of its part"},
    {"ValueOutOfRange", "a value is out of range"},
    {"UnknownCalendar", "there is no calendar of the name in RSCALE"},
    {"MismatchedCalendar", "RSCALE names another calendar"},
    {"MissingPart", "a part is missing"},
    {"CountWithUntil", "COUNT and UNTIL exclude each other"},
    {"PartNotAllowed", "the frequency does not allow a part"},
    {"OrdinalNotAllowed", "a number is not allowed in BYDAY"},
    {"SetPosAlone", "BYSETPOS needs another BY-part"},
};

/* Raises the error of a rule, from the program's line: `err NAME`, or `err NAME PART`. */
static void pg_attribute_noreturn() refuse_rule(const uint8_t *line, size_t len) {
    char *said = pnstrdup((const char *)line, len);
    said[strcspn(said, "\n")] = 0;
    char *cause = strncmp(said, "err ", 4) == 0 ? said + 4 : said;
    size_t name = strcspn(cause, " ");
    for (size_t place = 0; place < lengthof(FAULTS); place++) {
        if (strlen(FAULTS[place].cause) == name && strncmp(FAULTS[place].cause, cause, name) == 0) {
            pgcal_refuse_argument(cause, psprintf("invalid recurrence rule: %s", FAULTS[place].message), "docs/MANUAL.md says what a rule has.");
        }
    }
    elog(ERROR, "icu_calendar: calspan wrote \"%s\"", said);
}

/* Raises the error of a run that listed nothing. */
static void pg_attribute_noreturn() refuse_run(uint8_t status, const list *it, size_t written) {
    switch (status) {
    case CALSPAN_REFUSED:
        refuse_rule(it->lines, written);
    case CALSPAN_NO_MEMORY:
    case CALSPAN_NO_MEMORY_FOR_OUTPUT:
        pgcal_refuse_lack_of_memory();
    default:
        elog(ERROR, "icu_calendar: calspan returned %u", status);
    }
}

/* Lists a window by the program. */
static void list_window(list *it, pgcal_window window) {
    const char *calendar = pgcal_name_of(it->chosen.calendar);
    char *words = psprintf("rrule %s iso %lld %lld %lld %s", calendar, (long long)window.first, (long long)window.last, (long long)it->start, it->rule);
    pgcal_bytes rows = {(const uint8_t *)it->rows.data, (size_t)it->rows.len};
    size_t written;
    uint8_t status = pgcal_run(pgcal_bytes_of_word(words), rows, it->lines, it->room, &written);
    if (status == CALSPAN_NO_ROOM) {
        it->room = written;
        it->lines = repalloc(it->lines, it->room);
        status = pgcal_run(pgcal_bytes_of_word(words), rows, it->lines, it->room, &written);
    }
    if (status != CALSPAN_DONE) {
        refuse_run(status, it, written);
    }
    pfree(words);
    it->at = 0;
    it->end = written;
}

/* Lists the next windows as long as they have no occurrence, and returns whether there is one. */
static bool has_lines(list *it) {
    while (it->at == it->end) {
        CHECK_FOR_INTERRUPTS();
        if (it->window.first > it->window.last) {
            return false;
        }
        pgcal_window next = {it->window.first, Min(it->window.first + it->days - 1, it->window.last)};
        list_window(it, next);
        it->window.first = next.last + 1;
        if (it->end < MANY) {
            it->days = Min(2 * it->days, Max(MOST_DAYS, it->window.first - it->start));
        }
    }
    return true;
}

/* Reads the next line: the index, a space, and dates, of which the last has its day number behind it. */
static void take_line(list *it, int32_t *index, int64_t *day) {
    const char *line = (const char *)it->lines + it->at;
    const char *feed = memchr(line, '\n', it->end - it->at), *number = feed;
    if (feed == NULL) {
        elog(ERROR, "icu_calendar: calspan wrote no line");
    }
    while (number > line && number[-1] != '@') {
        number--;
    }
    *index = (int32_t)strtol(line, NULL, 10);
    *day = strtol(number, NULL, 10);
    it->at += (size_t)(feed - line) + 1;
}

/* Returns a rule as a word of the command line, which is neither empty nor has a space. Another text that is no rule, for the same reason, stands for
 * one that can't be such a word. */
static char *word_of(const text *rule) {
    char *word = text_to_cstring(rule);
    for (char *at = word; *at; at++) {
        if (*at <= ' ' || *at > '~') {
            *at = '?';
        }
    }
    return *word ? word : ";";
}

/* Sets up a list for the arguments (d, calendar, rule, first, last, published). */
static void begin_list(FunctionCallInfo fcinfo) {
    FuncCallContext *call = SRF_FIRSTCALL_INIT();
    TupleDesc shape;
    icu_calendar_date date;
    pgcal_window window = pgcal_window_of(PG_GETARG_DATEADT(3), PG_GETARG_DATEADT(4));
    MemoryContext before = MemoryContextSwitchTo(call->multi_call_memory_ctx);
    if (get_call_result_type(fcinfo, NULL, &shape) != TYPEFUNC_COMPOSITE) {
        elog(ERROR, "icu_calendar: the result has no columns");
    }
    call->tuple_desc = BlessTupleDesc(shape);
    list *it = palloc0(sizeof *it);
    it->chosen = pgcal_chosen_of(PG_GETARG_DATUM(1), PG_GETARG_DATUM(5));
    it->start = pgcal_day_of(PG_GETARG_DATEADT(0));
    pgcal_show(it->chosen, it->start, &date);
    pgcal_show(it->chosen, window.last, &date);
    it->rule = word_of(PG_GETARG_TEXT_PP(2));
    it->window = window;
    it->days = FIRST_DAYS;
    initStringInfo(&it->rows);
    pgcal_append_rows(&it->rows, it->chosen);
    it->room = FIRST_ROOM;
    it->lines = palloc(it->room);
    MemoryContextSwitchTo(before);
    call->user_fctx = it;
}

/* calendar_rrule(d, calendar, rule, first, last, published) */
Datum pgcal_rrule(PG_FUNCTION_ARGS) {
    if (SRF_IS_FIRSTCALL()) {
        begin_list(fcinfo);
    }
    FuncCallContext *call = SRF_PERCALL_SETUP();
    list *it = call->user_fctx;
    int32_t index;
    int64_t day;
    CHECK_FOR_INTERRUPTS();
    if (!has_lines(it)) {
        SRF_RETURN_DONE(call);
    }
    take_line(it, &index, &day);
    Datum values[2] = {Int32GetDatum(index), DateADTGetDatum(pgcal_date_of(day))};
    bool nulls[2] = {false, false};
    SRF_RETURN_NEXT(call, HeapTupleGetDatum(heap_form_tuple(call->tuple_desc, values, nulls)));
}
