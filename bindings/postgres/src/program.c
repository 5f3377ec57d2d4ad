/* The program calspan over memory: requests, with own rows of years before them, and conversions. */
#include "pgcal.h"

#include "mb/pg_wchar.h"

PG_FUNCTION_INFO_V1(pgcal_calspan);

/* The most bytes of an input. A run can't be cancelled, so it is kept short: this many take some 10 ms. */
#define MOST_INPUT 1048576

/* The lines of an output that aren't returned yet. */
typedef struct {
    uint8_t *at;
    uint8_t *end;
} lines;

/* Runs the program. The memory that it takes it gives back before it returns. */
uint8_t pgcal_run(pgcal_bytes words, pgcal_bytes input, uint8_t *output, size_t room, size_t *written) {
    *written = 0;
    return calspan(words.bytes, words.len, input.bytes, input.len, output, room, written);
}

void pgcal_refuse_lack_of_memory(void) {
    ereport(ERROR, (errcode(ERRCODE_OUT_OF_MEMORY), errmsg("out of memory"), errdetail("Cause: NoMemory.")));
}

static bool begins_with(pgcal_bytes words, const char *word) {
    size_t len = strlen(word);
    return words.len >= len && memcmp(words.bytes, word, len) == 0 && (words.len == len || words.bytes[len] == ' ');
}

/* Refuses commands whose output can be much longer than their input: nothing could stop them. */
static void check_input(pgcal_bytes words, pgcal_bytes input) {
    if (!begins_with(words, "span") && !begins_with(words, "convert")) {
        pgcal_refuse_argument("Words", "the command is not span or convert",
                              "For lists use calendar_anniversaries, calendar_recurrences, calendar_rrule or calendar_holidays.");
    }
    if (input.len > MOST_INPUT) {
        pgcal_refuse_argument("TooLong", "the input has more than 1048576 bytes",
                              "Cut it at the ends of lines, with the same rows before each part.");
    }
}

/* Raises the error of a run without answers. */
static void check_status(uint8_t status, const uint8_t *output, size_t written) {
    switch (status) {
    case CALSPAN_DONE:
    case CALSPAN_REFUSED:
        return;
    case CALSPAN_WORDS:
        pgcal_refuse_argument("Words", "the words are no command",
                              "Use 'span', 'convert CALENDAR SHOWN constrain' or 'convert CALENDAR SHOWN reject'.");
    case CALSPAN_TABLE_REFUSED: {
        size_t end = written && output[written - 1] == '\n' ? written - 1 : written, begin = end;
        while (begin > 0 && output[begin - 1] != '\n') {
            begin--;
        }
        pgcal_refuse_argument(pnstrdup((const char *)output + begin, end - begin), "a row or a table is invalid",
                              "docs/MANUAL.md says what a row has.");
    }
    case CALSPAN_NO_MEMORY:
    case CALSPAN_NO_MEMORY_FOR_OUTPUT:
        pgcal_refuse_lack_of_memory();
    default:
        elog(ERROR, "icu_calendar: calspan returned %u", status);
    }
}

/* Runs the program, and keeps its output in the memory context of the moment. */
static lines *run(pgcal_bytes words, pgcal_bytes input) {
    size_t room = 2 * input.len + 256, written;
    uint8_t *output = palloc(room);
    uint8_t status = pgcal_run(words, input, output, room, &written);
    if (status == CALSPAN_NO_ROOM) {
        room = written;
        output = repalloc(output, Max(room, 1));
        status = pgcal_run(words, input, output, room, &written);
    }
    check_status(status, output, written);
    pg_verifymbstr((const char *)output, (int)written, false);
    lines *it = palloc(sizeof *it);
    *it = (lines){output, output + written};
    return it;
}

/* Sets up the lines for the arguments (words, input). */
static void begin_lines(FunctionCallInfo fcinfo) {
    FuncCallContext *call = SRF_FIRSTCALL_INIT();
    MemoryContext before = MemoryContextSwitchTo(call->multi_call_memory_ctx);
    pgcal_bytes words = pgcal_bytes_of(PG_GETARG_TEXT_PP(0)), input = pgcal_bytes_of(PG_GETARG_TEXT_PP(1));
    check_input(words, input);
    call->user_fctx = run(words, input);
    MemoryContextSwitchTo(before);
}

/* calspan(words, input) */
Datum pgcal_calspan(PG_FUNCTION_ARGS) {
    if (SRF_IS_FIRSTCALL()) {
        begin_lines(fcinfo);
    }
    FuncCallContext *call = SRF_PERCALL_SETUP();
    lines *it = call->user_fctx;
    CHECK_FOR_INTERRUPTS();
    if (it->at == it->end) {
        SRF_RETURN_DONE(call);
    }
    size_t len = (size_t)(it->end - it->at);
    uint8_t *feed = memchr(it->at, '\n', len);
    size_t line = feed ? (size_t)(feed - it->at) : len;
    text *answer = cstring_to_text_with_len((const char *)it->at, (int)line);
    it->at += line + (feed ? 1 : 0);
    SRF_RETURN_NEXT(call, PointerGetDatum(answer));
}
