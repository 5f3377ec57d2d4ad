/* What the files of the extension share. The calls that they make are described in bindings/c/include/icu_calendar.h.
 *
 * The calls keep nothing and allocate nothing (but for `calspan`, which frees what it takes), so an error may be raised between any two of
 * them. Texts and lists live in the memory contexts of PostgreSQL. */
#ifndef PGCAL_H
#define PGCAL_H

#include "postgres.h"

#include "fmgr.h"
#include "funcapi.h"
#include "miscadmin.h"
#include "utils/builtins.h"
#include "utils/date.h"

#if PG_VERSION_NUM >= 160000
#include "varatt.h"
#endif

#include "icu_calendar.h"

/* The month that no year has, and the day that no month has: asking for them is answered by the greatest valid number. */
#define PGCAL_NOWHERE 255

/* A calendar, and where its years come from. */
typedef struct {
    uint8_t calendar;
    uint8_t years;
} pgcal_chosen;

/* The bytes of a word or a code. The pointer is never null. */
typedef struct {
    const uint8_t *bytes;
    size_t len;
} pgcal_bytes;

/* A word that an argument may be, and its code. */
typedef struct {
    const char *word;
    uint8_t code;
} pgcal_word;

/* What an argument may be: `count` words, what it is called, and the hint that lists them. */
typedef struct {
    const pgcal_word *words;
    size_t count;
    const char *what;
    const char *hint;
} pgcal_words;

/* The fields of a date, with the codes of era and month, which are empty if not given. */
typedef struct {
    icu_calendar_fields fields;
    pgcal_bytes era;
    pgcal_bytes month_code;
} pgcal_bag;

/* A month by its number, and whether it is a leap month. */
typedef struct {
    uint8_t number;
    uint8_t is_leap;
} pgcal_month;

/* The first and the last day that calls take. */
#define PGCAL_FIRST_DAY INT64CONST(-365242499)
#define PGCAL_LAST_DAY INT64CONST(365242134)

/* Days in a row, both included. */
typedef struct {
    int64_t first;
    int64_t last;
} pgcal_window;

typedef enum { PGCAL_FIXED, PGCAL_EASTER, PGCAL_WEEKDAY, PGCAL_SPAN, PGCAL_REPEATED } pgcal_rule_kind;

/* The years in which a rule is kept. The steps are counted from `since`. */
typedef struct {
    int32_t since; /* PG_INT32_MIN if no year is the first */
    int32_t until; /* PG_INT32_MAX if no year is the last */
    int32_t every;
} pgcal_rule_years;

/* A rule of a book of holidays. */
typedef struct {
    pgcal_rule_kind kind;
    text *name;
    pgcal_chosen chosen; /* the calendar whose years are counted */
    pgcal_month month;
    uint8_t day;      /* fixed, span */
    uint8_t overflow; /* fixed */
    uint8_t easter;   /* easter: one of ICU_CALENDAR_EASTER_ */
    int32_t offset;   /* easter: the days after it */
    int32_t nth;      /* weekday: 1 to 5, or -1 for the last */
    int32_t weekday;  /* weekday, span: 1 for Monday to 6, and 0 for Sunday */
    bool is_before;   /* span: whether the week ends with the day, and doesn't begin with it */
    pgcal_bytes text; /* repeated: the recurrence rule */
    int64_t start;    /* repeated: the day on which it starts */
    pgcal_rule_years years;
    int8_t moves[7]; /* by how many days it moves off each weekday from Sunday on */
} pgcal_rule;

typedef struct {
    pgcal_rule *rules;
    int count;
} pgcal_book;

/* names.c */
extern const char *pgcal_name_of(uint8_t calendar);
extern bool pgcal_calendar_of(pgcal_bytes name, uint8_t *calendar);
extern pgcal_bytes pgcal_bytes_of(const text *given);
extern pgcal_bytes pgcal_bytes_of_word(const char *word);
extern bool pgcal_is_word(pgcal_bytes given, const char *word);
extern uint8_t pgcal_code_of(const text *given, const pgcal_words *allowed);
extern const pgcal_words pgcal_overflows;
extern const pgcal_words pgcal_missing;
extern const pgcal_words pgcal_units;
extern const pgcal_words pgcal_leaping;
extern const pgcal_words pgcal_skipping;

/* refusals.c */
extern void pgcal_refuse(pgcal_chosen chosen, uint8_t code, uint8_t max) pg_attribute_noreturn();
extern void pgcal_refuse_argument(const char *cause, const char *message, const char *hint) pg_attribute_noreturn();

/* chosen.c */
extern pgcal_chosen pgcal_chosen_of(Datum calendar, Datum is_published);
extern int64_t pgcal_day_of(DateADT date);
extern DateADT pgcal_date_of(int64_t day);
extern TupleDesc pgcal_kept_shape(FunctionCallInfo fcinfo);
extern pgcal_window pgcal_window_of(DateADT first, DateADT last);
extern void pgcal_show(pgcal_chosen chosen, int64_t day, icu_calendar_date *date);
extern uint8_t pgcal_name(pgcal_chosen chosen, const pgcal_bag *bag, uint8_t overflow, uint8_t missing, icu_calendar_date *date, uint8_t *max);
extern bool pgcal_day_in_year(pgcal_chosen chosen, int32_t year, pgcal_month month, int day, uint8_t overflow, icu_calendar_date *date);
extern pgcal_month pgcal_month_of(pgcal_chosen chosen, pgcal_bytes code);
extern uint8_t pgcal_days_in_month(pgcal_chosen chosen, int32_t year, uint8_t ordinal_month);
extern uint8_t pgcal_months_in_year(pgcal_chosen chosen, int32_t year);

/* book.c */
extern pgcal_book pgcal_read_book(const text *given, uint8_t years);

/* rows.c */
extern void pgcal_append_rows(StringInfo rows, pgcal_chosen chosen);

/* program.c */
extern void pgcal_refuse_lack_of_memory(void) pg_attribute_noreturn();
extern uint8_t pgcal_run(pgcal_bytes words, pgcal_bytes input, uint8_t *output, size_t room, size_t *written);

#endif
