/* The published years as rows of the program, as the folder rows/ has them. */
#include "pgcal.h"

/* The days of a long month. */
#define LONG_MONTH 30

/* The published years of a calendar, and the word for it in a row. */
typedef struct {
    uint8_t calendar;
    const char *word;
    int32_t first;
    int32_t last;
} published_years;

static const published_years PUBLISHED[] = {
    {ICU_CALENDAR_CHINESE, "china", 1912, 2099},
    {ICU_CALENDAR_DANGI, "korea", 1912, 2097},
    {ICU_CALENDAR_ISLAMIC_UMALQURA, "hijri", 1300, 1600},
    {ICU_CALENDAR_PERSIAN, "persian", 1502, 2987},
};

/* Returns the first day of a month in a year, by its place. */
static icu_calendar_date month_of(pgcal_chosen chosen, int32_t year, uint8_t place) {
    pgcal_bag bag = {.fields = {.has_extended_year = 1, .extended_year = year, .has_ordinal_month = 1, .ordinal_month = place, .has_day = 1, .day = 1}};
    icu_calendar_date date;
    uint8_t max;
    uint8_t code = pgcal_name(chosen, &bag, ICU_CALENDAR_REJECT, ICU_CALENDAR_MISSING_REJECT, &date, &max);
    if (code) {
        elog(ERROR, "icu_calendar: a call returned the code %u", code);
    }
    return date;
}

/* Appends the row of a year: its first day, a letter for the length of each month and, in calendars that have them, the place of the leap month. */
static void append_year(StringInfo rows, pgcal_chosen chosen, const char *word, int32_t year) {
    uint8_t months = pgcal_months_in_year(chosen, year), leap = 0;
    icu_calendar_date month = month_of(chosen, year, 1);
    appendStringInfo(rows, "row %s %d %d ", word, year, (int)month.day_number);
    for (uint8_t place = 1; place <= months; place++) {
        icu_calendar_date next = place < months ? month_of(chosen, year, place + 1) : month_of(chosen, year + 1, 1);
        appendStringInfoChar(rows, next.day_number - month.day_number == LONG_MONTH ? 'l' : 's');
        leap = month.month_is_leap ? place : leap;
        month = next;
    }
    if (chosen.calendar == ICU_CALENDAR_ISLAMIC_UMALQURA) {
        appendStringInfoChar(rows, '\n');
    } else {
        appendStringInfo(rows, " %u\n", leap);
    }
}

static int64_t days_in_year(pgcal_chosen chosen, int32_t year) {
    return month_of(chosen, year + 1, 1).day_number - month_of(chosen, year, 1).day_number;
}

/* Appends the row of a leap year of the rule that is a common year, or nothing. */
static void append_correction(StringInfo rows, pgcal_chosen chosen, const char *word, int32_t year) {
    pgcal_chosen computed = {chosen.calendar, ICU_CALENDAR_COMPUTED};
    if (days_in_year(chosen, year) < days_in_year(computed, year)) {
        appendStringInfo(rows, "row %s %d\n", word, year);
    }
}

/* Appends the rows of a calendar's published years, or nothing if it has none or computed ones are asked for. */
void pgcal_append_rows(StringInfo rows, pgcal_chosen chosen) {
    if (chosen.years != ICU_CALENDAR_PUBLISHED) {
        return;
    }
    for (size_t place = 0; place < lengthof(PUBLISHED); place++) {
        const published_years *it = &PUBLISHED[place];
        if (it->calendar != chosen.calendar) {
            continue;
        }
        for (int32_t year = it->first; year <= it->last; year++) {
            if (chosen.calendar == ICU_CALENDAR_PERSIAN) {
                append_correction(rows, chosen, it->word, year);
            } else {
                append_year(rows, chosen, it->word, year);
            }
        }
    }
}
