/* The keys of all anniversaries that fall on the days of a window. */
#include "pgcal.h"

#include "catalog/pg_type.h"
#include "utils/array.h"

PG_FUNCTION_INFO_V1(pgcal_anniversary_keys);

#define MONTHS 13
#define DAYS 31

/* The keys that are found, each once. Leap months stand behind the others. */
typedef struct {
    bool is_found[2][MONTHS + 1][DAYS + 1];
    bool has_month[2][MONTHS + 1];
    int left;
} keys;

/* Returns whether some year of a calendar has a month. */
static bool has_month(pgcal_chosen chosen, pgcal_month month) {
    pgcal_bag bag = {.fields = {.has_extended_year = 1,
                                .extended_year = 1,
                                .has_month = 1,
                                .month_number = month.number,
                                .month_is_leap = month.is_leap,
                                .has_day = 1,
                                .day = 1}};
    icu_calendar_date date;
    uint8_t max;
    return pgcal_name(chosen, &bag, ICU_CALENDAR_REJECT, ICU_CALENDAR_MISSING_REJECT, &date, &max) != ICU_CALENDAR_MONTH_NOT_IN_CALENDAR;
}

static void find_months(pgcal_chosen chosen, keys *found) {
    for (uint8_t is_leap = 0; is_leap < 2; is_leap++) {
        for (uint8_t number = 1; number <= MONTHS; number++) {
            found->has_month[is_leap][number] = has_month(chosen, (pgcal_month){number, is_leap});
            found->left += found->has_month[is_leap][number] ? DAYS : 0;
        }
    }
}

/* Returns whether the days of a month in a year may lie in a window. Those that don't exist count as the nearest. */
static bool may_be_in(pgcal_chosen chosen, int32_t year, pgcal_month month, pgcal_window window) {
    icu_calendar_date first, last;
    if (pgcal_day_in_year(chosen, year, month, 1, ICU_CALENDAR_CONSTRAIN, &first) && first.day_number > window.last) {
        return false;
    }
    return !pgcal_day_in_year(chosen, year, month, DAYS, ICU_CALENDAR_CONSTRAIN, &last) || last.day_number >= window.first;
}

/* Finds the keys of one month in one year. */
static void find_in_month(pgcal_chosen chosen, int32_t year, pgcal_month month, uint8_t overflow, pgcal_window window, keys *found) {
    for (int day = 1; day <= DAYS; day++) {
        bool *is_found = &found->is_found[month.is_leap][month.number][day];
        icu_calendar_date date;
        if (*is_found || !pgcal_day_in_year(chosen, year, month, day, overflow, &date)) {
            continue;
        }
        if (date.day_number >= window.first && date.day_number <= window.last) {
            *is_found = true;
            found->left--;
        }
    }
}

static void find_in_year(pgcal_chosen chosen, int32_t year, uint8_t overflow, pgcal_window window, keys *found) {
    for (uint8_t is_leap = 0; is_leap < 2; is_leap++) {
        for (uint8_t number = 1; number <= MONTHS; number++) {
            pgcal_month month = {number, is_leap};
            if (found->has_month[is_leap][number] && may_be_in(chosen, year, month, window)) {
                find_in_month(chosen, year, month, overflow, window, found);
            }
        }
    }
}

/* Writes the keys in their order, and returns how many there are. */
static int write_keys(const keys *found, Datum *values) {
    int count = 0;
    for (int number = 1; number <= MONTHS; number++) {
        for (int day = 1; day <= 2 * (DAYS + 1) - 1; day++) {
            int is_leap = day / (DAYS + 1), of_month = day % (DAYS + 1);
            if (found->is_found[is_leap][number][of_month]) {
                values[count++] = Int32GetDatum(1000 * number + 100 * is_leap + of_month);
            }
        }
    }
    return count;
}

/* calendar_anniversary_keys(calendar, first, last, leaping, published) */
Datum pgcal_anniversary_keys(PG_FUNCTION_ARGS) {
    pgcal_chosen chosen = pgcal_chosen_of(PG_GETARG_DATUM(0), PG_GETARG_DATUM(4));
    pgcal_window window = pgcal_window_of(PG_GETARG_DATEADT(1), PG_GETARG_DATEADT(2));
    uint8_t overflow = pgcal_code_of(PG_GETARG_TEXT_PP(3), &pgcal_leaping);
    icu_calendar_date first, last;
    pgcal_show(chosen, window.first, &first);
    pgcal_show(chosen, window.last, &last);
    keys found = {0};
    find_months(chosen, &found);
    for (int32_t year = first.extended_year; year <= last.extended_year && found.left > 0; year++) {
        CHECK_FOR_INTERRUPTS();
        find_in_year(chosen, year, overflow, window, &found);
    }
    Datum values[2 * MONTHS * DAYS];
    int count = write_keys(&found, values);
    PG_RETURN_ARRAYTYPE_P(construct_array(values, count, INT4OID, sizeof(int32), true, TYPALIGN_INT));
}
