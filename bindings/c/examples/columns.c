/* Columns of dates from C: each call on columns beside the same call on one date, at every place, and what is refused. */
#include <inttypes.h>
#include <stdio.h>
#include <string.h>

#include "icu_calendar.h"

enum { COUNT = 1000 };

static const uint8_t NOTHING[1] = {0};

static int64_t days[COUNT], later[COUNT];
static icu_calendar_date dates[COUNT], sums[COUNT], named[COUNT];
static icu_calendar_duration apart[COUNT];
static icu_calendar_fields fields[COUNT];
static icu_calendar_week weeks[COUNT];
static icu_calendar_outcome outcomes[COUNT];
static uint8_t codes[COUNT];

/* The days from 1643 to 2465, 7919 days apart, with some that are invalid. */
static void fill_days(void) {
    for (int place = 0; place < COUNT; place++) {
        days[place] = place % 100 == 99 ? INT64_C(365242135) : 600000 + place * INT64_C(7919) % 300000;
        later[place] = place % 50 == 7 ? INT64_MIN : 739000 + place;
    }
}

/* Whether what stands at a place is what the single call says; a date that was refused is as it was, all zeros. */
static int same_date(const icu_calendar_date *a, const icu_calendar_date *b) {
    return a->day_number == b->day_number && a->extended_year == b->extended_year && a->era_year == b->era_year &&
           a->cyclic_year == b->cyclic_year && a->ordinal_month == b->ordinal_month && a->month_number == b->month_number &&
           a->month_is_leap == b->month_is_leap && a->day == b->day;
}

static int same_duration(const icu_calendar_duration *a, const icu_calendar_duration *b) {
    return a->years == b->years && a->months == b->months && a->weeks == b->weeks && a->days == b->days && a->is_negative == b->is_negative;
}

static int check_days(uint8_t calendar) {
    memset(dates, 0, sizeof dates);
    if (icu_calendar_dates_of_days(calendar, ICU_CALENDAR_PUBLISHED, days, COUNT, dates, COUNT, codes, COUNT)) {
        return 1;
    }
    for (int place = 0; place < COUNT; place++) {
        icu_calendar_date date = {0};
        uint8_t code = icu_calendar_date_of_day(calendar, ICU_CALENDAR_PUBLISHED, days[place], &date);
        if (code != codes[place] || !same_date(&date, &dates[place])) {
            return 2;
        }
    }
    return 0;
}

static int check_differences(uint8_t calendar) {
    memset(apart, 0, sizeof apart);
    if (icu_calendar_until_each(calendar, ICU_CALENDAR_PUBLISHED, days, COUNT, later, COUNT, ICU_CALENDAR_YEARS, apart, COUNT, codes, COUNT)) {
        return 3;
    }
    for (int place = 0; place < COUNT; place++) {
        icu_calendar_duration duration = {0};
        uint8_t code = icu_calendar_until(calendar, ICU_CALENDAR_PUBLISHED, days[place], later[place], ICU_CALENDAR_YEARS, &duration);
        if (code != codes[place] || !same_duration(&duration, &apart[place])) {
            return 4;
        }
    }
    return 0;
}

/* With one duration, and with the differences as durations, which lead to the later days. */
static int check_sums(uint8_t calendar) {
    icu_calendar_duration duration = {.years = 19, .months = 7, .days = 400};
    memset(sums, 0, sizeof sums);
    if (icu_calendar_add_to_each(calendar, ICU_CALENDAR_PUBLISHED, days, COUNT, &duration, ICU_CALENDAR_REJECT, sums, COUNT, outcomes, COUNT)) {
        return 5;
    }
    for (int place = 0; place < COUNT; place++) {
        icu_calendar_date sum = {0};
        uint8_t max;
        uint8_t code = icu_calendar_add(calendar, ICU_CALENDAR_PUBLISHED, days[place], &duration, ICU_CALENDAR_REJECT, &sum, &max);
        if (code != outcomes[place].code || max != outcomes[place].max || !same_date(&sum, &sums[place])) {
            return 6;
        }
    }
    if (icu_calendar_add_each(calendar, ICU_CALENDAR_PUBLISHED, days, COUNT, apart, COUNT, ICU_CALENDAR_CONSTRAIN, sums, COUNT, outcomes, COUNT)) {
        return 7;
    }
    for (int place = 0; place < COUNT; place++) {
        if (!codes[place] && (outcomes[place].code || sums[place].day_number != later[place])) {
            return 8;
        }
    }
    return 0;
}

/* Dates from the fields that the dates of the days have, some of them without a day. */
static int check_fields(uint8_t calendar) {
    memset(named, 0, sizeof named);
    for (int place = 0; place < COUNT; place++) {
        fields[place] = (icu_calendar_fields){.has_extended_year = 1,
                                              .extended_year = dates[place].extended_year,
                                              .has_month = 1,
                                              .month_number = dates[place].month_number,
                                              .month_is_leap = dates[place].month_is_leap,
                                              .has_day = place % 10 != 3,
                                              .day = dates[place].day};
    }
    if (icu_calendar_dates_of_fields(calendar, ICU_CALENDAR_PUBLISHED, fields, COUNT, NOTHING, 0, NOTHING, 0, ICU_CALENDAR_REJECT,
                                     ICU_CALENDAR_MISSING_REJECT, named, COUNT, outcomes, COUNT)) {
        return 9;
    }
    for (int place = 0; place < COUNT; place++) {
        icu_calendar_date date = {0};
        uint8_t max;
        uint8_t code = icu_calendar_date_of_fields(calendar, ICU_CALENDAR_PUBLISHED, &fields[place], NOTHING, 0, NOTHING, 0, ICU_CALENDAR_REJECT,
                                                   ICU_CALENDAR_MISSING_REJECT, &date, &max);
        if (code != outcomes[place].code || max != outcomes[place].max || !same_date(&date, &named[place])) {
            return 10;
        }
    }
    return 0;
}

static int check_weeks(void) {
    memset(weeks, 0, sizeof weeks);
    if (icu_calendar_weeks_of_days(days, COUNT, weeks, COUNT, codes, COUNT)) {
        return 11;
    }
    for (int place = 0; place < COUNT; place++) {
        icu_calendar_week week = {0};
        uint8_t code = icu_calendar_week_of_year(days[place], &week.year, &week.week);
        int weekday = code ? 0 : (int)((days[place] - 1) % 7) + 1;
        if (code != codes[place] || week.year != weeks[place].year || week.week != weeks[place].week || weekday != weeks[place].weekday) {
            return 12;
        }
    }
    return 0;
}

/* One code for a call that does nothing, and nothing is written. */
static int show_refusals(void) {
    icu_calendar_date before = dates[0];
    icu_calendar_duration duration = {.days = 1};
    memset(codes, 77, sizeof codes);
    memset(outcomes, 77, sizeof outcomes);
    printf("refused: %u %u %u %u %u %u\n", icu_calendar_dates_of_days(20, 0, days, COUNT, dates, COUNT, codes, COUNT),
           icu_calendar_dates_of_days(0, 2, days, COUNT, dates, COUNT, codes, COUNT),
           icu_calendar_dates_of_days(0, 0, days, COUNT, dates, COUNT - 1, codes, COUNT),
           icu_calendar_until_each(0, 0, days, COUNT, later, COUNT - 1, ICU_CALENDAR_YEARS, apart, COUNT, codes, COUNT),
           icu_calendar_until_each(0, 0, days, COUNT, later, COUNT, 5, apart, COUNT, codes, COUNT),
           icu_calendar_add_to_each(0, 0, days, COUNT, &duration, 0, dates, COUNT, outcomes, 0));
    for (int place = 0; place < COUNT; place++) {
        if (codes[place] != 77 || outcomes[place].code != 77) {
            return 13;
        }
    }
    return same_date(&before, &dates[0]) ? 0 : 14;
}

int main(void) {
    fill_days();
    for (uint8_t calendar = 0; icu_calendar_name(calendar); calendar++) {
        int fault = check_days(calendar);
        fault = fault ? fault : check_differences(calendar);
        fault = fault ? fault : check_sums(calendar);
        fault = fault ? fault : check_fields(calendar);
        if (fault) {
            printf("%s: %d\n", icu_calendar_name(calendar), fault);
            return fault;
        }
    }
    int fault = check_weeks();
    if (fault) {
        return fault;
    }
    printf("hebrew is %d, gregory is %d, spam is %d\n", icu_calendar_by_name("hebrew"), icu_calendar_by_name("gregory"), icu_calendar_by_name("spam"));
    icu_calendar_dates_of_days(ICU_CALENDAR_HEBREW, ICU_CALENDAR_PUBLISHED, days, 3, dates, 3, codes, 3);
    for (int place = 0; place < 3; place++) {
        printf("day %" PRId64 " is %" PRId32 "-M%02u%s-%02u\n", days[place], dates[place].extended_year, dates[place].month_number,
               dates[place].month_is_leap ? "L" : "", dates[place].day);
    }
    days[1] = 365242135;
    icu_calendar_dates_of_days(ICU_CALENDAR_ISO, ICU_CALENDAR_COMPUTED, days, 3, dates, 3, codes, 3);
    printf("codes: %u %u %u. %s\n", codes[0], codes[1], codes[2], icu_calendar_code_text(codes[1]));
    return show_refusals();
}
