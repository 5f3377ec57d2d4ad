/* Dates from C: one that fields name, shown in each calendar and read back there, sums, differences, and refusals. */
#include <inttypes.h>
#include <stdio.h>

#include "icu_calendar.h"

static const uint8_t NOTHING[1] = {0};

/* The date of an extended year, a month and a day. */
static uint8_t named(uint8_t calendar, uint8_t years, icu_calendar_fields fields, icu_calendar_date *date, uint8_t *max) {
    return icu_calendar_date_of_fields(calendar, years, &fields, NOTHING, 0, NOTHING, 0, ICU_CALENDAR_REJECT, ICU_CALENDAR_MISSING_REJECT,
                                       date, max);
}

static void print(const char *name, const icu_calendar_date *date, const char *era) {
    printf("%-22s %" PRId32 "-M%02u%s-%02u, place %u, year %" PRId32 "%s%s, day %" PRId64 "\n", name, date->extended_year, date->month_number,
           date->month_is_leap ? "L" : "", date->day, date->ordinal_month, date->era_year, *era ? " of " : "", era, date->day_number);
}

/* A day in each calendar over published years. Each date names the day again. */
static int show_everywhere(int64_t day) {
    for (uint8_t calendar = 0; icu_calendar_name(calendar); calendar++) {
        icu_calendar_date date, again;
        uint8_t max;
        size_t written;
        char era[17] = {0};
        if (icu_calendar_date_of_day(calendar, ICU_CALENDAR_PUBLISHED, day, &date) ||
            icu_calendar_era_of_day(calendar, ICU_CALENDAR_PUBLISHED, day, (uint8_t *)era, 16, &written)) {
            return 1;
        }
        print(icu_calendar_name(calendar), &date, era);
        icu_calendar_fields fields = {.has_extended_year = 1,
                                      .extended_year = date.extended_year,
                                      .has_month = 1,
                                      .month_number = date.month_number,
                                      .month_is_leap = date.month_is_leap,
                                      .has_day = 1,
                                      .day = date.day};
        if (named(calendar, ICU_CALENDAR_PUBLISHED, fields, &again, &max) || again.day_number != day) {
            return 2;
        }
    }
    return 0;
}

static void add(int64_t day, icu_calendar_duration duration, uint8_t overflow) {
    icu_calendar_date date;
    uint8_t max;
    uint8_t code = icu_calendar_add(ICU_CALENDAR_ISO, ICU_CALENDAR_COMPUTED, day, &duration, overflow, &date, &max);
    if (code) {
        printf("refused: %u, max %u\n", code, max);
    } else {
        print("sum", &date, "");
    }
}

int main(void) {
    icu_calendar_date date, later;
    icu_calendar_duration apart;
    uint8_t max, week;
    int32_t year;
    int64_t easter;
    icu_calendar_fields adar_i = {.has_extended_year = 1, .extended_year = 5784, .has_month = 1, .month_number = 5, .month_is_leap = 1, .has_day = 1, .day = 14};
    if (named(ICU_CALENDAR_HEBREW, ICU_CALENDAR_COMPUTED, adar_i, &date, &max) || show_everywhere(date.day_number)) {
        return 1;
    }
    adar_i.extended_year = 5785;
    printf("14 Adar I 5785: %u\n", named(ICU_CALENDAR_HEBREW, ICU_CALENDAR_COMPUTED, adar_i, &later, &max));
    adar_i.extended_year = 5784;
    adar_i.day = 31;
    uint8_t code = named(ICU_CALENDAR_HEBREW, ICU_CALENDAR_COMPUTED, adar_i, &later, &max);
    printf("31 Adar I 5784: %u, max %u\n", code, max);

    /* 738886 is 2024-01-01, and 738916 2024-01-31. */
    add(738916, (icu_calendar_duration){.months = 1}, ICU_CALENDAR_CONSTRAIN);
    add(738916, (icu_calendar_duration){.months = 1}, ICU_CALENDAR_REJECT);
    if (icu_calendar_until(ICU_CALENDAR_HEBREW, ICU_CALENDAR_COMPUTED, 738779, 739162, ICU_CALENDAR_YEARS, &apart)) {
        return 2;
    }
    printf("from 1 Tishri 5784 to 1 Tishri 5785: P%" PRIu32 "Y%" PRIu32 "M%" PRIu32 "W%" PRIu32 "D\n", apart.years, apart.months, apart.weeks,
           apart.days);
    if (icu_calendar_week_of_year(738886, &year, &week) || icu_calendar_easter(ICU_CALENDAR_EASTER_GREGORIAN, 2024, &easter)) {
        return 3;
    }
    printf("2024-01-01 is in week %u of %" PRId32 ", and Easter 2024 is day %" PRId64 "\n", week, year, easter);
    printf("codes that are none: %u %u %u %u\n", icu_calendar_date_of_day(20, 0, 1, &date), icu_calendar_date_of_day(0, 2, 1, &date),
           icu_calendar_until(0, 0, 1, 1, 5, &apart), icu_calendar_date_of_day(0, 0, INT64_MIN, &date));
    return 0;
}
