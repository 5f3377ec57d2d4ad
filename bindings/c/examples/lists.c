/* Lists from C, a few items at a time: birthdays, paydays, recurrence rules, holidays; lengths of months and years, and texts of dates. */
#include <inttypes.h>
#include <stdio.h>
#include <string.h>

#include "icu_calendar.h"

#define COUNT 2

/* The first and the last day of the years 2023 to 2025. */
static const int64_t FIRST = 738521, LAST = 739616;

static void print(int64_t day) {
    icu_calendar_date date;
    if (!icu_calendar_date_of_day(ICU_CALENDAR_ISO, ICU_CALENDAR_COMPUTED, day, &date)) {
        printf(" %04" PRId32 "-%02u-%02u", date.extended_year, date.month_number, date.day);
    }
}

/* Prints the days of a month and a day, as many at a time as there is room for; `;` shows where the next call begins. */
static int show_anniversaries(const char *title, uint8_t calendar, uint8_t month, uint8_t is_leap, uint8_t day, uint8_t overflow) {
    int64_t days[COUNT + 1] = {0};
    printf("%s:", title);
    for (int64_t next = FIRST; next <= LAST; printf("%s", next <= LAST ? ";" : "\n")) {
        size_t written;
        uint8_t code = icu_calendar_anniversaries(calendar, ICU_CALENDAR_PUBLISHED, month, is_leap, day, overflow, next, LAST, days, COUNT, &written, &next);
        if (code || written > COUNT || days[COUNT]) {
            return 1;
        }
        for (size_t place = 0; place < written; place++) {
            print(days[place]);
        }
    }
    return 0;
}

static int show_recurrences(const char *title, uint8_t unit, uint32_t every, uint8_t overflow, int64_t last) {
    icu_calendar_occurrence items[COUNT + 1] = {0};
    printf("%s:", title);
    for (int64_t next = 738886; next <= last; printf("%s", next <= last ? ";" : "\n")) {
        size_t written;
        uint8_t code =
            icu_calendar_recurrences(ICU_CALENDAR_ISO, ICU_CALENDAR_COMPUTED, 738916, unit, every, overflow, next, last, items, COUNT, &written, &next);
        if (code || written > COUNT || items[COUNT].day) {
            return 2;
        }
        for (size_t place = 0; place < written; place++) {
            printf(" %" PRIu32, items[place].index);
            print(items[place].day);
        }
    }
    return 0;
}

/* Prints the occurrences of a recurrence rule, or why the text isn't one. */
static int show_rule(uint8_t calendar, int64_t start, const char *rule, int64_t last) {
    icu_calendar_occurrence items[COUNT + 1] = {0};
    printf("%s:", rule);
    for (int64_t next = start; next <= last; printf("%s", next <= last ? ";" : "\n")) {
        size_t written;
        icu_calendar_rule_fault fault = {0};
        uint8_t code = icu_calendar_rule_days(calendar, ICU_CALENDAR_PUBLISHED, start, (const uint8_t *)rule, strlen(rule), next, last, items, COUNT,
                                              &written, &next, &fault);
        if (code == ICU_CALENDAR_INVALID_RULE) {
            const char *part = icu_calendar_rule_part(fault.part);
            printf(" %s%s%s\n", icu_calendar_rule_cause(fault.cause), part ? " " : "", part ? part : "");
            return 0;
        }
        if (code || fault.cause || written > COUNT || items[COUNT].day) {
            return 5;
        }
        for (size_t place = 0; place < written; place++) {
            printf(" %" PRIu32, items[place].index);
            print(items[place].day);
        }
    }
    return 0;
}

/* Prints the holidays of a book with their names, or the first invalid field. `;` shows where the next call begins. */
static int show_holidays(const char *text, int64_t first, int64_t last) {
    const uint8_t *book = (const uint8_t *)text;
    size_t len = strlen(text), rule = 0;
    icu_calendar_holiday items[COUNT + 1] = {0};
    printf("holidays:");
    for (int64_t next = first; next <= last; printf("%s", next <= last ? ";" : "\n")) {
        size_t written;
        icu_calendar_book_fault fault = {0};
        uint8_t code = icu_calendar_holidays(ICU_CALENDAR_PUBLISHED, book, len, next, last, rule, items, COUNT, &written, &next, &rule, &fault);
        if (code == ICU_CALENDAR_INVALID_BOOK) {
            printf(" record %zu field %u\n", fault.number, fault.field);
            return 0;
        }
        if (code || fault.number || written > COUNT || items[COUNT].day) {
            return 6;
        }
        for (size_t place = 0; place < written; place++) {
            uint8_t name[64];
            size_t name_len;
            if (icu_calendar_holiday_name(book, len, items[place].rule, name, sizeof name, &name_len)) {
                return 7;
            }
            print(items[place].day);
            printf(" %.*s", (int)name_len, (const char *)name);
        }
    }
    return rule ? 8 : 0;
}

static int show_lengths(uint8_t calendar, int64_t day) {
    icu_calendar_lengths lengths = {0};
    if (icu_calendar_lengths_of_day(calendar, ICU_CALENDAR_PUBLISHED, day, &lengths)) {
        return 3;
    }
    printf("%s: %u days in %u months, %u in this one\n", icu_calendar_name(calendar), lengths.days_in_year, lengths.months_in_year, lengths.days_in_month);
    return 0;
}

static void show_text(const char *text) {
    uint8_t calendar = 0;
    int64_t day = 0;
    uint8_t code = icu_calendar_day_of_text((const uint8_t *)text, strlen(text), &calendar, &day);
    if (code) {
        printf("%s: %s\n", text, icu_calendar_code_text(code));
    } else {
        printf("%s: day %" PRId64 ", %s\n", text, day, icu_calendar_name(calendar));
    }
}

static void show_day(uint8_t calendar, int64_t day, size_t room_len) {
    uint8_t room[43];
    size_t written = 77;
    memset(room, '.', sizeof room);
    uint8_t code = icu_calendar_text_of_day(calendar, day, room, room_len, &written);
    printf("%u: %zu bytes, %.*s\n", code, written, (int)sizeof room, (const char *)room);
}

/* Codes of calls that list nothing, and change nothing but the count. */
static int show_refusals(void) {
    int64_t days[COUNT] = {7, 7}, next = 7;
    icu_calendar_occurrence items[COUNT] = {{.day = 7}, {.day = 7}};
    size_t written = 7;
    printf("refused: %u %u %u %u", icu_calendar_anniversaries(20, 0, 1, 0, 1, 0, FIRST, LAST, days, COUNT, &written, &next),
           icu_calendar_anniversaries(ICU_CALENDAR_ISO, 0, 1, 0, 1, 0, LAST, FIRST, days, COUNT, &written, &next),
           icu_calendar_anniversaries(ICU_CALENDAR_ISO, 0, 1, 1, 1, 0, FIRST, LAST, days, COUNT, &written, &next),
           icu_calendar_anniversaries(ICU_CALENDAR_ISO, 0, 1, 0, 32, 0, FIRST, LAST, days, COUNT, &written, &next));
    icu_calendar_rule_fault fault = {0};
    const uint8_t rule[] = {'F'};
    printf(" %u %u", icu_calendar_rule_days(ICU_CALENDAR_ISO, 0, FIRST, rule, 1, FIRST, LAST, items, COUNT, &written, &next, &fault),
           icu_calendar_rule_days(ICU_CALENDAR_ISO, 0, FIRST, rule, 1, LAST, FIRST, items, COUNT, &written, &next, &fault));
    printf(" %u %u %u\n", icu_calendar_recurrences(ICU_CALENDAR_ISO, 0, FIRST, ICU_CALENDAR_UNIT_DEFAULT, 1, 0, FIRST, LAST, items, COUNT, &written, &next),
           icu_calendar_recurrences(ICU_CALENDAR_ISO, 0, FIRST, ICU_CALENDAR_DAYS, 0, 0, FIRST, LAST, items, COUNT, &written, &next),
           icu_calendar_recurrences(ICU_CALENDAR_ISO, 0, 365242135, ICU_CALENDAR_DAYS, 1, 0, FIRST, LAST, items, COUNT, &written, &next));
    icu_calendar_holiday holidays[COUNT] = {{.day = 7}, {.day = 7}};
    icu_calendar_book_fault bad = {0};
    size_t next_rule = 7, name_len = 7;
    const uint8_t book[] = "easter,Easter,gregorian,,0,\neaster,Pascha,julian,,0";
    uint8_t name[] = "......";
    printf("holidays refused: %u %u", icu_calendar_holidays(2, book, 27, FIRST, LAST, 0, holidays, COUNT, &written, &next, &next_rule, &bad),
           icu_calendar_holidays(0, book, 27, LAST, FIRST, 0, holidays, COUNT, &written, &next, &next_rule, &bad));
    if (bad.number) {
        return 9;
    }
    printf(" %u", icu_calendar_holidays(0, book, sizeof book - 1, FIRST, LAST, 0, holidays, COUNT, &written, &next, &next_rule, &bad));
    printf(" (record %zu field %u), names: %u", bad.number, bad.field, icu_calendar_holiday_name(book, sizeof book - 1, 0, name, 6, &name_len));
    printf(" %u", icu_calendar_holiday_name(book, 27, 1, name, 6, &name_len));
    printf(" %u", icu_calendar_holiday_name(book, 27, 0, name, 5, &name_len));
    printf(" (%zu bytes, %s)\n", name_len, (const char *)name);
    return written || next != 7 || next_rule != 7 || days[0] != 7 || items[0].day != 7 || holidays[0].day != 7 || fault.cause != 1 || fault.part ? 4 : 0;
}

int main(void) {
    int fault = show_anniversaries("10 Adar I", ICU_CALENDAR_HEBREW, 5, 1, 10, ICU_CALENDAR_CONSTRAIN);
    fault = fault ? fault : show_anniversaries("10 Adar I, leap years", ICU_CALENDAR_HEBREW, 5, 1, 10, ICU_CALENDAR_REJECT);
    fault = fault ? fault : show_anniversaries("Chinese New Year", ICU_CALENDAR_CHINESE, 1, 0, 1, ICU_CALENDAR_OVERFLOW_DEFAULT);
    fault = fault ? fault : show_recurrences("month by month", ICU_CALENDAR_MONTHS, 1, ICU_CALENDAR_CONSTRAIN, 739037);
    fault = fault ? fault : show_recurrences("months with day 31", ICU_CALENDAR_MONTHS, 1, ICU_CALENDAR_OVERFLOW_DEFAULT, 739037);
    fault = fault ? fault : show_recurrences("every other week", ICU_CALENDAR_WEEKS, 2, ICU_CALENDAR_OVERFLOW_DEFAULT, 738960);
    fault = fault ? fault : show_rule(ICU_CALENDAR_ISO, 729269, "FREQ=MONTHLY;BYDAY=FR;BYMONTHDAY=13", 730485);
    fault = fault ? fault : show_rule(ICU_CALENDAR_CHINESE, 734909, "RSCALE=CHINESE;FREQ=YEARLY", 736002);
    fault = fault ? fault : show_rule(ICU_CALENDAR_ISO, FIRST, "FREQ=MONTHLY;BYDAY=first", LAST);
    fault = fault ? fault : show_rule(ICU_CALENDAR_ISO, FIRST, "FREQ=DAILY;COUNT=3;UNTIL=20240101", LAST);
    fault = fault ? fault : show_holidays("easter,Easter,gregorian,,0,\neaster,Pascha,julian,,0,\nfixed,Spring Festival,chinese,M01,1,exact\n"
                                          "weekday,Thanksgiving,gregorian,M11,4,thursday\n", 739252, LAST);
    fault = fault ? fault : show_holidays("easter,\"Easter\",gregorian,,0,\n\nfixed,Founding day,klingon,M01,1,exact\n", FIRST, LAST);
    fault = fault ? fault : show_holidays("", FIRST, LAST);
    fault = fault ? fault : show_lengths(ICU_CALENDAR_ISO, 738945);
    fault = fault ? fault : show_lengths(ICU_CALENDAR_HEBREW, 738939);
    fault = fault ? fault : show_lengths(ICU_CALENDAR_CHINESE, 738926);
    show_text("2024-03-01");
    show_text("+012024-03-01[u-ca=hebrew]");
    show_text("-000001-12-31[!u-ca=gregory]");
    show_text("0001-01-01[u-ca=islamic-type1-thursday]");
    show_text("2024-03-01[u-ca=klingon]");
    show_text("2023-02-29[u-ca=hebrew]");
    show_text("");
    show_day(ICU_CALENDAR_ISO, 738946, 43);
    show_day(ICU_CALENDAR_HEBREW, 738946, 23);
    show_day(ICU_CALENDAR_GREGORIAN, 4391371, 43);
    show_day(ICU_CALENDAR_ISO, -366, 43);
    show_day(ICU_CALENDAR_ISLAMIC_TYPE1_THURSDAY, 365242134, 42);
    show_day(ICU_CALENDAR_HEBREW, 738946, 22);
    show_day(ICU_CALENDAR_ISO, 738946, 0);
    show_day(ICU_CALENDAR_ISLAMIC_SIMULATED, 738946, 43);
    show_day(ICU_CALENDAR_ISO, -365242500, 43);
    show_day(20, -365242500, 43);
    return fault ? fault : show_refusals();
}
