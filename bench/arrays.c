/* Shows days in a calendar, or computes differences in years, over and over, for bench/arrays.py. The words are what to do, a calendar's code, a
 * source of years, a count and how long a column is; it prints a checksum. `day` and `until` call for one date at a time, `days` and `untils` for
 * columns. The days are those of the operations of `dates_bench`, 7919 days apart: from 1643 to 2465, or from 1912 to 2097. They are computed
 * anew for each short column, as `dates_bench` does for each turn; a column of a million is made once. */
#include <inttypes.h>
#include <stdio.h>
#include <stdlib.h>
#include <string.h>

#include "icu_calendar.h"

static int64_t *days, *others;
static icu_calendar_date *dates;
static icu_calendar_duration *apart;
static uint8_t *codes;

static void *room(size_t count, size_t size) {
    void *it = calloc(count, size);
    if (!it) {
        exit(3);
    }
    return it;
}

static void make_rooms(size_t length) {
    days = room(length, sizeof *days);
    others = room(length, sizeof *others);
    dates = room(length, sizeof *dates);
    apart = room(length, sizeof *apart);
    codes = room(length, 1);
}

/* The days of some turns, and the other days of pairs, a third earlier. */
static void fill(uint64_t first, size_t length, int published, int pairs) {
    for (size_t place = 0; place < length; place++) {
        uint64_t turn = first + place;
        days[place] = published ? 698100 + (int64_t)(turn * 7919 % 67800) : 600000 + (int64_t)(turn * 7919 % 300000);
        if (pairs) {
            others[place] = days[place] * 2 / 3;
        }
    }
}

int main(int count_of_words, char **words) {
    if (count_of_words != 6) {
        fputs("usage: arrays day|days|until|untils CALENDAR YEARS COUNT LENGTH\n", stderr);
        return 2;
    }
    const char *what = words[1];
    uint8_t calendar = (uint8_t)atoi(words[2]), years = (uint8_t)atoi(words[3]), bad = 0;
    size_t count = strtoul(words[4], NULL, 10), length = strtoul(words[5], NULL, 10);
    uint64_t sum = 0;
    int pairs = what[0] == 'u';
    make_rooms(length);
    fill(0, length, years && !pairs, pairs);
    for (size_t done = 0; done < count; done += length) {
        size_t now = count - done < length ? count - done : length;
        if (length < 1000000) {
            fill(done, now, years && !pairs, pairs);
        }
        if (strcmp(what, "days") == 0) {
            bad |= icu_calendar_dates_of_days(calendar, years, days, now, dates, now, codes, now);
        } else if (strcmp(what, "untils") == 0) {
            bad |= icu_calendar_until_each(calendar, years, others, now, days, now, ICU_CALENDAR_YEARS, apart, now, codes, now);
        } else if (strcmp(what, "day") == 0) {
            for (size_t place = 0; place < now; place++) {
                bad |= icu_calendar_date_of_day(calendar, years, days[place], &dates[place]);
            }
        } else {
            for (size_t place = 0; place < now; place++) {
                bad |= icu_calendar_until(calendar, years, others[place], days[place], ICU_CALENDAR_YEARS, &apart[place]);
            }
        }
        sum += (uint64_t)dates[now - 1].day_number + dates[now / 2].day + apart[now - 1].years + apart[now / 2].days;
    }
    printf("%" PRIu64 "\n", sum);
    return bad;
}
