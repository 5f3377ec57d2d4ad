/* Shows a day in a calendar, over and over, for bench/from_c.py: the words are a calendar's code and a count, and it prints the sum of the day
 * numbers. The days are those of the operation `day` of `dates_bench`: from 1643 to 2465, 7919 days apart. */
#include <inttypes.h>
#include <stdio.h>
#include <stdlib.h>

#include "icu_calendar.h"

int main(int count_of_words, char **words) {
    if (count_of_words != 3) {
        fputs("usage: from_c CALENDAR COUNT\n", stderr);
        return 2;
    }
    uint8_t calendar = (uint8_t)atoi(words[1]);
    uint32_t turns = (uint32_t)strtoul(words[2], NULL, 10);
    int64_t sum = 0;
    for (uint32_t turn = 0; turn < turns; turn++) {
        int64_t day = 600000 + (int64_t)((uint64_t)turn * 7919 % 300000);
        icu_calendar_date date;
        if (icu_calendar_date_of_day(calendar, ICU_CALENDAR_COMPUTED, day, &date)) {
            return 1;
        }
        sum += date.day_number;
    }
    printf("%" PRId64 "\n", sum);
    return 0;
}
