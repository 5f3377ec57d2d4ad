/* Books of holidays. The program over memory decides whether a text is a book; what it takes is read here. */
#include "pgcal.h"

/* The fewest and the most fields of a record. */
#define LEAST_FIELDS 6
#define FIELDS 10
/* The most bytes that a line of rows has. */
#define MOST_ROW 512

/* What is left of a text, and the room for the fields of its next record. Those that are left out are empty. */
typedef struct {
    const uint8_t *at;
    const uint8_t *end;
    StringInfoData fields[FIELDS];
} reader;

/* Raises the error of a book that the program took, and that isn't read here. No book does. */
static void pg_attribute_noreturn() misread(void) {
    elog(ERROR, "icu_calendar: a book was misread");
}

/* Passes over the empty lines and the notes before the first record. The program takes rows there, too. They are refused, since the calls have the
 * published years. */
static void pass_lines_before(reader *it) {
    while (it->at < it->end) {
        size_t left = (size_t)(it->end - it->at);
        const uint8_t *feed = memchr(it->at, '\n', left);
        size_t line = feed ? (size_t)(feed - it->at) : left;
        size_t len = line && it->at[line - 1] == '\r' ? line - 1 : line;
        if (line <= MOST_ROW && (len == 3 || (len > 3 && it->at[3] == ' ')) && memcmp(it->at, "row", 3) == 0) {
            pgcal_refuse_argument("Rows", "rows of years stand before the book", "With published => true, published years replace computed ones.");
        }
        if (line > MOST_ROW || (len && it->at[0] != '#')) {
            return;
        }
        it->at += feed ? line + 1 : line;
    }
}

/* Refuses a text that the program doesn't take as a book. */
static void check_book(pgcal_bytes text) {
    uint8_t said[64];
    size_t written = 0;
    uint8_t status = pgcal_run(pgcal_bytes_of_word("holidays 1 1"), text, said, sizeof said, &written);
    unsigned long long record;
    unsigned int field;
    if (status == CALSPAN_DONE || status == CALSPAN_NO_ROOM) {
        return;
    }
    if (status == CALSPAN_TOO_LONG) {
        pgcal_refuse_argument("TooLong", "the book has more than 16777216 bytes", NULL);
    }
    char *line = pnstrdup((const char *)said, Min(written, sizeof said));
    if (sscanf(line, "err record %llu field %u", &record, &field) != 2) {
        elog(ERROR, "icu_calendar: calspan returned %u", status);
    }
    pgcal_refuse_argument(psprintf("InvalidRecord %llu field %u", record, field),
                          field ? psprintf("record %llu of the book is invalid in field %u", record, field)
                                : psprintf("record %llu of the book does not have six to ten fields", record),
                          "A record is kind, name, calendar, month, value and last, and perhaps since, until, every and moved.");
}

/* Reads what stands between double quotes, where two of them stand for one. */
static void read_quoted(reader *it, StringInfo field) {
    it->at++;
    while (it->at < it->end) {
        uint8_t byte = *it->at++;
        if (byte == '"' && (it->at == it->end || *it->at != '"')) {
            return;
        }
        it->at += byte == '"';
        appendStringInfoCharMacro(field, (char)byte);
    }
}

/* Reads a field, and returns whether another follows. */
static bool read_field(reader *it, StringInfo field) {
    if (it->at < it->end && *it->at == '"') {
        read_quoted(it, field);
    }
    while (it->at < it->end) {
        uint8_t byte = *it->at++;
        if (byte == ',' || byte == '\r' || byte == '\n') {
            return byte == ',';
        }
        appendStringInfoCharMacro(field, (char)byte);
    }
    return false;
}

/* Reads the next record, and returns whether there is one. */
static bool read_record(reader *it) {
    while (it->at < it->end && (*it->at == '\r' || *it->at == '\n')) {
        it->at++;
    }
    if (it->at == it->end) {
        return false;
    }
    int count = 0;
    for (int place = 0; place < FIELDS; place++) {
        resetStringInfo(&it->fields[place]);
    }
    while (count < FIELDS && read_field(it, &it->fields[count])) {
        count++;
    }
    if (count < LEAST_FIELDS - 1 || count == FIELDS) {
        misread();
    }
    return true;
}

static bool is_field(const reader *it, int place, const char *word) {
    return strcmp(it->fields[place].data, word) == 0;
}

static pgcal_bytes bytes_of_field(const reader *it, int place) {
    return pgcal_bytes_of_word(it->fields[place].data);
}

/* Returns the number of a field, in a range. */
static int32_t number_of(const reader *it, int place, int32_t least, int32_t most) {
    char *end;
    long number = strtol(it->fields[place].data, &end, 10);
    if (*end || end == it->fields[place].data || number < least || number > most) {
        misread();
    }
    return (int32_t)number;
}

static const char *const WEEKDAYS[] = {"sunday", "monday", "tuesday", "wednesday", "thursday", "friday", "saturday"};

/* Returns the number of a weekday's name, from 0 for Sunday. */
static int32_t weekday_of(const char *name, size_t len) {
    for (int32_t weekday = 0; weekday < (int32_t)lengthof(WEEKDAYS); weekday++) {
        if (strlen(WEEKDAYS[weekday]) == len && memcmp(WEEKDAYS[weekday], name, len) == 0) {
            return weekday;
        }
    }
    misread();
}

/* Returns the weekday of the sixth field, behind a minus if there is one. */
static int32_t last_weekday_of(const reader *it) {
    const char *name = it->fields[5].data;
    name += *name == '-';
    return weekday_of(name, strlen(name));
}

/* Returns the years of the seventh to the ninth field. */
static pgcal_rule_years years_of(const reader *it) {
    pgcal_rule_years years = {PG_INT32_MIN, PG_INT32_MAX, 1};
    if (it->fields[6].len) {
        years.since = number_of(it, 6, -999999, 999999);
    }
    if (it->fields[7].len) {
        years.until = number_of(it, 7, -999999, 999999);
    }
    if (it->fields[8].len) {
        years.every = number_of(it, 8, 1, 400);
    }
    return years;
}

/* Reads the words of the tenth field, such as `saturday-1`: the last two bytes of each are the days. */
static void read_moves(const reader *it, int8_t moves[7]) {
    const char *at = it->fields[9].data;
    while (*at) {
        size_t len = strcspn(at, " ");
        if (len < 2) {
            misread();
        }
        int size = at[len - 1] - '0';
        moves[weekday_of(at, len - 2)] = (int8_t)(at[len - 2] == '-' ? -size : size);
        at += at[len] ? len + 1 : len;
    }
}

/* Reads what a rule of Easter has. */
static void read_easter(const reader *it, pgcal_rule *rule) {
    rule->kind = PGCAL_EASTER;
    rule->easter = rule->chosen.calendar == ICU_CALENDAR_JULIAN ? ICU_CALENDAR_EASTER_JULIAN : ICU_CALENDAR_EASTER_GREGORIAN;
    rule->offset = number_of(it, 4, -400, 400);
}

/* Reads what a recurrence rule has. */
static void read_repeated(const reader *it, pgcal_rule *rule) {
    pgcal_bytes start = bytes_of_field(it, 5);
    uint8_t calendar;
    rule->kind = PGCAL_REPEATED;
    rule->text = pgcal_bytes_of_word(pstrdup(it->fields[4].data));
    if (icu_calendar_day_of_text(start.bytes, start.len, &calendar, &rule->start) || calendar != ICU_CALENDAR_ISO) {
        misread();
    }
}

/* Reads what a rule with a month has. */
static void read_in_month(const reader *it, pgcal_rule *rule) {
    rule->month = pgcal_month_of(rule->chosen, bytes_of_field(it, 3));
    if (is_field(it, 0, "weekday")) {
        rule->kind = PGCAL_WEEKDAY;
        rule->nth = number_of(it, 4, -1, 5);
        rule->weekday = last_weekday_of(it);
        return;
    }
    rule->day = (uint8_t)number_of(it, 4, 1, 31);
    rule->overflow = is_field(it, 5, "constrain") ? ICU_CALENDAR_CONSTRAIN : ICU_CALENDAR_REJECT;
    if (is_field(it, 0, "fixed")) {
        rule->kind = PGCAL_FIXED;
        return;
    }
    if (!is_field(it, 0, "span")) {
        misread();
    }
    rule->kind = PGCAL_SPAN;
    rule->weekday = last_weekday_of(it);
    rule->is_before = it->fields[5].data[0] == '-';
}

/* Reads the rule of a record: kind, name, calendar, month, value, last, since, until, every, moved. */
static pgcal_rule rule_of(const reader *it, uint8_t years) {
    pgcal_rule rule = {.name = cstring_to_text_with_len(it->fields[1].data, it->fields[1].len), .chosen = {.years = years}};
    if (!pgcal_calendar_of(bytes_of_field(it, 2), &rule.chosen.calendar)) {
        misread();
    }
    if (is_field(it, 0, "easter")) {
        read_easter(it, &rule);
    } else if (is_field(it, 0, "rule")) {
        read_repeated(it, &rule);
    } else {
        read_in_month(it, &rule);
    }
    rule.years = years_of(it);
    read_moves(it, rule.moves);
    return rule;
}

/* Reads a book into the memory context of the moment. */
pgcal_book pgcal_read_book(const text *given, uint8_t years) {
    pgcal_bytes bytes = pgcal_bytes_of(given);
    reader it = {.at = bytes.bytes, .end = bytes.bytes + bytes.len};
    pass_lines_before(&it);
    check_book(bytes);
    if (it.end - it.at >= 3 && memcmp(it.at, "\xef\xbb\xbf", 3) == 0) {
        it.at += 3;
    }
    for (int place = 0; place < FIELDS; place++) {
        initStringInfo(&it.fields[place]);
    }
    int room = 64;
    pgcal_book book = {palloc(sizeof(pgcal_rule) * (size_t)room), 0};
    while (read_record(&it)) {
        CHECK_FOR_INTERRUPTS();
        if (book.count == room) {
            room *= 2;
            book.rules = repalloc(book.rules, sizeof(pgcal_rule) * (size_t)room);
        }
        book.rules[book.count++] = rule_of(&it, years);
    }
    return book;
}
