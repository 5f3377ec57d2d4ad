/* The program calspan in C, as a call of the library: its words, its input, its output and its exit status. */
#include <stdio.h>
#include <stdlib.h>
#include <string.h>

#include "icu_calendar.h"

struct text {
    uint8_t *bytes;
    size_t len;
};

/* Room for `room` bytes, at least one, so that the pointer isn't null. */
static uint8_t *some_room(size_t room) {
    uint8_t *bytes = malloc(room ? room : 1);
    if (!bytes) {
        exit(CALSPAN_NO_MEMORY);
    }
    return bytes;
}

/* The words with a single space between two of them. */
static struct text joined(int count, char **words) {
    struct text it = {NULL, 0};
    size_t room = 0;
    for (int i = 0; i < count; i++) {
        room += strlen(words[i]) + 1;
    }
    it.bytes = some_room(room);
    for (int i = 0; i < count; i++) {
        if (i > 0) {
            it.bytes[it.len++] = ' ';
        }
        memcpy(it.bytes + it.len, words[i], strlen(words[i]));
        it.len += strlen(words[i]);
    }
    return it;
}

static struct text all_of(FILE *from) {
    size_t room = 1 << 16;
    struct text it = {some_room(room), 0};
    for (;;) {
        size_t count = fread(it.bytes + it.len, 1, room - it.len, from);
        it.len += count;
        if (count == 0) {
            return it;
        }
        if (it.len == room) {
            room *= 2;
            uint8_t *more = realloc(it.bytes, room);
            if (!more) {
                exit(CALSPAN_NO_MEMORY);
            }
            it.bytes = more;
        }
    }
}

int main(int argc, char **argv) {
    struct text words = joined(argc - 1, argv + 1);
    struct text input = all_of(stdin);
    size_t room = 16, written = 0;
    uint8_t *output = some_room(room);
    uint8_t status = calspan(words.bytes, words.len, input.bytes, input.len, output, room, &written);
    if (status == CALSPAN_NO_ROOM) {
        free(output);
        room = written;
        output = some_room(room);
        status = calspan(words.bytes, words.len, input.bytes, input.len, output, room, &written);
    }
    fwrite(output, 1, written, stdout);
    free(words.bytes);
    free(input.bytes);
    free(output);
    return status;
}
