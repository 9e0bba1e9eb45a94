#include "check.h"

#include <stdio.h>
#include <string.h>

enum { BESIDE = 0xC3, SAID_AT_MOST = 20 };

static unsigned long made, differing;

/* Whether a difference is to be said: after some there is nothing to learn from more. */
static int differs(const char *file, int line, const char *what) {
    differing++;
    if (differing > SAID_AT_MOST)
        return 0;
    fprintf(stderr, "%s:%d: %s", file, line, what);
    return 1;
}

void same(const char *file, int line, const char *what, unsigned long got, unsigned long expected) {
    made++;
    if (got != expected && differs(file, line, what))
        fprintf(stderr, " is %lu (hex %lX), not %lu (hex %lX)\n", got, got, expected, expected);
}

void same_bytes(const char *file, int line, const char *what, const uint8_t *got, const uint8_t *expected, size_t length) {
    size_t i = 0;
    made++;
    while (i < length && got[i] == expected[i])
        i++;
    if (i < length && differs(file, line, what))
        fprintf(stderr, "[%lu] is %02X, not %02X\n", (unsigned long)i, got[i], expected[i]);
}

void same_numbers(const char *file, int line, const char *what, const uint32_t *got, const uint32_t *expected, size_t count) {
    size_t i = 0;
    made++;
    while (i < count && got[i] == expected[i])
        i++;
    if (i < count && differs(file, line, what))
        fprintf(stderr, "[%lu] is %lu, not %lu\n", (unsigned long)i, (unsigned long)got[i], (unsigned long)expected[i]);
}

void same_records(const char *file, int line, const char *what, const struct station_record *got, const struct station_record *expected,
                  size_t count) {
    size_t i = 0;
    made++;
    while (i < count && got[i].answer == expected[i].answer && got[i].place == expected[i].place && got[i].clocks == expected[i].clocks)
        i++;
    if (i < count && differs(file, line, what))
        fprintf(stderr, "[%lu] is %lu at %lu with %lu doubtful clocks, not %lu at %lu with %lu\n", (unsigned long)i, (unsigned long)got[i].answer,
                (unsigned long)got[i].place, (unsigned long)got[i].clocks, (unsigned long)expected[i].answer, (unsigned long)expected[i].place,
                (unsigned long)expected[i].clocks);
}

void same_sections(const char *file, int line, const char *what, const struct station_sections *got, const struct station_sections *expected) {
    uint32_t numbers[2][8];
    memcpy(numbers[0], got, sizeof numbers[0]), memcpy(numbers[1], expected, sizeof numbers[1]);
    same_numbers(file, line, what, numbers[0], numbers[1], 8);
}

void all(const char *file, int line, const char *what, const uint8_t *got, uint8_t value, size_t length) {
    size_t i = 0;
    made++;
    while (i < length && got[i] == value)
        i++;
    if (i < length && differs(file, line, what))
        fprintf(stderr, "[%lu] is %02X, not %02X\n", (unsigned long)i, got[i], value);
}

uint8_t *lend(struct room *room, size_t length, uint8_t fill) {
    room->length = length;
    memset(room->bytes, BESIDE, sizeof room->bytes);
    memset(room->bytes + MARGIN, fill, length);
    return room->bytes + MARGIN;
}

void room_kept(const char *file, int line, const char *what, const struct room *room) {
    all(file, line, what, room->bytes, BESIDE, MARGIN);
    all(file, line, what, room->bytes + MARGIN + room->length, BESIDE, sizeof room->bytes - MARGIN - room->length);
}

int checks_end(void) {
    if (differing == 0)
        printf("the C test made %lu checks, all as expected\n", made);
    else
        printf("the C test made %lu checks, %lu of them not as expected\n", made, differing);
    return differing != 0;
}
