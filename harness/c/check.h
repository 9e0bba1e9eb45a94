/* Counts what is compared, and says where something is not as expected. */
#ifndef CHECK_H
#define CHECK_H

#include "station.h"

#include <stddef.h>
#include <stdint.h>

#define SAME(got, expected) same(__FILE__, __LINE__, #got, (unsigned long)(got), (unsigned long)(expected))
#define SAME_BYTES(got, expected, length) same_bytes(__FILE__, __LINE__, #got, got, expected, length)
#define SAME_NUMBERS(got, expected, count) same_numbers(__FILE__, __LINE__, #got, got, expected, count)
#define SAME_RECORDS(got, expected, count) same_records(__FILE__, __LINE__, #got, got, expected, count)
#define SAME_SECTIONS(got, expected) same_sections(__FILE__, __LINE__, #got, got, expected)
#define ALL(got, value, length) all(__FILE__, __LINE__, #got, got, value, length)
#define ROOM_KEPT(room) room_kept(__FILE__, __LINE__, #room, room)

void same(const char *file, int line, const char *what, unsigned long got, unsigned long expected);
void same_bytes(const char *file, int line, const char *what, const uint8_t *got, const uint8_t *expected, size_t length);
void same_numbers(const char *file, int line, const char *what, const uint32_t *got, const uint32_t *expected, size_t count);
void same_records(const char *file, int line, const char *what, const struct station_record *got, const struct station_record *expected,
                  size_t count);
void same_sections(const char *file, int line, const char *what, const struct station_sections *got, const struct station_sections *expected);
void all(const char *file, int line, const char *what, const uint8_t *got, uint8_t value, size_t length);

/* An area that is lent, with bytes before and after it that must stay as they are. */
enum { MARGIN = 64, LONGEST = 24576 };
struct room {
    size_t length;
    uint8_t bytes[MARGIN + LONGEST + 1 + MARGIN];
};

/* The first byte of an area of so many bytes, all of them `fill`. */
uint8_t *lend(struct room *room, size_t length, uint8_t fill);
void room_kept(const char *file, int line, const char *what, const struct room *room);

/* Prints how many checks were made; 0 if all were as expected. */
int checks_end(void);

#endif
