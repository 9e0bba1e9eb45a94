/* Reads of tracks, and what they are to give. */
#ifndef READS_H
#define READS_H

#include "station.h"
#include "tracks.h"

#include <stddef.h>
#include <stdint.h>

struct expected {
    uint8_t number;
    struct station_record records[26];
    uint32_t counts[2];
    uint8_t area[LONGEST_AREA + 1];
};

/* What a track gives on which nothing is wrong but, maybe, its letters. */
struct expected whole(const struct track *track, const uint8_t *data, const uint8_t *marks);

/* A sector that comes without bytes: its answer, and its place. No doubtful clocks are stated. */
void gives(struct expected *expected, const struct track *track, size_t sector, uint32_t answer, uint32_t place);

/* A sector at its place, whose block has these bytes, and what its slot holds with the answer: with 1 and 2 all of them, with 3 F alone, else none. */
void gives_block(struct expected *expected, const struct track *track, size_t sector, uint32_t answer, const uint8_t *bytes);

/* Reads an image into an area of so many bytes; all that is lent held something else before. The doubtful clocks are to be those that are stated. */
void reads_stated(const struct track *track, const uint8_t *image, size_t image_length, size_t area_length, const struct expected *expected);

/* The same, but the doubtful clocks are to be those that the blocks in this image have, counted by clocks.c, whatever is stated. */
void reads(const struct track *track, const uint8_t *image, size_t image_length, size_t area_length, const struct expected *expected);

#endif
