/* Tracks with doubtful clocks (02, Req 06), of which a test can state how many there are. */
#ifndef WORN_H
#define WORN_H

#include "reads.h"
#include "tracks.h"

#include <stddef.h>
#include <stdint.h>

/* First bytes by their first bit: D, which a control record on cylinder 0 needs, and one that differs from it in that bit alone. */
enum { FROM_ZERO = LETTER_D, FROM_ONE = LETTER_D | 0x80 };

/* A clock cell of a sector's block, by the byte, from 0 on, those of the EDC being N and N + 1, and the clock in it. Its data cell is the next. */
size_t clock_of(const struct track *track, size_t sector, size_t byte, size_t clock);

/* Turns the first clock cell in as many of a block's bytes, from its last on: those of the EDC go first. */
void turn_clocks(const struct track *track, size_t sector, size_t count, uint8_t *image);

/* Puts a mark in the place of a sector's, without a change of the EDC: FB, F8, or F9, the open one. */
void put_mark(const struct track *track, size_t sector, uint8_t mark, uint8_t *image);

/* Lays a track down on which each sector has as many doubtful clocks as its number says. What it gives, with these numbers. */
struct expected lay_worn(const struct track *track, const uint8_t *data, const uint8_t *marks, uint8_t *image);

#endif
