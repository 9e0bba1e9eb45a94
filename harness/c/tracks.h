/* Tracks to test with, by the papers' tables (01, "The image and the four layouts", "Order on the track"). */
#ifndef TRACKS_H
#define TRACKS_H

#include "station.h"

#include <stddef.h>
#include <stdint.h>

enum { MOST_SECTORS = 26, LONGEST_AREA = 8192, LONGEST_TRACK = 20832 };

/* The first bytes of control records that the papers speak of (02, Req 04; 004, 7.4.2.4.3). */
enum { LETTER_D = 0x44, LETTER_F = 0x46 };

struct track {
    uint32_t layout, cylinder, side;
    size_t sectors, size, image;
    /* image bytes: where the marks of sector 1 begin, their length, and the bytes from one sector to the next */
    size_t identifier, data_mark, mark_length, stride;
};

/* One track of each layout, by layout. */
extern const struct track TRACKS[4];

/* The track of a layout at another cylinder and side. */
struct track track_at(size_t layout, uint32_t cylinder, uint32_t side);

/* Where the identifier mark and the data mark of a sector begin, in image bytes. */
size_t identifier_of(const struct track *track, size_t sector);
size_t mark_of(const struct track *track, size_t sector);

/* Bytes that differ from sector to sector; `seed` gives others. The first of each sector is D, which a control record on cylinder 0 needs. */
void fill_data(const struct track *track, uint8_t seed, uint8_t *data);

/* Puts other first bytes there, rising by sector from this one on; after 255 comes 0. */
void fill_letters(const struct track *track, unsigned letter, uint8_t *data);

/* Data records, but every third sector a control record. */
void fill_marks(const struct track *track, uint8_t *marks);

/* A formatted track with the data and marks above. */
void fresh(const struct track *track, uint8_t *data, uint8_t *marks, uint8_t *image);

/* A record of these numbers. */
struct station_record record(uint32_t answer, uint32_t place, uint32_t clocks);

/* The cell at which the mark of a sector begins on a formatted track. */
uint32_t place_of(const struct track *track, size_t sector);

/* What a block answers that is whole (01, "How a track is read"; 02, Req 04), by its mark, FB or F8, its first byte, and whether its EDC is right. */
uint32_t answer_of(const struct track *track, uint8_t mark, uint8_t letter, int is_right);

/* Turns one cell of an image. */
void turn(uint8_t *image, size_t cell);

/* Moves all cells of an image one later, into one byte more. */
void move_on(uint8_t *image, size_t length);

#endif
