/* Cartridges to test with, and their files as the paper lays them down (02, Req 03). */
#ifndef FILES_H
#define FILES_H

#include "station.h"

#include <stddef.h>
#include <stdint.h>

/* The longest label and the most tracks; then what follows for the answers, with layout 1, and for data and file, with layout 3. */
enum { LONGEST_LABEL = 80, MOST_TRACKS = 150, MOST_ANSWERS = 3900, LONGEST_DATA = 1222400, LONGEST_FILE = 1224182 };

/* What a file is written from, right or wrong: each section can be one element too long. */
struct cartridge {
    size_t label_length, tracks_length, answers_length, data_length;
    uint8_t label[LONGEST_LABEL + 1], tracks[3 * (MOST_TRACKS + 1)], answers[MOST_ANSWERS + 1], data[LONGEST_DATA + 1];
};

/* Nothing: no label and no track. */
void no_cartridge(struct cartridge *cartridge);

/* A track more; its sectors answer in turn by `answers`, of which there are so many, and those that answer 1, 2 or 3 get data. */
void add_track(struct cartridge *cartridge, uint8_t cylinder, uint8_t side, uint8_t layout, const uint8_t *answers, size_t count);

/* A label of 21 bytes, and six tracks, of each layout and from the first to the last, with every answer. Their file is shorter than a room. */
void some_cartridge(struct cartridge *cartridge);

/* The longest label and all tracks, from cylinder 1 on with this layout; every sector answers 1. */
void full_cartridge(struct cartridge *cartridge, uint8_t layout);

/* Puts a number down in four bytes, the most significant first. */
void put_count(uint8_t *bytes, size_t count);

/* Lays the sections down one after the other, right or wrong, each behind its count: the bytes of the file. */
size_t lay_file(const struct cartridge *cartridge, uint8_t *file);

/* Where the sections are then. */
struct station_sections sections_of(const struct cartridge *cartridge);

/* Writes into an area of so many bytes, at most a room's, which held something else: the file, and zeros behind it. */
void is_written(const struct cartridge *cartridge, size_t area_length);

/* The same where it is refused: zeros. */
void not_written(const struct cartridge *cartridge, size_t area_length, uint8_t number);

/* Reads a file, or bytes that are none, into sections that held something else. */
void is_read(const uint8_t *file, size_t length, const struct station_sections *sections);
void not_read(const uint8_t *file, size_t length, uint8_t number);

#endif
