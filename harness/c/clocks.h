/* Doubtful clocks, counted cell by cell in the words of the papers (02, Req 06; 01, "The image and the four layouts"). */
#ifndef CLOCKS_H
#define CLOCKS_H

#include "tracks.h"

#include <stddef.h>
#include <stdint.h>

/* How many clock cells of so many bytes, the first of which begins at a cell, are not by the mode's rule. `before` is the data bit before them. */
uint32_t doubtful_clocks(int is_fm, const uint8_t *image, size_t cell, size_t bytes, int before);

/* How many those of a whole block are, its bytes and its EDC's, behind the data, control or open mark that begins at a cell. */
uint32_t block_clocks(const struct track *track, const uint8_t *image, size_t place);

#endif
