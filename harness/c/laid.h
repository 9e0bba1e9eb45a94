/* Tracks as the papers lay them down (01, "Order on the track"), without the format: also those that it refuses. */
#ifndef LAID_H
#define LAID_H

#include "tracks.h"

#include <stdint.h>

/* Lays a track down byte by byte, with the sectors' bytes and a mark for each, FB or F8, and with right EDCs. */
void lay_track(const struct track *track, const uint8_t *data, const uint8_t *marks, uint8_t *image);

#endif
