#include "worn.h"

#include "laid.h"

size_t clock_of(const struct track *track, size_t sector, size_t byte, size_t clock) {
    return 8 * (mark_of(track, sector) + track->mark_length) + 16 * byte + 2 * clock;
}

void turn_clocks(const struct track *track, size_t sector, size_t count, uint8_t *image) {
    size_t i;
    for (i = 1; i <= count; i++)
        turn(image, clock_of(track, sector, track->size + 2 - i, 0));
}

void put_mark(const struct track *track, size_t sector, uint8_t mark, uint8_t *image) {
    int is_fm = track->layout == 0;
    uint8_t *last = image + mark_of(track, sector) + track->mark_length - 1;
    if (mark == 0xFB)
        *last = is_fm ? 0x6F : 0x45;
    else if (mark == 0xF8)
        *last = is_fm ? 0x6A : 0x4A;
    else
        *last = is_fm ? 0x6B : 0x49;
}

struct expected lay_worn(const struct track *track, const uint8_t *data, const uint8_t *marks, uint8_t *image) {
    struct expected expected = whole(track, data, marks);
    uint32_t sector;
    lay_track(track, data, marks, image);
    for (sector = 1; sector <= track->sectors; sector++) {
        turn_clocks(track, sector, sector, image);
        expected.records[sector - 1].clocks = sector;
    }
    return expected;
}
