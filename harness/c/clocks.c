#include "clocks.h"

static int cell_at(const uint8_t *image, size_t cell) {
    return image[cell / 8] >> (7 - cell % 8) & 1;
}

/* What the rule asks of a clock cell, by the data bits on both sides. */
static int right_clock(int is_fm, int before, int behind) {
    if (is_fm)
        return 1;
    return before == 0 && behind == 0;
}

uint32_t doubtful_clocks(int is_fm, const uint8_t *image, size_t cell, size_t bytes, int before) {
    uint32_t doubtful = 0;
    size_t bit;
    for (bit = 0; bit < 8 * bytes; bit++) {
        int clock = cell_at(image, cell + 2 * bit), behind = cell_at(image, cell + 2 * bit + 1);
        if (clock != right_clock(is_fm, before, behind))
            doubtful++;
        before = behind;
    }
    return doubtful;
}

/* The last data bit of the mark whose last sixteen cells begin there, by its kind: FB, F8 or the open F9. Without one no block is read. */
static int last_bit(int is_fm, const uint8_t *image, size_t cell) {
    static const struct {
        unsigned fm, mfm;
        int bit;
    } KINDS[3] = {{0xF56F, 0x5545, 1}, {0xF56A, 0x554A, 0}, {0xF56B, 0x5549, 1}};
    unsigned cells = 0;
    size_t i;
    for (i = 0; i < 16; i++)
        cells = cells << 1 | (unsigned)cell_at(image, cell + i);
    for (i = 0; i < 3; i++)
        if (cells == (is_fm ? KINDS[i].fm : KINDS[i].mfm))
            return KINDS[i].bit;
    return 0;
}

uint32_t block_clocks(const struct track *track, const uint8_t *image, size_t place) {
    int is_fm = track->layout == 0;
    size_t block = place + 8 * track->mark_length;
    return doubtful_clocks(is_fm, image, block, track->size + 2, last_bit(is_fm, image, block - 16));
}
