#include "laid.h"

#include "check.h"
#include "station.h"

#include <string.h>

struct laying {
    uint8_t *image;
    size_t at;
    int fm;
    uint8_t before;
};

static void lay(struct laying *laying, uint8_t byte, size_t times) {
    for (; times > 0; times--) {
        uint16_t pair = laying->fm ? station_code_fm(laying->before, byte) : station_code_mfm(laying->before, byte);
        laying->image[laying->at++] = (uint8_t)(pair >> 8);
        laying->image[laying->at++] = (uint8_t)(pair & 0xFF);
        laying->before = byte & 1;
    }
}

/* The fixed string of a mark: in FM two bytes, in MFM three times the same two and then two. `byte` is what it stands for. */
static void lay_mark(struct laying *laying, uint16_t thrice, uint16_t last, uint8_t byte) {
    int i;
    for (i = laying->fm ? 3 : 0; i < 4; i++) {
        uint16_t pair = i < 3 ? thrice : last;
        laying->image[laying->at++] = (uint8_t)(pair >> 8);
        laying->image[laying->at++] = (uint8_t)(pair & 0xFF);
    }
    laying->before = byte & 1;
}

/* A mark, the bytes after it, and the EDC over both. */
static void lay_field(struct laying *laying, uint16_t last, uint8_t mark, const uint8_t *bytes, size_t count) {
    uint8_t covered[4 + 1024] = {0xA1, 0xA1, 0xA1};
    size_t i;
    uint16_t edc;
    covered[3] = mark;
    memcpy(covered + 4, bytes, count);
    edc = laying->fm ? station_edc(covered + 3, 1 + count) : station_edc(covered, 4 + count);
    lay_mark(laying, 0x4489, last, mark);
    for (i = 0; i < count; i++)
        lay(laying, bytes[i], 1);
    lay(laying, (uint8_t)(edc >> 8), 1);
    lay(laying, (uint8_t)(edc & 0xFF), 1);
}

static void lay_sector(struct laying *laying, const struct track *track, size_t sector, uint8_t mark, const uint8_t *bytes) {
    static const size_t gaps[4] = {27, 54, 84, 116};
    int fm = laying->fm, control = mark == 0xF8;
    uint8_t filler = fm ? 0xFF : 0x4E, address[4];
    address[0] = (uint8_t)track->cylinder, address[1] = (uint8_t)track->side;
    address[2] = (uint8_t)sector, address[3] = (uint8_t)track->layout;
    lay(laying, 0x00, fm ? 6 : 12);
    SAME(laying->at, identifier_of(track, sector));
    lay_field(laying, fm ? 0xF57E : 0x5554, 0xFE, address, 4);
    lay(laying, filler, fm ? 11 : 22);
    lay(laying, 0x00, fm ? 6 : 12);
    SAME(laying->at, mark_of(track, sector));
    lay_field(laying, fm ? (control ? 0xF56A : 0xF56F) : (control ? 0x554A : 0x5545), mark, bytes, track->size);
    lay(laying, filler, gaps[track->layout]);
}

void lay_track(const struct track *track, const uint8_t *data, const uint8_t *marks, uint8_t *image) {
    static const size_t ends[4] = {247, 598, 400, 654};
    struct laying laying = {NULL, 0, 0, 0};
    uint8_t filler = track->layout == 0 ? 0xFF : 0x4E;
    size_t sector;
    laying.image = image, laying.fm = track->layout == 0;
    lay(&laying, filler, laying.fm ? 40 : 80);
    lay(&laying, 0x00, laying.fm ? 6 : 12);
    lay_mark(&laying, 0x5224, laying.fm ? 0xF77A : 0x5552, 0xFC);
    lay(&laying, filler, laying.fm ? 26 : 50);
    for (sector = 1; sector <= track->sectors; sector++)
        lay_sector(&laying, track, sector, marks[sector - 1], data + (sector - 1) * track->size);
    lay(&laying, filler, ends[track->layout]);
    SAME(laying.at, track->image);
}
