#include "reads.h"

#include "check.h"
#include "clocks.h"

#include <string.h>

static struct room room;

struct expected whole(const struct track *track, const uint8_t *data, const uint8_t *marks) {
    struct expected expected;
    size_t sector;
    memset(&expected, 0, sizeof expected);
    for (sector = 1; sector <= track->sectors; sector++) {
        const uint8_t *bytes = data + (sector - 1) * track->size;
        gives_block(&expected, track, sector, answer_of(track, marks[sector - 1], bytes[0], 1), bytes);
    }
    return expected;
}

void gives(struct expected *expected, const struct track *track, size_t sector, uint32_t answer, uint32_t place) {
    expected->records[sector - 1] = record(answer, place, 0);
    memset(expected->area + (sector - 1) * track->size, 0, track->size);
}

void gives_block(struct expected *expected, const struct track *track, size_t sector, uint32_t answer, const uint8_t *bytes) {
    uint8_t *slot = expected->area + (sector - 1) * track->size;
    gives(expected, track, sector, answer, place_of(track, sector));
    if (answer == STATION_ANSWER_DATA || answer == STATION_ANSWER_CONTROL)
        memcpy(slot, bytes, track->size);
    if (answer == STATION_ANSWER_DEFECTIVE)
        slot[0] = LETTER_F;
}

void reads_stated(const struct track *track, const uint8_t *image, size_t image_length, size_t area_length, const struct expected *expected) {
    uint8_t *area = lend(&room, area_length, 0x77);
    uint32_t counts[3] = {0xDEADBEEF, 0xDEADBEEF, 0xDEADBEEF};
    struct station_record records[27], other = record(0x99999999, 0x88888888, 0x77777777);
    size_t i;
    for (i = 0; i < 27; i++)
        records[i] = other;
    SAME(station_read(track->layout, track->cylinder, track->side, image, image_length, area, area_length, records, counts),
         expected->number);
    SAME_BYTES(area, expected->area, area_length);
    SAME_RECORDS(records, expected->records, 26);
    SAME_NUMBERS(counts, expected->counts, 2);
    SAME_RECORDS(records + 26, &other, 1);
    SAME(counts[2], 0xDEADBEEF);
    ROOM_KEPT(&room);
}

/* Whether the answer says that a whole block was found behind the one identifier. */
static int has_block(uint32_t answer) {
    return answer == STATION_ANSWER_DATA || answer == STATION_ANSWER_CONTROL || answer == STATION_ANSWER_DEFECTIVE ||
           answer == STATION_ANSWER_OPEN_MARK || answer == STATION_ANSWER_WRONG_EDC || answer == STATION_ANSWER_FORBIDDEN_LETTER;
}

void reads(const struct track *track, const uint8_t *image, size_t image_length, size_t area_length, const struct expected *expected) {
    struct expected counted = *expected;
    size_t i;
    for (i = 0; i < 26; i++) {
        struct station_record *told = &counted.records[i];
        told->clocks = has_block(told->answer) ? block_clocks(track, image, told->place) : 0;
    }
    reads_stated(track, image, image_length, area_length, &counted);
}
