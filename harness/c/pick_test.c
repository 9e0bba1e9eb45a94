#include "check.h"
#include "station.h"
#include "station_test.h"
#include "tracks.h"

#include <string.h>

/* What the passes' records say beside the answer: each its own, so that none is taken for another. No block has as many clocks as the second says. */
enum { ONE, TWO };
static const uint32_t PLACES[2] = {3232, 3233}, CLOCKS[2] = {8208, UINT32_MAX};

static uint8_t first[LONGEST_AREA + 1], second[LONGEST_AREA + 1];
static struct station_record first_records[26], second_records[26];

/* What is picked of a sector: the record that is handed on, and the pass, the first byte and the length that are taken. */
struct picked {
    uint8_t number;
    struct station_record record;
    uint32_t taken[3];
};

/* A pick into what held something else before. The areas stay as they are, and so do the records. */
static void picks(uint32_t layout, uint32_t sector, size_t first_length, size_t second_length, const struct picked *expected) {
    struct station_record kept[2][26], handed[2], other = record(0xDEADBEEF, 0xDEADBEEF, 0xDEADBEEF);
    uint32_t taken[4] = {0xDEADBEEF, 0xDEADBEEF, 0xDEADBEEF, 0xDEADBEEF};
    handed[0] = handed[1] = other;
    memcpy(kept[0], first_records, sizeof kept[0]), memcpy(kept[1], second_records, sizeof kept[1]);
    SAME(station_pick(layout, sector, first, first_length, first_records, second, second_length, second_records, taken, handed),
         expected->number);
    SAME_NUMBERS(taken, expected->taken, 3);
    SAME_RECORDS(handed, &expected->record, 1);
    SAME(taken[3], 0xDEADBEEF);
    SAME_RECORDS(handed + 1, &other, 1);
    ALL(first, 1, sizeof first);
    ALL(second, 2, sizeof second);
    SAME_RECORDS(first_records, kept[0], 26);
    SAME_RECORDS(second_records, kept[1], 26);
}

/* The answers of both passes for a sector; what is handed on, whose place and clocks go with it, and the pass that is taken, 0 for neither. */
static void both(const struct track *track, size_t sector, uint32_t one, uint32_t two, uint32_t answer, int whose, uint32_t pass) {
    size_t area = track->sectors * track->size;
    struct picked expected = {0, {0, 0, 0}, {0, 0, 0}};
    first_records[sector - 1] = record(one, PLACES[ONE], CLOCKS[ONE]);
    second_records[sector - 1] = record(two, PLACES[TWO], CLOCKS[TWO]);
    expected.number = (uint8_t)answer;
    expected.record = record(answer, PLACES[whose], CLOCKS[whose]);
    if (pass != 0) {
        expected.taken[0] = pass;
        expected.taken[1] = (uint32_t)((sector - 1) * track->size);
        expected.taken[2] = (uint32_t)track->size;
    }
    picks(track->layout, (uint32_t)sector, area, area, &expected);
}

/* One record for all sectors of both passes. */
static void fill(struct station_record same) {
    size_t i;
    for (i = 0; i < 26; i++)
        first_records[i] = second_records[i] = same;
}

static void passes(const struct track *track) {
    size_t sector;
    for (sector = 1; sector <= track->sectors; sector++) {
        uint32_t good, other, bad;
        fill(record(STATION_ANSWER_WRONG_EDC, 7, 9));
        for (good = 1; good <= 3; good++) {
            /* a planned defect of the first pass goes before a record of the second */
            for (other = 1; other <= 3; other++)
                both(track, sector, good, other, good, ONE, 1);
            for (bad = 21; bad <= 27; bad++) {
                both(track, sector, good, bad, good, ONE, 1);
                both(track, sector, bad, good, good, TWO, 2);
            }
        }
        for (bad = 21; bad <= 27; bad++)
            both(track, sector, bad, 48 - bad, bad, ONE, 0);
        /* no answer's number counts as 21, also one whose low byte is an answer's; place and clocks are handed on as they are */
        both(track, sector, 0, 26, 21, ONE, 0);
        both(track, sector, 255, 4, 21, ONE, 0);
        both(track, sector, 28, 27, 21, ONE, 0);
        both(track, sector, 257, 259, 21, ONE, 0);
        both(track, sector, UINT32_MAX, 0x80000001, 21, ONE, 0);
        both(track, sector, 4, 1, 1, TWO, 2);
        both(track, sector, 258, 2, 2, TWO, 2);
    }
}

/* A refused pick: zeros in all that it hands on. */
static void refused(uint32_t layout, uint32_t sector, size_t first_length, size_t second_length, uint8_t number) {
    struct picked expected = {0, {0, 0, 0}, {0, 0, 0}};
    expected.number = number;
    picks(layout, sector, first_length, second_length, &expected);
}

static void refusals(const struct track *track) {
    size_t area = track->sectors * track->size;
    uint32_t layout = track->layout, last = (uint32_t)track->sectors;
    fill(record(STATION_ANSWER_DATA, PLACES[ONE], CLOCKS[ONE]));
    refused(4, 1, area, area, 4);
    refused(UINT32_MAX, 1, area, area, 4);
    refused(layout, 0, area, area, 9);
    refused(layout, last + 1, area, area, 9);
    refused(layout, UINT32_MAX, area, area, 9);
    refused(layout, last, area - 1, area, 5);
    refused(layout, last, area + 1, area, 5);
    refused(layout, last, area, area - 1, 5);
    refused(layout, last, area, area + 1, 5);
    refused(layout, last, 0, 0, 5);
    /* which comes first where all apply */
    refused(4, 0, 0, 0, 4);
    refused(layout, 0, 0, 0, 9);
}

void pick_test(void) {
    size_t i;
    memset(first, 1, sizeof first), memset(second, 2, sizeof second);
    for (i = 0; i < 4; i++) {
        passes(&TRACKS[i]);
        refusals(&TRACKS[i]);
    }
}
