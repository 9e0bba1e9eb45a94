/*
 * Doubtful clocks (02, Req 06): the clock cells of a sector's block, its bytes and its EDC's, that are not by the mode's rule. Here and in
 * clock_cut_test.c the numbers are stated, worked out by hand; in all other tests clocks.c counts them.
 */
#include "check.h"
#include "laid.h"
#include "reads.h"
#include "station.h"
#include "station_test.h"
#include "tracks.h"
#include "worn.h"

#include <string.h>

static uint8_t data[LONGEST_AREA], marks[MOST_SECTORS], image[LONGEST + 1];

/* All of the image, with the numbers that are stated. */
static void as_stated(const struct track *track, const struct expected *expected) {
    reads_stated(track, image, track->image, track->sectors * track->size, expected);
}

/* A format leaves none, whatever the letter behind the mark. */
static void formatted(const struct track *track, uint8_t mark) {
    size_t area = track->sectors * track->size;
    unsigned letter;
    fill_data(track, 0, data), memset(marks, mark, track->sectors);
    for (letter = 0; letter < 256; letter += (unsigned)track->sectors) {
        struct expected expected;
        fill_letters(track, letter, data);
        SAME(station_format(track->layout, track->cylinder, track->side, data, area, marks, track->sectors, image, track->image), STATION_DONE);
        expected = whole(track, data, marks);
        as_stated(track, &expected);
    }
}

/* Reads with one cell turned, and turns it back. */
static void with_turned(const struct track *track, size_t cell, const struct expected *expected) {
    turn(image, cell);
    as_stated(track, expected);
    turn(image, cell);
}

/* Each clock cell of the first byte, of one in the middle, of the last and of both of the EDC: one in this sector, and none in another. */
static void one_clock(const struct track *track, size_t sector) {
    const size_t size = track->size, bytes[5] = {0, size / 2, size - 1, size, size + 1};
    struct expected expected;
    size_t i, clock;
    fresh(track, data, marks, image);
    expected = whole(track, data, marks);
    as_stated(track, &expected);
    expected.records[sector - 1].clocks = 1;
    for (i = 0; i < 5; i++)
        for (clock = 0; clock < 8; clock++)
            with_turned(track, clock_of(track, sector, bytes[i], clock), &expected);
}

/* One clock cell of every byte of a block; of bytes that stand alike in a word of eight it is not always the same. */
static void every_byte(const struct track *track) {
    struct expected expected;
    size_t byte;
    fresh(track, data, marks, image);
    expected = whole(track, data, marks);
    expected.records[1].clocks = 1;
    for (byte = 0; byte < track->size + 2; byte++)
        with_turned(track, clock_of(track, 2, byte, (byte + byte / 8) % 8), &expected);
}

/* All clock cells of all blocks: 8 * (N + 2) in each sector. */
static void every_clock(const struct track *track) {
    static const uint32_t most[4] = {1040, 2064, 4112, 8208};
    struct expected expected;
    size_t sector, clock;
    fresh(track, data, marks, image);
    expected = whole(track, data, marks);
    for (sector = 1; sector <= track->sectors; sector++) {
        expected.records[sector - 1].clocks = most[track->layout];
        for (clock = 0; clock < most[track->layout]; clock++)
            turn(image, clock_of(track, sector, 0, clock));
    }
    as_stated(track, &expected);
}

/* Clock cells around a block are none of it: those of the address, which may be wrong too, and the first one behind the block. */
static void outside(const struct track *track, size_t sector) {
    size_t address = 8 * (identifier_of(track, sector) + track->mark_length), clock;
    struct expected expected;
    fresh(track, data, marks, image);
    expected = whole(track, data, marks);
    for (clock = 0; clock < 8 * 6; clock++) {
        turn(image, address + 2 * clock);
        as_stated(track, &expected);
    }
    turn(image, clock_of(track, sector, track->size + 2, 0));
    as_stated(track, &expected);
}

/* Without any one of its mark's clock cells there is no block, and nothing is counted: neither this cell nor those behind the mark. */
static void in_the_mark(const struct track *track, size_t sector) {
    size_t cell;
    struct expected expected;
    fresh(track, data, marks, image);
    expected = whole(track, data, marks);
    turn_clocks(track, sector, 5, image);
    gives(&expected, track, sector, STATION_ANSWER_NO_BLOCK, STATION_NO_PLACE);
    for (cell = place_of(track, sector); cell < clock_of(track, sector, 0, 0); cell += 2)
        with_turned(track, cell, &expected);
}

/*
 * A block of sector 2, behind FB, with one byte throughout, also for its EDC, by the cells of each half in FM and in MFM. None is doubtful, the first
 * clock being 0 in MFM after the mark's ONE. Then one of its data bits is turned, which in FM no clock goes by: so many are doubtful in MFM.
 */
static void turned_bit(const struct track *track, uint8_t fm, uint8_t mfm, size_t bit, uint32_t clocks) {
    uint8_t *block = image + mark_of(track, 2) + track->mark_length;
    struct expected expected;
    fresh(track, data, marks, image);
    expected = whole(track, data, marks);
    gives(&expected, track, 2, STATION_ANSWER_WRONG_EDC, place_of(track, 2));
    memset(block, track->layout == 0 ? fm : mfm, 2 * (track->size + 2));
    block[0] = track->layout == 0 ? fm : mfm & 0x7F;
    as_stated(track, &expected);
    turn(image, clock_of(track, 2, 0, bit) + 1);
    expected.records[1].clocks = track->layout == 0 ? 0 : clocks;
    as_stated(track, &expected);
}

static void turned_bits(const struct track *track) {
    size_t last = 8 * (track->size + 2) - 1;
    /* 00, a ONE among ZEROs: both clocks beside it are 1, and have to be 0. So it is where the second is the next byte's, or the EDC's */
    turned_bit(track, 0xAA, 0xAA, 83, 2);
    turned_bit(track, 0xAA, 0xAA, 7, 2);
    turned_bit(track, 0xAA, 0xAA, last - 16, 2);
    turned_bit(track, 0xAA, 0xAA, last - 8, 2);
    /* the first bit: the clock before it is 0 already. The last bit: the clock behind it is the gap's */
    turned_bit(track, 0xAA, 0xAA, 0, 1);
    turned_bit(track, 0xAA, 0xAA, last, 1);
    /* FF, a ZERO among ONEs: both clocks are 0, as they have to be */
    turned_bit(track, 0xFF, 0x55, 83, 0);
    turned_bit(track, 0xFF, 0x55, last, 0);
    /* 55, a ZERO in the place of a ONE: both clocks have to be 1 now; a ONE in the place of a ZERO: still 0 */
    turned_bit(track, 0xBB, 0x11, 81, 2);
    turned_bit(track, 0xBB, 0x11, 82, 0);
    /* 33, 1001 to 1101: the second clock has to be 0 now. 0011 to 0001: the first clock has to be 1 now */
    turned_bit(track, 0xAF, 0x25, 80, 1);
    turned_bit(track, 0xAF, 0x25, 82, 1);
}

/* The first clock goes by the last bit of the mark that stands there, not by that of the one with which the sector was laid down. */
static void exchanged(const struct track *track, uint8_t was, uint8_t letter, uint8_t is, uint32_t clocks) {
    uint32_t answer = is == 0xF9 ? STATION_ANSWER_OPEN_MARK : answer_of(track, is, letter, is == was);
    struct expected expected;
    fill_data(track, 0, data), fill_marks(track, marks);
    marks[1] = was, data[track->size] = letter;
    lay_track(track, data, marks, image);
    put_mark(track, 2, is, image);
    expected = whole(track, data, marks);
    gives_block(&expected, track, 2, answer, data + track->size);
    expected.records[1].clocks = track->layout == 0 ? 0 : clocks;
    as_stated(track, &expected);
}

/* FB and F9 end with a ONE, F8 with a ZERO: that matters where the first bit of the block is a ZERO. */
static void bit_before(const struct track *track) {
    exchanged(track, 0xFB, FROM_ZERO, 0xFB, 0);
    exchanged(track, 0xFB, FROM_ZERO, 0xF8, 1);
    exchanged(track, 0xFB, FROM_ZERO, 0xF9, 0);
    exchanged(track, 0xF8, FROM_ZERO, 0xFB, 1);
    exchanged(track, 0xF8, FROM_ZERO, 0xF8, 0);
    exchanged(track, 0xF8, FROM_ZERO, 0xF9, 1);
    exchanged(track, 0xFB, FROM_ONE, 0xFB, 0);
    exchanged(track, 0xFB, FROM_ONE, 0xF8, 0);
    exchanged(track, 0xFB, FROM_ONE, 0xF9, 0);
    exchanged(track, 0xF8, FROM_ONE, 0xFB, 0);
    exchanged(track, 0xF8, FROM_ONE, 0xF8, 0);
    exchanged(track, 0xF8, FROM_ONE, 0xF9, 0);
}

/* A sector with this answer, and its doubtful clocks, which are there though no bytes are. */
static void gives_worn(struct expected *expected, const struct track *track, uint32_t sector, uint32_t answer) {
    gives_block(expected, track, sector, answer, NULL);
    expected->records[sector - 1].clocks = sector;
}

/* Every answer: the sum is there with a whole block, and 0 with 21 to 24. Data are FF, in which a turned data bit makes no clock doubtful. */
static void every_answer(const struct track *track) {
    size_t area = track->sectors * track->size, mark = track->mark_length, last = track->sectors;
    size_t end = mark_of(track, last) + mark + 2 * track->size + 4;
    struct expected expected;
    memset(data, 0xFF, area), memset(marks, STATION_MARK_DATA, last);
    marks[1] = STATION_MARK_CONTROL, data[track->size] = LETTER_D;
    marks[2] = STATION_MARK_CONTROL, data[2 * track->size] = LETTER_F;
    expected = lay_worn(track, data, marks, image);
    /* 1 and 2; at 3 a planned defect, or a forbidden letter; then its EDC is wrong, and that of 1 */
    reads_stated(track, image, end, area, &expected);
    turn(image, clock_of(track, 3, 40, 4) + 1), gives_worn(&expected, track, 3, track->cylinder == 0 ? 26 : 3);
    turn(image, clock_of(track, 1, 40, 4) + 1), gives_worn(&expected, track, 1, 26);
    put_mark(track, 4, 0xF9, image), gives_worn(&expected, track, 4, 25);
    memcpy(image + identifier_of(track, 6), image + identifier_of(track, 5), mark + 12);
    gives(&expected, track, 5, 22, STATION_NO_PLACE), gives(&expected, track, 6, 21, STATION_NO_PLACE);
    turn(image, place_of(track, 7)), gives(&expected, track, 7, 23, STATION_NO_PLACE);
    reads_stated(track, image, end, area, &expected);
    /* the capture ends a byte before the last block does, or right behind its mark */
    gives(&expected, track, last, 24, place_of(track, last));
    reads_stated(track, image, end - 1, area, &expected);
    reads_stated(track, image, mark_of(track, last) + mark, area, &expected);
}

/* All cells some later: the same doubtful clocks from each bit of a byte on. */
static void later(const struct track *track) {
    struct expected expected;
    size_t moved, sector;
    fill_data(track, 0, data), fill_marks(track, marks);
    expected = lay_worn(track, data, marks, image);
    for (moved = 0; moved < 9; moved++) {
        reads_stated(track, image, track->image + moved, track->sectors * track->size, &expected);
        move_on(image, track->image + moved);
        for (sector = 1; sector <= track->sectors; sector++)
            expected.records[sector - 1].place++;
    }
}

/* The records of a pass over a fresh track, on which so many clocks of sector 2 are turned. */
static void passes(const struct track *track, size_t count, struct station_record records[26]) {
    uint32_t counts[2];
    fresh(track, data, marks, image);
    turn_clocks(track, 2, count, image);
    SAME(station_read(track->layout, track->cylinder, track->side, image, track->image, data, track->sectors * track->size, records, counts),
         STATION_DONE);
}

/* A pick from two passes, its number, and the record that is handed on. */
static void picks(const struct track *track, uint32_t sector, struct station_record passes[2][26], uint8_t number, struct station_record expected) {
    size_t area = track->sectors * track->size;
    struct station_record handed = record(0xDEADBEEF, 0xDEADBEEF, 0xDEADBEEF);
    uint32_t taken[3];
    SAME(station_pick(track->layout, sector, data, area, passes[0], data, area, passes[1], taken, &handed), number);
    SAME_RECORDS(&handed, &expected, 1);
}

/* The clocks go with the record, and decide nothing: the first pass is taken though the second has fewer. */
static void picked(const struct track *track) {
    struct station_record both[2][26];
    uint32_t place = place_of(track, 2);
    passes(track, 7, both[0]), passes(track, 3, both[1]);
    picks(track, 2, both, 1, record(1, place, 7));
    both[0][1].answer = 26, picks(track, 2, both, 1, record(1, place, 3));
    both[1][1].answer = 25, picks(track, 2, both, 26, record(26, place, 7));
    both[0][1].answer = 28, picks(track, 2, both, 21, record(21, place, 7));
    both[0][1].clocks = UINT32_MAX, picks(track, 2, both, 21, record(21, place, UINT32_MAX));
    picks(track, 27, both, 9, record(0, 0, 0));
}

static void of_sector(const struct track *track, size_t sector) {
    one_clock(track, sector);
    outside(track, sector);
    in_the_mark(track, sector);
}

void clock_test(void) {
    size_t i;
    for (i = 0; i < 4; i++) {
        const struct track *track = &TRACKS[i];
        formatted(track, STATION_MARK_DATA);
        if (track->cylinder != 0)
            formatted(track, STATION_MARK_CONTROL);
        /* the first sector, one with a control mark and the last */
        of_sector(track, 1);
        of_sector(track, 3);
        of_sector(track, track->sectors);
        every_byte(track);
        every_clock(track);
        turned_bits(track);
        bit_before(track);
        every_answer(track);
        later(track);
        picked(track);
    }
}
