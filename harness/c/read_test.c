#include "check.h"
#include "laid.h"
#include "reads.h"
#include "station.h"
#include "station_test.h"
#include "tracks.h"

#include <string.h>

static uint8_t data[LONGEST_AREA], marks[MOST_SECTORS], image[LONGEST + 1];

static void read_back(const struct track *track) {
    struct expected expected;
    fresh(track, data, marks, image);
    expected = whole(track, data, marks);
    reads(track, image, track->image, track->sectors * track->size, &expected);
}

/* Every answer that no letter decides, in one track; sector 1 and the last are left whole. Those by a letter are in letter_test.c. */
static void damaged(const struct track *track) {
    size_t area = track->sectors * track->size, mark = track->mark_length;
    struct expected expected;
    fresh(track, data, marks, image);
    expected = whole(track, data, marks);
    /* a data cell of 2; a clock cell of 1, which does not matter to the answer */
    turn(image, 8 * (mark_of(track, 2) + mark) + 3);
    gives(&expected, track, 2, STATION_ANSWER_WRONG_EDC, place_of(track, 2));
    turn(image, 8 * (mark_of(track, 1) + mark) + 2);
    /* the mark of 3 */
    turn(image, 8 * mark_of(track, 3));
    gives(&expected, track, 3, STATION_ANSWER_NO_BLOCK, STATION_NO_PLACE);
    /* the open mark at 4 */
    image[mark_of(track, 4) + mark - 1] = track->layout == 0 ? 0x6B : 0x49;
    gives(&expected, track, 4, STATION_ANSWER_OPEN_MARK, place_of(track, 4));
    /* the identifier of 5 in the place of that of 6 */
    memcpy(image + identifier_of(track, 6), image + identifier_of(track, 5), mark + 12);
    gives(&expected, track, 5, STATION_ANSWER_DOUBLED, STATION_NO_PLACE);
    gives(&expected, track, 6, STATION_ANSWER_NO_IDENTIFIER, STATION_NO_PLACE);
    reads(track, image, track->image, area, &expected);
    /* the address of 7: its EDC is wrong */
    turn(image, 8 * (identifier_of(track, 7) + mark) + 1);
    gives(&expected, track, 7, STATION_ANSWER_NO_IDENTIFIER, STATION_NO_PLACE);
    expected.counts[0] = 1;
    reads(track, image, track->image, area, &expected);
    /* the capture ends in the block of the last sector */
    gives(&expected, track, track->sectors, STATION_ANSWER_PAST_END, place_of(track, track->sectors));
    reads(track, image, mark_of(track, track->sectors) + mark + 2 * track->size + 3, area, &expected);
}

/* 01, "Small facts": the first data mark of layout 0 begins at image byte 206, of the others at 404. Then all cells, and all places, some later. */
static void places(const struct track *track) {
    size_t later, sector, last = track->sectors, mark = track->mark_length;
    struct expected expected;
    fill_data(track, 0, data), fill_marks(track, marks);
    /* a planned defect at 6, or a forbidden letter */
    marks[5] = STATION_MARK_CONTROL, data[5 * track->size] = LETTER_F;
    lay_track(track, data, marks, image);
    expected = whole(track, data, marks);
    SAME(expected.records[0].place, track->layout == 0 ? 8 * 206 : 8 * 404);
    /* a data cell of 2, the open mark at 4, and the capture ends in the block of the last */
    turn(image, 8 * (mark_of(track, 2) + mark) + 3);
    gives(&expected, track, 2, STATION_ANSWER_WRONG_EDC, place_of(track, 2));
    image[mark_of(track, 4) + mark - 1] = track->layout == 0 ? 0x6B : 0x49;
    gives(&expected, track, 4, STATION_ANSWER_OPEN_MARK, place_of(track, 4));
    gives(&expected, track, last, STATION_ANSWER_PAST_END, place_of(track, last));
    for (later = 0; later < 9; later++) {
        reads(track, image, mark_of(track, last) + mark + 9, last * track->size, &expected);
        move_on(image, track->image + later);
        for (sector = 1; sector <= last; sector++)
            expected.records[sector - 1].place++;
    }
}

/* Another cylinder was asked for: all identifiers are foreign. */
static void foreign(const struct track *track) {
    struct track asked = *track;
    struct expected expected;
    size_t sector;
    asked.cylinder = 33;
    memset(&expected, 0, sizeof expected);
    for (sector = 1; sector <= track->sectors; sector++)
        gives(&expected, track, sector, STATION_ANSWER_NO_IDENTIFIER, STATION_NO_PLACE);
    expected.counts[1] = (uint32_t)track->sectors;
    fresh(track, data, marks, image);
    reads(&asked, image, track->image, track->sectors * track->size, &expected);
}

/* A refused read: zeros in all that was lent, over its whole length. */
static void refused(struct track track, size_t image_length, size_t area_length, uint8_t number) {
    struct expected expected;
    memset(&expected, 0, sizeof expected);
    expected.number = number;
    reads(&track, image, image_length, area_length, &expected);
}

static void refusals(const struct track *track) {
    size_t area = track->sectors * track->size;
    struct track call = *track;
    fresh(track, data, marks, image);
    refused(*track, 0, area, 1);
    refused(*track, LONGEST + 1, area, 1);
    call.cylinder = 75, refused(call, track->image, area, 2);
    call.cylinder = UINT32_MAX, refused(call, track->image, area, 2);
    call = *track, call.side = 2, refused(call, track->image, area, 3);
    call.side = UINT32_MAX, refused(call, track->image, area, 3);
    call = *track, call.layout = 4, refused(call, track->image, area, 4);
    call.layout = UINT32_MAX, refused(call, track->image, area, 4);
    call = *track, call.layout = track->layout == 0 ? 1 : 0, refused(call, track->image, area, 4);
    refused(*track, track->image, area - 1, 5);
    refused(*track, track->image, area + 1, 5);
    refused(*track, track->image, 0, 5);
    /* which comes first where all apply */
    call.layout = 4, call.cylinder = 75, call.side = 2, refused(call, 0, 1, 2);
    call.cylinder = 74, refused(call, 0, 1, 3);
    call.side = 0, refused(call, 0, 1, 4);
    refused(*track, 0, 1, 1);
}

/* 01, "Small facts": 24,576 bytes are read; and the four bytes of the program's example. */
static void lengths(void) {
    struct expected expected;
    size_t sector;
    memset(&expected, 0, sizeof expected);
    for (sector = 1; sector <= 8; sector++)
        gives(&expected, &TRACKS[3], sector, STATION_ANSWER_NO_IDENTIFIER, STATION_NO_PLACE);
    memset(image, 0xFF, sizeof image);
    reads(&TRACKS[3], image, 1, 8192, &expected);
    reads(&TRACKS[3], image, LONGEST, 8192, &expected);
}

void read_test(void) {
    size_t i;
    for (i = 0; i < 4; i++) {
        read_back(&TRACKS[i]);
        damaged(&TRACKS[i]);
        places(&TRACKS[i]);
        refusals(&TRACKS[i]);
    }
    foreign(&TRACKS[2]);
    foreign(&TRACKS[3]);
    lengths();
}
