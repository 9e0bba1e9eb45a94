/*
 * Doubtful clocks during a rewrite (02, Req 06), stated and not counted: those of all other sectors stay as they were, after whichever store it is
 * cut, and the sector itself has none after the last.
 */
#include "check.h"
#include "reads.h"
#include "station.h"
#include "station_test.h"
#include "tracks.h"
#include "worn.h"

#include <string.h>

static uint8_t data[LONGEST_AREA], marks[MOST_SECTORS], contents[1024], image[LONGEST_TRACK];

static void asks(const struct track *track, uint32_t sector, uint8_t mark, uint32_t plan[4]) {
    SAME(station_request(track->layout, track->cylinder, track->side, sector, mark, contents, track->size, image, track->image, plan),
         STATION_DONE);
}

/* Makes stores until there are so many. */
static void steps(const struct track *track, uint8_t mark, uint32_t plan[4], uint32_t stores) {
    while (plan[2] < stores)
        SAME(station_step(plan, mark, contents, track->size, image, track->image), STATION_DONE);
}

/* What was read before, but for one sector, which is open, with so many doubtful clocks. */
static void reads_open(const struct track *track, const struct expected *before, uint32_t sector, uint32_t clocks) {
    struct expected expected = *before;
    gives(&expected, track, sector, STATION_ANSWER_OPEN_MARK, place_of(track, sector));
    expected.records[sector - 1].clocks = clocks;
    reads_stated(track, image, track->image, track->sectors * track->size, &expected);
}

/* The same, but the sector was written, with this mark and the new bytes: it has none. */
static void reads_written(const struct track *track, const struct expected *before, uint32_t sector, uint8_t mark) {
    struct expected expected = *before;
    gives_block(&expected, track, sector, answer_of(track, mark, contents[0], 1), contents);
    reads_stated(track, image, track->image, track->sectors * track->size, &expected);
}

/* How many of as many turned clocks are left after the stores: the first store opens the mark, and then each byte of the block has two. */
static uint32_t left_of(const struct track *track, uint32_t count, uint32_t stores) {
    uint32_t left = 0, i;
    for (i = 1; i <= count; i++)
        left += 2 + 2 * (track->size + 2 - i) > stores;
    return left;
}

/*
 * A rewrite with the mark and the bytes that the sector has: nothing changes but the turned clocks, which go one after the other. Besides, the open
 * mark makes so many clocks doubtful in MFM while it stands there.
 */
static void refreshed(const struct track *track, uint32_t sector, uint8_t mark, uint8_t letter, uint32_t by_open_mark) {
    struct expected before;
    uint32_t plan[4], made, opened = track->layout == 0 ? 0 : by_open_mark;
    fill_data(track, 0, data), fill_marks(track, marks);
    marks[sector - 1] = mark, data[(sector - 1) * track->size] = letter;
    memcpy(contents, data + (sector - 1) * track->size, track->size);
    before = lay_worn(track, data, marks, image);
    asks(track, sector, mark, plan);
    for (made = 1; made < plan[3]; made++) {
        steps(track, mark, plan, made);
        /* the first stores, the last, and some between */
        if (made < 8 || made % 64 == 0 || made + 2 * sector + 8 > plan[3])
            reads_open(track, &before, sector, left_of(track, sector, made) + opened);
    }
    steps(track, mark, plan, plan[3]);
    reads_written(track, &before, sector, mark);
}

/*
 * Another mark and other bytes. Before the last store all of these are new, and coded after the new mark's last bit, while F9 stands there, which
 * ends with a ONE: so many clocks are doubtful in MFM.
 */
static void exchanged(const struct track *track, uint8_t was, uint8_t is, uint8_t letter, uint32_t by_open_mark) {
    struct expected before;
    uint32_t plan[4], sector = 5, opened = track->layout == 0 ? 0 : by_open_mark;
    fill_data(track, 0, data), memset(marks, was, track->sectors);
    memset(contents, 0xA1, sizeof contents), contents[0] = letter;
    before = lay_worn(track, data, marks, image);
    /* cut half way, asked anew and cut before the last store, and asked anew once more */
    asks(track, sector, is, plan), steps(track, is, plan, plan[3] / 2);
    asks(track, sector, is, plan), steps(track, is, plan, plan[3] - 1);
    reads_open(track, &before, sector, opened);
    asks(track, sector, is, plan), steps(track, is, plan, plan[3] - 1);
    reads_open(track, &before, sector, opened);
    steps(track, is, plan, plan[3]);
    reads_written(track, &before, sector, is);
}

void clock_cut_test(void) {
    size_t i;
    for (i = 0; i < 4; i++) {
        const struct track *track = &TRACKS[i];
        uint32_t last = (uint32_t)track->sectors;
        refreshed(track, 2, STATION_MARK_DATA, FROM_ZERO, 0);
        refreshed(track, 2, STATION_MARK_DATA, FROM_ONE, 0);
        refreshed(track, 3, STATION_MARK_CONTROL, FROM_ZERO, 1);
        refreshed(track, last, STATION_MARK_CONTROL, FROM_ZERO, 1);
        exchanged(track, STATION_MARK_DATA, STATION_MARK_CONTROL, FROM_ZERO, 1);
        exchanged(track, STATION_MARK_CONTROL, STATION_MARK_DATA, FROM_ZERO, 0);
        exchanged(track, STATION_MARK_CONTROL, STATION_MARK_DATA, FROM_ONE, 0);
        /* control records that no track of cylinder 0 takes, a planned defect among them */
        if (track->cylinder != 0) {
            refreshed(track, 3, STATION_MARK_CONTROL, FROM_ONE, 0);
            exchanged(track, STATION_MARK_DATA, STATION_MARK_CONTROL, FROM_ONE, 0);
            exchanged(track, STATION_MARK_DATA, STATION_MARK_CONTROL, LETTER_F, 1);
        }
    }
}
