/* A rewrite that is cut: the sector under way answers 25, all others are as before, and asking anew ends as if nothing had been cut. */
#include "check.h"
#include "reads.h"
#include "station.h"
#include "station_test.h"
#include "tracks.h"

#include <string.h>

static uint8_t data[LONGEST_AREA], marks[MOST_SECTORS], contents[1024], image[LONGEST_TRACK], cut[LONGEST_TRACK];

/* Makes so many stores of a rewrite of the sector, or all. */
static void rewrite(const struct track *track, uint32_t sector, uint8_t *target, uint32_t stores) {
    uint32_t plan[4], made;
    SAME(station_request(track->layout, track->cylinder, track->side, sector, STATION_MARK_CONTROL, contents, track->size, target,
                         track->image, plan),
         STATION_DONE);
    for (made = 0; made < stores && made < plan[3]; made++)
        SAME(station_step(plan, STATION_MARK_CONTROL, contents, track->size, target, track->image), STATION_DONE);
}

/* What was formatted, but for one sector, its answer, and what that hands out of the new bytes: no place changes. */
static void reads_as(const struct track *track, size_t sector, uint32_t answer) {
    struct expected expected = whole(track, data, marks);
    gives_block(&expected, track, sector, answer, contents);
    reads(track, cut, track->image, track->sectors * track->size, &expected);
}

/* The new sector is a control record with this letter; the answer is the one after the last store. */
static void cuts(const struct track *track, uint32_t sector, uint8_t letter, uint32_t answer) {
    uint32_t in_all = (uint32_t)(2 * track->size + (track->layout == 0 ? 6 : 7)), i;
    fresh(track, data, marks, image);
    memset(contents, 0xA1, sizeof contents), contents[0] = letter;
    for (i = 0; i < 5; i++) {
        const uint32_t stores[5] = {1, 2, in_all / 2, in_all - 2, in_all - 1};
        memcpy(cut, image, track->image);
        rewrite(track, sector, cut, stores[i]);
        reads_as(track, sector, STATION_ANSWER_OPEN_MARK);
    }
    /* from the last cut on, asked anew */
    rewrite(track, sector, cut, UINT32_MAX);
    reads_as(track, sector, answer);
    rewrite(track, sector, image, UINT32_MAX);
    SAME_BYTES(cut, image, track->image);
}

/* The first sector, one in the middle and the last. */
static void some_sectors(const struct track *track, uint8_t letter, uint32_t answer) {
    cuts(track, 1, letter, answer);
    cuts(track, (uint32_t)track->sectors / 2, letter, answer);
    cuts(track, (uint32_t)track->sectors, letter, answer);
}

void cut_test(void) {
    size_t i;
    for (i = 0; i < 4; i++)
        some_sectors(&TRACKS[i], LETTER_D, STATION_ANSWER_CONTROL);
    /* a planned defect, which no track of cylinder 0 takes */
    for (i = 1; i < 4; i++) {
        struct track track = track_at(i, i == 1 ? 1 : 74, 1);
        some_sectors(&track, LETTER_F, STATION_ANSWER_DEFECTIVE);
    }
}
