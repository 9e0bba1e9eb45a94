#include "check.h"
#include "laid.h"
#include "reads.h"
#include "station.h"
#include "station_test.h"
#include "tracks.h"

#include <string.h>

static uint8_t data[LONGEST_AREA], marks[MOST_SECTORS], contents[1025], image[LONGEST + 1], kept[LONGEST + 1];

/* A request: all that is handed over. */
struct request {
    struct track track;
    uint32_t sector, mark;
    size_t contents_length, image_length;
};

static struct request like(const struct track *track) {
    struct request request;
    request.track = *track;
    request.sector = 2;
    request.mark = STATION_MARK_DATA;
    request.contents_length = track->size;
    request.image_length = track->image;
    return request;
}

/* The answer to a request, the plan, and the image as it was. */
static void requests(struct request r, uint8_t number, const uint32_t plan_expected[4]) {
    uint32_t plan[5] = {0xDEADBEEF, 0xDEADBEEF, 0xDEADBEEF, 0xDEADBEEF, 0xDEADBEEF};
    memcpy(kept, image, sizeof image);
    SAME(station_request(r.track.layout, r.track.cylinder, r.track.side, r.sector, r.mark, contents, r.contents_length, image,
                         r.image_length, plan),
         number);
    SAME_NUMBERS(plan, plan_expected, 4);
    SAME(plan[4], 0xDEADBEEF);
    SAME_BYTES(image, kept, sizeof image);
}

static void refused(struct request request, uint8_t number) {
    static const uint32_t zeros[4] = {0, 0, 0, 0};
    requests(request, number, zeros);
}

/* Every sector has a plan: its mark's first cell, and 2N + 7 stores, or 2N + 6 in FM and at the image's end. */
static void plans(const struct track *track) {
    struct request request = like(track);
    uint32_t plan[4], sector;
    fresh(track, data, marks, image);
    for (sector = 1; sector <= track->sectors; sector++) {
        request.sector = sector;
        request.mark = sector % 2 ? STATION_MARK_DATA : STATION_MARK_CONTROL;
        contents[0] = 0x44;
        plan[0] = track->layout;
        plan[1] = place_of(track, sector);
        plan[2] = 0;
        plan[3] = (uint32_t)(2 * track->size + (track->layout == 0 ? 6 : 7));
        requests(request, 0, plan);
    }
    request.image_length = mark_of(track, track->sectors) + track->mark_length + 2 * track->size + 4;
    plan[3] = (uint32_t)(2 * track->size + 6);
    requests(request, 0, plan);
    request.image_length -= 1, refused(request, 10);
}

static void wrong_calls(const struct track *track) {
    struct request r = like(track);
    fresh(track, data, marks, image);
    r.track.cylinder = 75, refused(r, 2);
    r.track.cylinder = UINT32_MAX, refused(r, 2);
    r = like(track), r.track.side = 2, refused(r, 3);
    r.track.side = UINT32_MAX, refused(r, 3);
    r = like(track), r.track.layout = 4, refused(r, 4);
    r.track.layout = UINT32_MAX, refused(r, 4);
    r.track.layout = track->layout == 0 ? 1 : 0, refused(r, 4);
    r = like(track), r.image_length = 0, refused(r, 1);
    r.image_length = LONGEST + 1, refused(r, 1);
    r = like(track), r.sector = 0, refused(r, 9);
    r.sector = (uint32_t)track->sectors + 1, refused(r, 9);
    r.sector = UINT32_MAX, refused(r, 9);
    r = like(track), r.contents_length -= 1, refused(r, 5);
    r.contents_length += 2, refused(r, 5);
    r = like(track), r.mark = 0xF9, refused(r, 6);
    r.mark = 0x1FB, refused(r, 6);
    if (track->cylinder == 0) {
        r = like(track), r.mark = STATION_MARK_CONTROL;
        contents[0] = 0x45, refused(r, 7);
        contents[0] = LETTER_F, refused(r, 7);
    }
}

/* Sector 2 of the image has a plan. */
static void found(const struct track *track) {
    uint32_t plan[4];
    plan[0] = track->layout, plan[1] = place_of(track, 2), plan[2] = 0;
    plan[3] = (uint32_t)(2 * track->size + (track->layout == 0 ? 6 : 7));
    requests(like(track), 0, plan);
}

/* What reading answers with 21 to 24 is refused 10; a block with a wrong EDC, or an open one, may be rewritten. */
static void unreadable(const struct track *track) {
    struct request r = like(track);
    fresh(track, data, marks, image);
    turn(image, 8 * (mark_of(track, 2) + track->mark_length) + 3);
    found(track);
    image[mark_of(track, 2) + track->mark_length - 1] = track->layout == 0 ? 0x6B : 0x49;
    found(track);
    r.image_length = mark_of(track, 2) + track->mark_length + 5, refused(r, 10);
    r.image_length = track->image;
    turn(image, 8 * mark_of(track, 2)), refused(r, 10);
    memcpy(image + identifier_of(track, 6), image + identifier_of(track, 5), track->mark_length + 12);
    r.sector = 5, refused(r, 10);
    r.sector = 6, refused(r, 10);
}

/* So may one that a letter keeps from being read: on cylinder 0 a forbidden one, elsewhere that of a planned defect. */
static void lettered(const struct track *track) {
    struct expected expected;
    fill_data(track, 0, data), fill_marks(track, marks);
    marks[1] = STATION_MARK_CONTROL, data[track->size] = LETTER_F;
    lay_track(track, data, marks, image);
    expected = whole(track, data, marks);
    SAME(expected.records[1].answer, track->cylinder == 0 ? 27 : 3);
    reads(track, image, track->image, track->sectors * track->size, &expected);
    found(track);
    turn(image, 8 * (mark_of(track, 2) + track->mark_length) + 17);
    found(track);
}

/* All cells one later: every block can be read, none is on a byte boundary. */
static void off_boundary(const struct track *track) {
    fresh(track, data, marks, image);
    move_on(image, track->image);
    refused(like(track), 11);
}

/* Which refusal comes first where all apply. */
static void order(void) {
    struct request r = like(&TRACKS[0]);
    r.track.cylinder = 75, r.track.side = 2, r.track.layout = 4;
    r.image_length = 0, r.sector = 0, r.contents_length = 0, r.mark = 0, contents[0] = 0;
    memset(image, 0, sizeof image);
    refused(r, 2);
    r.track.cylinder = 0, refused(r, 3);
    r.track.side = 0, refused(r, 4);
    r.track.layout = 0, refused(r, 1);
    r.image_length = 1, refused(r, 9);
    r.sector = 1, refused(r, 5);
    r.contents_length = 128, refused(r, 6);
    r.mark = STATION_MARK_CONTROL, refused(r, 7);
    contents[0] = 0x44, refused(r, 10);
}

void request_test(void) {
    size_t i;
    for (i = 0; i < 4; i++) {
        plans(&TRACKS[i]);
        wrong_calls(&TRACKS[i]);
        unreadable(&TRACKS[i]);
        lettered(&TRACKS[i]);
        off_boundary(&TRACKS[i]);
    }
    order();
}
