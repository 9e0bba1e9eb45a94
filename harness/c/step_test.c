#include "check.h"
#include "station.h"
#include "station_test.h"
#include "tracks.h"

#include <string.h>

static uint8_t data[LONGEST_AREA], marks[MOST_SECTORS], contents[1025], kept[LONGEST + 1];
static struct room room;

/* The plan of a rewrite of sector 2 on a fresh track, in an image of the room. */
static uint8_t *asked(const struct track *track, uint32_t plan[4]) {
    uint8_t *image = lend(&room, track->image, 0);
    fresh(track, data, marks, image);
    memset(contents, 0x3C, sizeof contents);
    SAME(station_request(track->layout, track->cylinder, track->side, 2, STATION_MARK_DATA, contents, track->size, image, track->image, plan),
         STATION_DONE);
    return image;
}

/* A step that is refused: plan and image as they were. */
static void refused(const uint32_t plan[4], uint32_t mark, size_t contents_length, uint8_t *image, size_t image_length, uint8_t number) {
    uint32_t given[4];
    memcpy(given, plan, sizeof given);
    memcpy(kept, image, image_length);
    SAME(station_step(given, mark, contents, contents_length, image, image_length), number);
    SAME_NUMBERS(given, plan, 4);
    SAME_BYTES(image, kept, image_length);
    ROOM_KEPT(&room);
}

/* Each step changes at most the byte that is next, and what comes out is the track formatted with the new bytes. */
static void to_the_end(const struct track *track) {
    static uint8_t expected[LONGEST_TRACK];
    uint32_t plan[4], before[4], made;
    uint8_t *image = asked(track, plan);
    size_t begin = mark_of(track, 2), last_of_mark = begin + track->mark_length - 1;
    uint32_t in_all = plan[3];
    memcpy(data + track->size, contents, track->size), marks[1] = STATION_MARK_DATA;
    SAME(station_format(track->layout, track->cylinder, track->side, data, track->sectors * track->size, marks, track->sectors, expected,
                        track->image),
         STATION_DONE);
    for (made = 0; made < in_all; made++) {
        size_t at = made == 0 || made == in_all - 1 ? last_of_mark : last_of_mark + made;
        memcpy(before, plan, sizeof plan);
        memcpy(kept, image, track->image);
        SAME(station_step(plan, STATION_MARK_DATA, contents, track->size, image, track->image), STATION_DONE);
        before[2] += 1;
        SAME_NUMBERS(plan, before, 4);
        kept[at] = made == 0 ? (track->layout == 0 ? 0x6B : 0x49) : expected[at];
        SAME_BYTES(image, kept, track->image);
    }
    SAME_BYTES(image, expected, track->image);
    ROOM_KEPT(&room);
    refused(plan, STATION_MARK_DATA, track->size, image, track->image, 12);
    plan[2] += 1, refused(plan, STATION_MARK_DATA, track->size, image, track->image, 12);
    plan[2] = UINT32_MAX, refused(plan, STATION_MARK_DATA, track->size, image, track->image, 12);
    plan[3] = UINT32_MAX, refused(plan, STATION_MARK_DATA, track->size, image, track->image, 12);
}

/* The fourth number is only written: a step puts it right. */
static void fourth_number(const struct track *track) {
    uint32_t plan[4], expected[4];
    uint8_t *image = asked(track, plan);
    memcpy(expected, plan, sizeof plan);
    expected[2] = 1, plan[3] = 0;
    SAME(station_step(plan, STATION_MARK_DATA, contents, track->size, image, track->image), STATION_DONE);
    SAME_NUMBERS(plan, expected, 4);
}

static void wrong_calls(const struct track *track) {
    uint32_t plan[4], wrong[4];
    uint8_t *image = asked(track, plan);
    size_t size = track->size, length = track->image, end = mark_of(track, 2) + track->mark_length + 2 * size + 4;
    memcpy(wrong, plan, sizeof plan);
    wrong[0] = 4, refused(wrong, 0xFB, size, image, length, 4);
    wrong[0] = UINT32_MAX, refused(wrong, 0xFB, size, image, length, 4);
    refused(plan, 0xFB, size, image, 0, 1);
    refused(plan, 0xFB, size - 1, image, length, 5);
    refused(plan, 0xFB, size + 1, image, length, 5);
    refused(plan, 0xFB, 0, image, length, 5);
    refused(plan, 0xF9, size, image, length, 6);
    refused(plan, 0x1FB, size, image, length, 6);
    refused(plan, 0, size, image, length, 6);
    refused(plan, 0xFB, size, image, end - 1, 13);
    /* which comes first where all apply */
    wrong[1] = 1, wrong[2] = UINT32_MAX, refused(wrong, 0, 0, image, 0, 4);
    wrong[0] = plan[0], refused(wrong, 0, 0, image, 0, 1);
    refused(wrong, 0, 0, image, 1, 5);
    refused(wrong, 0, size, image, 1, 6);
    refused(wrong, 0xFB, size, image, length, 13);
}

/* Places at which no block stands, and numbers that nobody would hand over. */
static void hostile(const struct track *track) {
    static const uint32_t far[] = {0, 1, 7, 8, 0x7FFFFFFF, 0x80000000, UINT32_MAX - 7, UINT32_MAX};
    uint32_t plan[4], wrong[4];
    uint8_t *image = asked(track, plan);
    size_t i, j;
    memcpy(wrong, plan, sizeof plan);
    for (i = 0; i < sizeof far / sizeof far[0]; i++) {
        for (j = 0; j < sizeof far / sizeof far[0]; j++) {
            wrong[1] = far[i], wrong[2] = far[j], wrong[3] = far[(i + j) % 8];
            refused(wrong, 0xFB, track->size, image, track->image, 13);
        }
    }
    memcpy(wrong, plan, sizeof plan);
    wrong[1] = plan[1] + 1, refused(wrong, 0xFB, track->size, image, track->image, 13);
    wrong[1] = plan[1] + 8, refused(wrong, 0xFB, track->size, image, track->image, 13);
    wrong[1] = plan[1] | 0x80000000, refused(wrong, 0xFB, track->size, image, track->image, 13);
    wrong[1] = (uint32_t)(8 * identifier_of(track, 2)), refused(wrong, 0xFB, track->size, image, track->image, 13);
    /* the mark went away under the plan */
    turn(image, plan[1]), refused(plan, 0xFB, track->size, image, track->image, 13);
}

static void too_long(const struct track *track) {
    uint32_t plan[4];
    uint8_t *image = asked(track, plan);
    memcpy(kept, image, track->image);
    image = lend(&room, LONGEST + 1, 0);
    memcpy(image, kept, track->image);
    refused(plan, 0xFB, track->size, image, LONGEST + 1, 1);
    SAME(station_step(plan, 0xFB, contents, track->size, image, LONGEST), STATION_DONE);
}

void step_test(void) {
    size_t i;
    for (i = 0; i < 4; i++) {
        to_the_end(&TRACKS[i]);
        fourth_number(&TRACKS[i]);
        wrong_calls(&TRACKS[i]);
        hostile(&TRACKS[i]);
        too_long(&TRACKS[i]);
    }
}
