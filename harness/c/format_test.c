#include "check.h"
#include "laid.h"
#include "station.h"
#include "station_test.h"
#include "tracks.h"

#include <string.h>

static uint8_t data[LONGEST_AREA + 1], marks[MOST_SECTORS + 1];
static struct room room;

/* The whole image is what the papers lay down with these data and marks, whatever it held before. */
static void as_laid(const struct track *track) {
    static uint8_t laid[LONGEST_TRACK];
    uint8_t *image = lend(&room, track->image, 0x5A);
    SAME(station_format(track->layout, track->cylinder, track->side, data, track->sectors * track->size, marks, track->sectors, image,
                        track->image),
         STATION_DONE);
    lay_track(track, data, marks, laid);
    SAME_BYTES(image, laid, track->image);
    ROOM_KEPT(&room);
}

static void formats(const struct track *track) {
    fill_data(track, 0, data), fill_marks(track, marks);
    as_laid(track);
}

/* A call that is like the track's but for what is named, its refusal, and the image left as it was. */
struct call {
    uint32_t layout, cylinder, side;
    size_t data_length, marks_length, image_length;
};

static struct call like(const struct track *track) {
    struct call call;
    call.layout = track->layout;
    call.cylinder = track->cylinder;
    call.side = track->side;
    call.data_length = track->sectors * track->size;
    call.marks_length = track->sectors;
    call.image_length = track->image;
    return call;
}

static void refused(struct call call, uint8_t number) {
    uint8_t *image = lend(&room, call.image_length, 0x5A);
    SAME(station_format(call.layout, call.cylinder, call.side, data, call.data_length, marks, call.marks_length, image, call.image_length),
         number);
    ALL(image, 0x5A, call.image_length);
    ROOM_KEPT(&room);
}

static void refusals(const struct track *track) {
    struct call call = like(track);
    size_t sector = track->sectors;
    fill_data(track, 0, data);
    fill_marks(track, marks);

    call.image_length = track->image - 1, refused(call, 1);
    call.image_length = track->image + 1, refused(call, 1);
    call.image_length = 0, refused(call, 1);
    call = like(track), call.cylinder = 75, refused(call, 2);
    call.cylinder = UINT32_MAX, refused(call, 2);
    call = like(track), call.side = 2, refused(call, 3);
    call.side = UINT32_MAX, refused(call, 3);
    call = like(track), call.layout = 4, refused(call, 4);
    call.layout = UINT32_MAX, refused(call, 4);
    call = like(track), call.data_length -= 1, refused(call, 5);
    call.data_length += 2, refused(call, 5);
    call = like(track), call.marks_length -= 1, refused(call, 6);
    call.marks_length += 2, refused(call, 6);
    marks[sector - 1] = 0xF9, refused(like(track), 6);
}

/* Past cylinder 0 every letter of a control record is laid down as it is given, F too, and what follows it. */
static void letters(const struct track *track) {
    unsigned letter;
    fill_data(track, 0, data), memset(marks, 0xF8, track->sectors);
    for (letter = 0; letter < 256; letter += (unsigned)track->sectors)
        fill_letters(track, letter, data), as_laid(track);
}

/* On cylinder 0 none but D is, in the first sector or the last; the letter of a data record may be any. */
static void letters_of_cylinder_0(const struct track *track) {
    uint8_t *last = data + (track->sectors - 1) * track->size;
    unsigned letter;
    fill_data(track, 0, data), memset(marks, 0xF8, track->sectors);
    for (letter = 0; letter < 256; letter++) {
        if (letter == LETTER_D)
            continue;
        data[0] = (uint8_t)letter, refused(like(track), 7), data[0] = LETTER_D;
        *last = (uint8_t)letter, refused(like(track), 7), *last = LETTER_D;
    }
    as_laid(track);
    memset(marks, 0xFB, track->sectors);
    for (letter = 0; letter < 256; letter += (unsigned)track->sectors)
        fill_letters(track, letter, data), as_laid(track);
}

/* Layouts on tracks that do not take them, and which refusal comes first where all apply. */
static void order(void) {
    struct call call = like(&TRACKS[3]);
    fill_marks(&TRACKS[3], marks);
    call.cylinder = 0, call.side = 0, refused(call, 4);
    call.side = 1, refused(call, 4);
    call = like(&TRACKS[0]), call.side = 1, refused(call, 4);
    call = like(&TRACKS[1]), call.side = 0, refused(call, 4);
    call = like(&TRACKS[0]), call.cylinder = 1, refused(call, 4);

    call = like(&TRACKS[0]);
    call.cylinder = 75, call.side = 2, call.layout = 4, call.image_length = 1, call.data_length = 1, call.marks_length = 1;
    marks[0] = 0;
    refused(call, 2);
    call.cylinder = 0, refused(call, 3);
    call.side = 0, refused(call, 4);
    call.layout = 0, refused(call, 1);
    call.image_length = TRACKS[0].image, refused(call, 5);
    call.data_length = 26 * 128, memset(data, 0, call.data_length), refused(call, 6);
    call.marks_length = 26, refused(call, 6);
    memset(marks, 0xF8, 26), refused(call, 7);
}

void format_test(void) {
    size_t i;
    for (i = 0; i < 4; i++) {
        formats(&TRACKS[i]);
        refusals(&TRACKS[i]);
    }
    for (i = 1; i < 4; i++) {
        struct track track = track_at(i, 37, 1);
        letters(&track);
    }
    letters_of_cylinder_0(&TRACKS[0]);
    letters_of_cylinder_0(&TRACKS[1]);
    order();
}
