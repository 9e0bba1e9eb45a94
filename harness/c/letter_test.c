/*
 * Control records by their first byte (02, Req 04; 004, 7.4.2.4.3): on cylinders 1 to 74 F is a planned defect, whatever the EDC, and on cylinder 0 all
 * but D are refused. Tracks are laid down, since most of these letters can't be formatted on cylinder 0.
 */
#include "check.h"
#include "laid.h"
#include "reads.h"
#include "station.h"
#include "station_test.h"
#include "tracks.h"

#include <string.h>

/* In a block's first byte: the data cell in which D and F differ, and a clock cell. */
enum { BETWEEN = 13, CLOCK = 12 };

static uint8_t data[LONGEST_AREA], marks[MOST_SECTORS], image[LONGEST_TRACK];

/* One letter in the data of all sectors. */
static void put_letter(const struct track *track, uint8_t letter) {
    size_t i;
    for (i = 0; i < track->sectors; i++)
        data[i * track->size] = letter;
}

/* All sectors with one mark and one letter. */
static void lay_all(const struct track *track, uint8_t mark, uint8_t letter) {
    fill_data(track, 0, data), memset(marks, mark, track->sectors);
    put_letter(track, letter);
    lay_track(track, data, marks, image);
}

/* Turns a cell in every block, counted from behind the mark. */
static void turn_all(const struct track *track, size_t cell) {
    size_t sector;
    for (sector = 1; sector <= track->sectors; sector++)
        turn(image, 8 * (mark_of(track, sector) + track->mark_length) + cell);
}

/* Reads all of the track, where every EDC is right, or every one wrong. */
static void read_all(const struct track *track, int is_right) {
    struct expected expected = whole(track, data, marks);
    size_t sector;
    for (sector = 1; sector <= track->sectors; sector++) {
        const uint8_t *bytes = data + (sector - 1) * track->size;
        gives_block(&expected, track, sector, answer_of(track, marks[sector - 1], bytes[0], is_right), bytes);
    }
    reads(track, image, track->image, track->sectors * track->size, &expected);
}

/* Every letter behind a mark, and other bytes behind it. The EDC is wrong by a cell of the second byte, of the last, or of its own. */
static void every_letter(const struct track *track, uint8_t mark) {
    const size_t end = 16 * track->size, wrong[4] = {17, end - 1, end + 1, end + 31};
    unsigned letter, i;
    fill_data(track, 0, data), memset(marks, mark, track->sectors);
    for (letter = 0; letter < 256; letter += (unsigned)track->sectors) {
        fill_letters(track, letter, data);
        lay_track(track, data, marks, image);
        read_all(track, 1);
        for (i = 0; i < 4; i++) {
            turn_all(track, wrong[i]);
            read_all(track, 0);
            turn_all(track, wrong[i]);
        }
        /* a clock cell makes nothing wrong */
        turn_all(track, CLOCK);
        read_all(track, 1);
    }
}

/* A letter that damage made of another is the one that counts. The EDC is wrong then. */
static void damaged_letter(const struct track *track, uint8_t mark, uint8_t was, uint8_t is) {
    lay_all(track, mark, was);
    turn_all(track, BETWEEN);
    put_letter(track, is);
    read_all(track, 0);
}

/* 22, 23, 24 and 25 come before 3, and before 27. */
static void other_answers(const struct track *track) {
    size_t area = track->sectors * track->size, mark = track->mark_length, last = track->sectors;
    size_t end = mark_of(track, last) + mark + 2 * track->size + 4;
    struct expected expected;
    lay_all(track, STATION_MARK_CONTROL, LETTER_F);
    expected = whole(track, data, marks);
    /* the capture ends right behind the last block, and then a byte before */
    reads(track, image, end, area, &expected);
    gives(&expected, track, last, STATION_ANSWER_PAST_END, place_of(track, last));
    reads(track, image, end - 1, area, &expected);
    /* the mark of 2, the open mark at 3, the identifier of 5 in the place of that of 6 */
    turn(image, 8 * mark_of(track, 2));
    gives(&expected, track, 2, STATION_ANSWER_NO_BLOCK, STATION_NO_PLACE);
    image[mark_of(track, 3) + mark - 1] = track->layout == 0 ? 0x6B : 0x49;
    gives(&expected, track, 3, STATION_ANSWER_OPEN_MARK, place_of(track, 3));
    memcpy(image + identifier_of(track, 6), image + identifier_of(track, 5), mark + 12);
    gives(&expected, track, 5, STATION_ANSWER_DOUBLED, STATION_NO_PLACE);
    gives(&expected, track, 6, STATION_ANSWER_NO_IDENTIFIER, STATION_NO_PLACE);
    reads(track, image, end - 1, area, &expected);
}

static void letters(const struct track *track) {
    every_letter(track, STATION_MARK_CONTROL);
    every_letter(track, STATION_MARK_DATA);
    damaged_letter(track, STATION_MARK_CONTROL, LETTER_D, LETTER_F);
    damaged_letter(track, STATION_MARK_CONTROL, LETTER_F, LETTER_D);
    damaged_letter(track, STATION_MARK_DATA, LETTER_D, LETTER_F);
    other_answers(track);
}

/* One letter in the papers' numbers, not by the rule of answer_of: what sector 3 answers with its EDC right, and with a data cell turned. */
static void answers(const struct track *track, uint8_t mark, uint8_t letter, uint32_t right, uint32_t wrong) {
    size_t area = track->sectors * track->size;
    const uint8_t *bytes = data + 2 * track->size;
    struct expected expected;
    fill_data(track, 0, data), fill_marks(track, marks);
    expected = whole(track, data, marks);
    marks[2] = mark, data[2 * track->size] = letter;
    lay_track(track, data, marks, image);
    gives_block(&expected, track, 3, right, bytes);
    reads(track, image, track->image, area, &expected);
    turn(image, 8 * (mark_of(track, 3) + track->mark_length) + 33);
    gives_block(&expected, track, 3, wrong, bytes);
    reads(track, image, track->image, area, &expected);
}

static void on_cylinder_0(const struct track *track) {
    answers(track, 0xF8, 0x46, 27, 26);
    answers(track, 0xF8, 0x45, 27, 26);
    answers(track, 0xF8, 0x44, 2, 26);
    answers(track, 0xF8, 0x00, 27, 26);
    answers(track, 0xFB, 0x46, 1, 26);
}

static void past_cylinder_0(const struct track *track) {
    answers(track, 0xF8, 0x46, 3, 3);
    answers(track, 0xF8, 0x45, 2, 26);
    answers(track, 0xF8, 0x44, 2, 26);
    answers(track, 0xF8, 0x00, 2, 26);
    answers(track, 0xFB, 0x46, 1, 26);
}

/* A planned defect that was formatted, on every track that can have one: neither its other bytes nor its EDC show. */
static void formatted(const struct track *track) {
    size_t area = track->sectors * track->size;
    struct expected expected;
    fill_data(track, 0, data), fill_marks(track, marks);
    expected = whole(track, data, marks);
    marks[1] = STATION_MARK_CONTROL, data[track->size] = LETTER_F;
    gives_block(&expected, track, 2, STATION_ANSWER_DEFECTIVE, NULL);
    SAME(station_format(track->layout, track->cylinder, track->side, data, area, marks, track->sectors, image, track->image), STATION_DONE);
    reads(track, image, track->image, area, &expected);
    turn(image, 8 * (mark_of(track, 2) + track->mark_length + 2 * track->size) + 1);
    reads(track, image, track->image, area, &expected);
}

/* A step knows no cylinder: bytes other than those of the request can put a forbidden letter on cylinder 0, which is then read as one. */
static void by_steps(const struct track *track) {
    static uint8_t contents[256];
    struct expected expected;
    uint32_t plan[4];
    fresh(track, data, marks, image);
    expected = whole(track, data, marks);
    memset(contents, LETTER_F, sizeof contents);
    SAME(station_request(track->layout, 0, track->side, 4, STATION_MARK_DATA, contents, track->size, image, track->image, plan), STATION_DONE);
    while (plan[2] < plan[3])
        SAME(station_step(plan, STATION_MARK_CONTROL, contents, track->size, image, track->image), STATION_DONE);
    gives(&expected, track, 4, STATION_ANSWER_FORBIDDEN_LETTER, place_of(track, 4));
    reads(track, image, track->image, track->sectors * track->size, &expected);
}

void letter_test(void) {
    size_t i;
    uint32_t place;
    for (i = 0; i < 2; i++) {
        on_cylinder_0(&TRACKS[i]);
        letters(&TRACKS[i]);
        by_steps(&TRACKS[i]);
    }
    for (i = 1; i < 4; i++) {
        struct track track = track_at(i, i == 2 ? 74 : 1, i % 2);
        past_cylinder_0(&track);
        letters(&track);
        for (place = 2; place < 150; place++) {
            track = track_at(i, place / 2, place % 2);
            formatted(&track);
        }
    }
}
