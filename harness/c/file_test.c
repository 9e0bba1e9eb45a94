/* What a file holds: the same is taken and the same is refused in writing and in reading. */
#include "check.h"
#include "files.h"
#include "station.h"
#include "station_test.h"

#include <string.h>

static struct cartridge cartridge;
static uint8_t file[LONGEST], again[LONGEST];

/* The file is written and read; and what is read, written once more, is the same file. */
static void taken(void) {
    size_t length = lay_file(&cartridge, file);
    struct station_sections found = sections_of(&cartridge);
    uint32_t written[1];
    is_written(&cartridge, length);
    is_read(file, length, &found);
    SAME(station_file_write(file + found.label_place, found.label_count, file + found.tracks_place, 3 * found.tracks_count,
                            file + found.answers_place, found.answers_count, file + found.data_place, found.data_count, again, length,
                            written),
         STATION_DONE);
    SAME(written[0], length);
    SAME_BYTES(again, file, length);
}

/* What no file holds: it is not written, however long the area is, and not read where it is laid down all the same. */
static void refused(uint8_t number) {
    not_written(&cartridge, LONGEST, number);
    not_written(&cartridge, 0, number);
    not_read(file, lay_file(&cartridge, file), number);
}

/* 02, Req 03: sixteen bytes, all of them counts. */
static void nothing(void) {
    static const struct station_sections places = {4, 0, 8, 0, 12, 0, 16, 0};
    no_cartridge(&cartridge);
    taken();
    ALL(file, 0, 16);
    is_read(file, 16, &places);
}

static void labels(void) {
    for (some_cartridge(&cartridge); cartridge.label_length <= LONGEST_LABEL; cartridge.label_length++)
        taken();
    refused(32);
    no_cartridge(&cartridge), cartridge.label_length = LONGEST_LABEL, taken();
    cartridge.label_length++, refused(32);
}

static int is_track(unsigned cylinder, unsigned side, unsigned layout) {
    if (cylinder == 0)
        return side <= 1 && layout == side;
    return cylinder <= 74 && side <= 1 && layout >= 1 && layout <= 3;
}

/* One track by its three numbers, whatever they are, and no sector with data. */
static void one_track(uint8_t cylinder, uint8_t side, uint8_t layout) {
    static const uint8_t answers[] = {21, 26};
    no_cartridge(&cartridge);
    add_track(&cartridge, cylinder, side, layout <= 3 ? layout : 0, answers, 2);
    cartridge.tracks[2] = layout;
}

static void tracks(void) {
    static const uint8_t sides[] = {0, 1, 2, 255}, layouts[] = {0, 1, 2, 3, 4, 255};
    unsigned cylinder, i, j;
    for (cylinder = 0; cylinder <= 255; cylinder++)
        for (i = 0; i < sizeof sides; i++)
            for (j = 0; j < sizeof layouts; j++) {
                int is_border = cylinder <= 1 || cylinder == 74 || cylinder == 75 || cylinder == 255;
                one_track((uint8_t)cylinder, sides[i], layouts[j]);
                if (is_track(cylinder, sides[i], layouts[j]))
                    taken();
                else if (is_border)
                    refused(32);
                else
                    not_read(file, lay_file(&cartridge, file), 32);
            }
}

/* Every two of six tracks: they rise, or they are no list. Then a third that is like the first, or below it. */
static void order(void) {
    static const uint8_t answers[] = {21};
    uint8_t first, second;
    for (first = 0; first < 6; first++)
        for (second = 0; second < 6; second++) {
            no_cartridge(&cartridge);
            add_track(&cartridge, first / 2, first % 2, first == 0 ? 0 : 1, answers, 1);
            add_track(&cartridge, second / 2, second % 2, second == 0 ? 0 : 1, answers, 1);
            if (second > first) {
                taken();
                add_track(&cartridge, first / 2, first % 2, first == 0 ? 0 : 1, answers, 1);
            }
            refused(32);
        }
    /* another layout does not make it another track */
    no_cartridge(&cartridge);
    add_track(&cartridge, 7, 1, 1, answers, 1), add_track(&cartridge, 7, 1, 2, answers, 1), refused(32);
    /* the last of many */
    some_cartridge(&cartridge), cartridge.tracks[3 * 5] = 75, refused(32);
    some_cartridge(&cartridge), cartridge.tracks[3 * 5 + 2] = 0, refused(32);
}

/* Every byte in the place of an answer without data, and of one with: what data is missing, or is too much, is met after it. */
static void answer_bytes(void) {
    unsigned byte;
    for (byte = 0; byte <= 255; byte++) {
        int has_data = byte >= 1 && byte <= 3, has_none = byte >= 21 && byte <= 27;
        some_cartridge(&cartridge), cartridge.answers[1] = (uint8_t)byte;
        if (has_none)
            taken();
        else
            refused(has_data ? 34 : 33);
        some_cartridge(&cartridge), cartridge.answers[3] = (uint8_t)byte;
        if (has_data)
            taken();
        else
            refused(has_none ? 34 : 33);
    }
    some_cartridge(&cartridge), cartridge.answers[cartridge.answers_length - 1] = 28, refused(33);
    some_cartridge(&cartridge), cartridge.answers_length--, refused(33);
    some_cartridge(&cartridge), cartridge.answers[cartridge.answers_length++] = 21, refused(33);
    some_cartridge(&cartridge), cartridge.answers_length = 0, refused(33);
    no_cartridge(&cartridge), cartridge.answers[cartridge.answers_length++] = 21, refused(33);
}

static void data_counts(void) {
    some_cartridge(&cartridge), cartridge.data_length--, refused(34);
    some_cartridge(&cartridge), cartridge.data_length++, refused(34);
    some_cartridge(&cartridge), cartridge.data_length -= 128, refused(34);
    some_cartridge(&cartridge), cartridge.data_length = 0, refused(34);
    no_cartridge(&cartridge), cartridge.data_length = 1, refused(34);
}

/* Which comes first where all apply: what was wrong is put right from the label on. */
static void first_met(void) {
    some_cartridge(&cartridge);
    cartridge.label_length = LONGEST_LABEL + 1, cartridge.tracks[1] = 2, cartridge.answers[0] = 0, cartridge.data_length--;
    refused(32);
    cartridge.label_length = LONGEST_LABEL, refused(32);
    cartridge.tracks[1] = 0, cartridge.answers_length--, refused(33);
    cartridge.answers_length++, refused(33);
    cartridge.answers[0] = 1, refused(34);
    cartridge.data_length++, taken();
}

void file_test(void) {
    nothing();
    labels();
    tracks();
    order();
    answer_bytes();
    data_counts();
    first_met();
}
