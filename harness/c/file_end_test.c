/* Where a file ends: files that are cut or go on, counts that are too high, areas that are too short, and the longest file. */
#include "check.h"
#include "files.h"
#include "station.h"
#include "station_test.h"

#include <string.h>

static struct cartridge cartridge;
static uint8_t file[LONGEST_FILE + 1], area[LONGEST_FILE + 1];
static struct station_sections found;

/* A file that is read, and where its sections are. */
static size_t fresh_file(void) {
    some_cartridge(&cartridge);
    found = sections_of(&cartridge);
    return lay_file(&cartridge, file);
}

/* Cut anywhere, what is there being right: 31. The bytes behind the end are those of the file, and not looked at. */
static void cut(void) {
    size_t whole = fresh_file(), length;
    for (length = 0; length < whole; length++)
        not_read(file, length, 31);
    is_read(file, whole, &found);
    for (length = whole + 1; length < whole + 100; length++)
        not_read(file, length, 35);
    no_cartridge(&cartridge), lay_file(&cartridge, file);
    for (length = 0; length < 16; length++)
        not_read(file, length, 31);
    not_read(file, 17, 35);
}

/* A wrong count in the four bytes before a place: refused by its number in the whole file, and where the file ends right behind the count. */
static void wrong_count(uint32_t place, uint32_t count, uint8_t number) {
    size_t whole = fresh_file();
    put_count(file + place - 4, count);
    not_read(file, whole, number);
    not_read(file, whole + 1, number);
    not_read(file, place, number);
    /* a count that is cut is none */
    not_read(file, place - 1, 31);
}

/* What is far above a right count, by one bit of each of its bytes, and where three times the count is within 32 bits again. */
static void far_above(uint32_t place, uint32_t count, uint8_t number) {
    static const uint32_t above[] = {0x80, 0x100, 0x8000, 0x10000, 0x800000, 0x1000000, 0x40000000, 0x80000000, 0x55555556, 0xAAAAAAAB};
    size_t i;
    for (i = 0; i < sizeof above / sizeof above[0]; i++)
        wrong_count(place, count + above[i], number);
    wrong_count(place, UINT32_MAX, number);
}

static void counts(void) {
    fresh_file();
    far_above(found.label_place, found.label_count, 32);
    wrong_count(found.label_place, LONGEST_LABEL + 1, 32);
    far_above(found.tracks_place, MOST_TRACKS, 32);
    wrong_count(found.tracks_place, MOST_TRACKS + 1, 32);
    far_above(found.answers_place, found.answers_count, 33);
    wrong_count(found.answers_place, found.answers_count + 1, 33);
    wrong_count(found.answers_place, found.answers_count - 1, 33);
    wrong_count(found.answers_place, 0, 33);
    far_above(found.data_place, found.data_count, 34);
    wrong_count(found.data_place, found.data_count + 1, 34);
    wrong_count(found.data_place, found.data_count - 1, 34);
    wrong_count(found.data_place, 0, 34);
}

/* A right count, a section that is cut, and something wrong in what is there of it: 31. As soon as it is whole it is judged. */
static void cut_and_wrong(void) {
    size_t tracks_end, answers_end;
    fresh_file();
    tracks_end = found.answers_place - 4, answers_end = found.data_place - 4;
    file[found.tracks_place] = 75;
    not_read(file, found.tracks_place, 31);
    not_read(file, tracks_end - 1, 31);
    not_read(file, tracks_end, 32);
    fresh_file(), file[found.answers_place] = 0;
    not_read(file, found.answers_place, 31);
    not_read(file, answers_end - 1, 31);
    not_read(file, answers_end, 33);
    /* as many tracks as there may be, and bytes for fewer */
    fresh_file(), put_count(file + found.tracks_place - 4, MOST_TRACKS);
    not_read(file, tracks_end, 31);
    fresh_file(), put_count(file + found.label_place - 4, LONGEST_LABEL);
    not_read(file, found.label_place + LONGEST_LABEL - 1, 31);
}

/* An area that is longer than the file, as long, or too short for it. */
static void areas(void) {
    size_t whole = fresh_file();
    is_written(&cartridge, whole);
    is_written(&cartridge, whole + 1);
    is_written(&cartridge, LONGEST);
    not_written(&cartridge, whole - 1, 36);
    not_written(&cartridge, whole / 2, 36);
    not_written(&cartridge, 0, 36);
    /* 36 is last */
    cartridge.data_length--, not_written(&cartridge, 0, 34);
    no_cartridge(&cartridge);
    is_written(&cartridge, 16);
    is_written(&cartridge, 17);
    not_written(&cartridge, 15, 36);
    not_written(&cartridge, 0, 36);
}

/* Tracks that are not three bytes each can only be handed over to be written. */
static void parts_of_tracks(void) {
    size_t length, right;
    some_cartridge(&cartridge), right = cartridge.tracks_length;
    cartridge.tracks[right] = 74, cartridge.tracks[right + 1] = 1;
    for (length = 0; length <= right + 2; length++) {
        cartridge.tracks_length = length;
        if (length % 3 != 0)
            not_written(&cartridge, LONGEST, 32);
        else if (length < right)
            not_written(&cartridge, LONGEST, 33);
    }
    cartridge.tracks_length = sizeof cartridge.tracks, not_written(&cartridge, LONGEST, 32);
}

/* Writes into the long area, which held something else. */
static void writes(size_t area_length, uint8_t number, size_t expected) {
    uint32_t length[1] = {0xDEADBEEF};
    memset(area, 0x77, sizeof area);
    SAME(station_file_write(cartridge.label, cartridge.label_length, cartridge.tracks, cartridge.tracks_length, cartridge.answers,
                            cartridge.answers_length, cartridge.data, cartridge.data_length, area, area_length, length),
         number);
    SAME(length[0], expected);
    ALL(area + area_length, 0x77, sizeof area - area_length);
}

/* All tracks, with one layout from cylinder 1 on: an area of the file's length is enough, and one byte less is not. */
static size_t all_tracks(uint8_t layout) {
    size_t whole;
    full_cartridge(&cartridge, layout);
    whole = lay_file(&cartridge, file), found = sections_of(&cartridge);
    is_read(file, whole, &found);
    not_read(file, whole - 1, 31);
    not_read(file, whole + 1, 35);
    writes(whole, STATION_DONE, whole);
    SAME_BYTES(area, file, whole);
    writes(whole - 1, 36, 0);
    ALL(area, 0, whole - 1);
    return whole;
}

/* The header's sizes are met, and none is passed. */
static void sizes(void) {
    size_t layout;
    for (layout = 1; layout < STATION_LAYOUTS; layout++) {
        size_t whole = all_tracks((uint8_t)layout);
        SAME(found.label_count, STATION_LONGEST_LABEL);
        SAME(found.tracks_count, STATION_MOST_TRACKS);
        SAME(found.answers_place - 4 - found.tracks_place, STATION_MOST_TRACKS * STATION_TRACK_BYTES);
        SAME(found.answers_count == STATION_MOST_ANSWERS, layout == 1);
        SAME(found.data_place == STATION_LONGEST_HEAD, layout == 1);
        SAME(whole == STATION_LONGEST_FILE, layout == 3);
        SAME(found.answers_count <= STATION_MOST_ANSWERS, 1);
        SAME(found.data_place <= STATION_LONGEST_HEAD, 1);
        SAME(whole <= STATION_LONGEST_FILE, 1);
    }
}

void file_end_test(void) {
    cut();
    counts();
    cut_and_wrong();
    areas();
    parts_of_tracks();
    sizes();
}
