#include "files.h"

#include "check.h"
#include "tracks.h"

#include <string.h>

enum { OTHER = 0x77 };

static struct room room;
static uint8_t laid[LONGEST];

void no_cartridge(struct cartridge *cartridge) {
    cartridge->label_length = cartridge->tracks_length = cartridge->answers_length = cartridge->data_length = 0;
}

void add_track(struct cartridge *cartridge, uint8_t cylinder, uint8_t side, uint8_t layout, const uint8_t *answers, size_t count) {
    const struct track *track = &TRACKS[layout];
    uint8_t *entry = cartridge->tracks + cartridge->tracks_length;
    size_t sector, i;
    entry[0] = cylinder, entry[1] = side, entry[2] = layout;
    cartridge->tracks_length += 3;
    for (sector = 0; sector < track->sectors; sector++) {
        uint8_t answer = answers[sector % count];
        cartridge->answers[cartridge->answers_length++] = answer;
        for (i = 0; answer >= 1 && answer <= 3 && i < track->size; i++, cartridge->data_length++)
            cartridge->data[cartridge->data_length] = (uint8_t)(cartridge->data_length * 31 + 5);
    }
}

static void add_label(struct cartridge *cartridge, size_t length) {
    size_t i;
    /* of any value, also 0 and 255 */
    for (i = 0; i < length; i++)
        cartridge->label[i] = (uint8_t)(i * 51);
    cartridge->label_length = length;
}

void some_cartridge(struct cartridge *cartridge) {
    static const uint8_t answers[] = {1, 21, 22, 2, 23, 24, 3, 25, 26, 27};
    no_cartridge(cartridge);
    add_label(cartridge, 21);
    add_track(cartridge, 0, 0, 0, answers, sizeof answers);
    add_track(cartridge, 0, 1, 1, answers, sizeof answers);
    add_track(cartridge, 1, 1, 1, answers, sizeof answers);
    add_track(cartridge, 5, 0, 2, answers, sizeof answers);
    add_track(cartridge, 5, 1, 3, answers, sizeof answers);
    add_track(cartridge, 74, 1, 3, answers, sizeof answers);
}

void full_cartridge(struct cartridge *cartridge, uint8_t layout) {
    static const uint8_t data[] = {1};
    uint8_t cylinder;
    no_cartridge(cartridge);
    add_label(cartridge, LONGEST_LABEL);
    add_track(cartridge, 0, 0, 0, data, 1);
    add_track(cartridge, 0, 1, 1, data, 1);
    for (cylinder = 1; cylinder <= 74; cylinder++) {
        add_track(cartridge, cylinder, 0, layout, data, 1);
        add_track(cartridge, cylinder, 1, layout, data, 1);
    }
}

void put_count(uint8_t *bytes, size_t count) {
    bytes[0] = (uint8_t)(count >> 24);
    bytes[1] = (uint8_t)(count >> 16);
    bytes[2] = (uint8_t)(count >> 8);
    bytes[3] = (uint8_t)count;
}

/* The bytes of a file with one section more. */
static size_t lay_section(uint8_t *file, size_t at, size_t count, const uint8_t *bytes, size_t length) {
    put_count(file + at, count);
    memcpy(file + at + 4, bytes, length);
    return at + 4 + length;
}

size_t lay_file(const struct cartridge *cartridge, uint8_t *file) {
    size_t at = lay_section(file, 0, cartridge->label_length, cartridge->label, cartridge->label_length);
    at = lay_section(file, at, cartridge->tracks_length / 3, cartridge->tracks, cartridge->tracks_length);
    at = lay_section(file, at, cartridge->answers_length, cartridge->answers, cartridge->answers_length);
    return lay_section(file, at, cartridge->data_length, cartridge->data, cartridge->data_length);
}

struct station_sections sections_of(const struct cartridge *cartridge) {
    struct station_sections sections;
    sections.label_place = 4;
    sections.label_count = (uint32_t)cartridge->label_length;
    sections.tracks_place = sections.label_place + sections.label_count + 4;
    sections.tracks_count = (uint32_t)cartridge->tracks_length / 3;
    sections.answers_place = sections.tracks_place + 3 * sections.tracks_count + 4;
    sections.answers_count = (uint32_t)cartridge->answers_length;
    sections.data_place = sections.answers_place + sections.answers_count + 4;
    sections.data_count = (uint32_t)cartridge->data_length;
    return sections;
}

/* What a writing gives; the area is left in the room. */
static void writes(const struct cartridge *cartridge, size_t area_length, uint8_t number, size_t expected) {
    uint8_t *area = lend(&room, area_length, OTHER);
    uint32_t length[2] = {0xDEADBEEF, 0xDEADBEEF};
    SAME(station_file_write(cartridge->label, cartridge->label_length, cartridge->tracks, cartridge->tracks_length, cartridge->answers,
                            cartridge->answers_length, cartridge->data, cartridge->data_length, area, area_length, length),
         number);
    SAME(length[0], expected);
    SAME(length[1], 0xDEADBEEF);
    ROOM_KEPT(&room);
}

void is_written(const struct cartridge *cartridge, size_t area_length) {
    size_t length = lay_file(cartridge, laid);
    const uint8_t *area = room.bytes + MARGIN;
    writes(cartridge, area_length, STATION_DONE, length);
    SAME_BYTES(area, laid, length);
    ALL(area + length, 0, area_length - length);
}

void not_written(const struct cartridge *cartridge, size_t area_length, uint8_t number) {
    const uint8_t *area = room.bytes + MARGIN;
    writes(cartridge, area_length, number, 0);
    ALL(area, 0, area_length);
}

static void reads(const uint8_t *file, size_t length, uint8_t number, const struct station_sections *expected) {
    struct station_sections sections[2], other;
    memset(&other, OTHER, sizeof other);
    sections[0] = sections[1] = other;
    SAME(station_file_read(file, length, sections), number);
    SAME_SECTIONS(sections, expected);
    SAME_SECTIONS(sections + 1, &other);
}

void is_read(const uint8_t *file, size_t length, const struct station_sections *sections) {
    reads(file, length, STATION_DONE, sections);
}

void not_read(const uint8_t *file, size_t length, uint8_t number) {
    static const struct station_sections none;
    reads(file, length, number, &none);
}
