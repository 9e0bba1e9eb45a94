/* The library from C: each function of station.h, with each number that it can give. Expectations are literals of the papers, or follow from them. */
#include "station_test.h"

#include "check.h"
#include "station.h"

#include <string.h>

/* The header's constants are the papers' numbers. */
static void numbers(void) {
    SAME(STATION_DONE, 0);
    SAME(STATION_REFUSED_IMAGE_LENGTH, 1);
    SAME(STATION_REFUSED_CYLINDER_NUMBER, 2);
    SAME(STATION_REFUSED_SIDE_NUMBER, 3);
    SAME(STATION_REFUSED_LAYOUT_NUMBER, 4);
    SAME(STATION_REFUSED_AREA_LENGTH, 5);
    SAME(STATION_REFUSED_MARK_BYTES, 6);
    SAME(STATION_REFUSED_CONTROL_RECORD, 7);
    SAME(STATION_REFUSED_OVERFULL, 8);
    SAME(STATION_REFUSED_SECTOR_NUMBER, 9);
    SAME(STATION_REFUSED_UNREADABLE, 10);
    SAME(STATION_REFUSED_OFF_BOUNDARY, 11);
    SAME(STATION_REFUSED_FINISHED, 12);
    SAME(STATION_REFUSED_NO_BLOCK, 13);
    SAME(STATION_REFUSED_FILE_PAST_END, 31);
    SAME(STATION_REFUSED_FILE_LABEL_OR_TRACKS, 32);
    SAME(STATION_REFUSED_FILE_ANSWER_BYTES, 33);
    SAME(STATION_REFUSED_FILE_DATA_COUNT, 34);
    SAME(STATION_REFUSED_FILE_LEFT_OVER, 35);
    SAME(STATION_REFUSED_FILE_AREA_LENGTH, 36);
    SAME(STATION_REFUSED_FLUX_TICKS_NUMBER, 41);
    SAME(STATION_REFUSED_FLUX_NO_STAMPS, 42);
    SAME(STATION_REFUSED_FLUX_NO_BAND, 43);
    SAME(STATION_REFUSED_FLUX_PAST_IMAGE, 44);
    SAME(STATION_ANSWER_DATA, 1);
    SAME(STATION_ANSWER_CONTROL, 2);
    SAME(STATION_ANSWER_DEFECTIVE, 3);
    SAME(STATION_ANSWER_NO_IDENTIFIER, 21);
    SAME(STATION_ANSWER_DOUBLED, 22);
    SAME(STATION_ANSWER_NO_BLOCK, 23);
    SAME(STATION_ANSWER_PAST_END, 24);
    SAME(STATION_ANSWER_OPEN_MARK, 25);
    SAME(STATION_ANSWER_WRONG_EDC, 26);
    SAME(STATION_ANSWER_FORBIDDEN_LETTER, 27);
    SAME(STATION_MARK_DATA, 0xFB);
    SAME(STATION_MARK_CONTROL, 0xF8);
    SAME(STATION_NO_PLACE, UINT32_MAX);
    SAME(STATION_LEAST_TICKS, 16);
    SAME(STATION_MOST_TICKS, 1024);
}

/* A record is its numbers, one after the other; so are a file's sections, place and count of each in the order of the file; and so is a flux's
 * result. */
static void structs(void) {
    SAME(sizeof(struct station_record), 3 * sizeof(uint32_t));
    SAME(offsetof(struct station_record, answer), 0);
    SAME(offsetof(struct station_record, place), sizeof(uint32_t));
    SAME(offsetof(struct station_record, clocks), 2 * sizeof(uint32_t));
    SAME(sizeof(struct station_sections), 8 * sizeof(uint32_t));
    SAME(offsetof(struct station_sections, label_place), 0);
    SAME(offsetof(struct station_sections, label_count), sizeof(uint32_t));
    SAME(offsetof(struct station_sections, tracks_place), 2 * sizeof(uint32_t));
    SAME(offsetof(struct station_sections, tracks_count), 3 * sizeof(uint32_t));
    SAME(offsetof(struct station_sections, answers_place), 4 * sizeof(uint32_t));
    SAME(offsetof(struct station_sections, answers_count), 5 * sizeof(uint32_t));
    SAME(offsetof(struct station_sections, data_place), 6 * sizeof(uint32_t));
    SAME(offsetof(struct station_sections, data_count), 7 * sizeof(uint32_t));
    SAME(sizeof(struct station_flux_result), 2 * sizeof(uint64_t));
    SAME(offsetof(struct station_flux_result, cells), 0);
    SAME(offsetof(struct station_flux_result, interval), sizeof(uint64_t));
}

/* 004, annex A, a bit at a time: a feedback of C15 and the input, which goes into C0, C5 and C12. */
static uint16_t shifted(const uint8_t *bytes, size_t length) {
    uint16_t contents = 0xFFFF;
    size_t bit;
    for (bit = 0; bit < 8 * length; bit++) {
        unsigned input = bytes[bit / 8] >> (7 - bit % 8) & 1, feedback = contents >> 15 ^ input;
        contents = (uint16_t)(contents << 1 ^ feedback << 12 ^ feedback << 5 ^ feedback);
    }
    return contents;
}

/* 01, "Small facts" and the rule that data followed by its EDC leaves the register zero; then every length up to five words of
 * eight bytes, from every place in a word. */
static void edc(void) {
    uint8_t bytes[11], many[48];
    uint16_t check;
    size_t from, length, at;
    memcpy(bytes, "123456789", 9);
    check = station_edc(bytes, 9);
    SAME(check, 0x29B1);
    bytes[9] = (uint8_t)(check >> 8);
    bytes[10] = (uint8_t)(check & 0xFF);
    SAME(station_edc(bytes, 11), 0);
    bytes[4] ^= 0x10;
    SAME(station_edc(bytes, 11) != 0, 1);
    SAME(station_edc(bytes, 0), 0xFFFF);
    for (at = 0; at < sizeof many; at++)
        many[at] = (uint8_t)(at * at * 7 + 0xA5);
    for (from = 0; from < 8; from++)
        for (length = 0; length <= 40; length++)
            SAME(station_edc(many + from, length), shifted(many + from, length));
}

/* 01, "Small facts". */
static void code(void) {
    SAME(station_code_mfm(0, 0x4E), 0x9254);
    SAME(station_code_mfm(0, 0x00), 0xAAAA);
    SAME(station_code_mfm(1, 0x00), 0x2AAA);
    SAME(station_code_mfm(2, 0x00), 0x2AAA);
    SAME(station_code_mfm(255, 0x00), 0x2AAA);
    SAME(station_code_mfm(1, 0xFF), 0x5555);
    SAME(station_code_mfm(0, 0xA1), 0x44A9);
    SAME(station_code_mfm(0, 0xC2), 0x52A4);
    SAME(station_code_fm(0, 0x00), 0xAAAA);
    SAME(station_code_fm(0, 0xFF), 0xFFFF);
    SAME(station_code_fm(1, 0x00), 0xAAAA);
}

/* Every byte at every bit of a byte, then past the end, where cells are 0. */
static void data_byte(void) {
    uint8_t image[4];
    unsigned byte, shift;
    for (byte = 0; byte < 256; byte++) {
        uint16_t coded = station_code_mfm(0, (uint8_t)byte);
        for (shift = 0; shift < 8; shift++) {
            uint32_t cells = (uint32_t)coded << (16 - shift);
            image[0] = (uint8_t)(cells >> 24);
            image[1] = (uint8_t)(cells >> 16);
            image[2] = (uint8_t)(cells >> 8);
            SAME(station_data_byte(image, 3, shift), byte);
        }
    }
    memset(image, 0xFF, sizeof image);
    SAME(station_data_byte(image, 2, 0), 0xFF);
    SAME(station_data_byte(image, 2, 8), 0xF0);
    SAME(station_data_byte(image, 2, 14), 0x80);
    SAME(station_data_byte(image, 2, 15), 0x00);
    SAME(station_data_byte(image, 2, 16), 0x00);
    SAME(station_data_byte(image, 2, SIZE_MAX), 0x00);
    SAME(station_data_byte(image, 2, SIZE_MAX - 15), 0x00);
    SAME(station_data_byte(image, 0, 0), 0x00);
}

int main(void) {
    numbers();
    structs();
    edc();
    code();
    data_byte();
    format_test();
    read_test();
    letter_test();
    clock_test();
    pick_test();
    request_test();
    step_test();
    cut_test();
    clock_cut_test();
    empty_test();
    size_test();
    file_test();
    file_end_test();
    flux_test();
    return checks_end();
}
