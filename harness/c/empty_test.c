/* Pointers whose length is 0: null, and one that no program may follow. Nothing is read or written through them. */
#include "check.h"
#include "station.h"
#include "station_test.h"
#include "tracks.h"

static uint8_t data[LONGEST_AREA], marks[MOST_SECTORS], image[LONGEST_TRACK], contents[128];
static const uint8_t track_zero[3];
static const uint32_t stamps[2] = {0, 100};

static void with(uint8_t *nothing, const uint32_t *nowhere) {
    const struct track *track = &TRACKS[0];
    size_t area = track->sectors * track->size;
    struct station_record records[26], picked;
    struct station_sections sections;
    struct station_flux_result result;
    uint32_t counts[2], taken[3], plan[4], length[1];
    fresh(track, data, marks, image);
    SAME(station_edc(nothing, 0), 0xFFFF);
    SAME(station_data_byte(nothing, 0, 3), 0);
    SAME(station_format(0, 0, 0, nothing, 0, marks, 26, image, track->image), STATION_REFUSED_AREA_LENGTH);
    SAME(station_format(0, 0, 0, data, area, nothing, 0, image, track->image), STATION_REFUSED_MARK_BYTES);
    SAME(station_format(0, 0, 0, data, area, marks, 26, nothing, 0), STATION_REFUSED_IMAGE_LENGTH);
    SAME(station_read(0, 0, 0, nothing, 0, data, area, records, counts), STATION_REFUSED_IMAGE_LENGTH);
    SAME(station_read(0, 0, 0, image, track->image, nothing, 0, records, counts), STATION_REFUSED_AREA_LENGTH);
    records[0] = record(STATION_ANSWER_DATA, 0, 0);
    SAME(station_pick(0, 1, nothing, 0, records, data, area, records, taken, &picked), STATION_REFUSED_AREA_LENGTH);
    SAME(station_pick(0, 1, data, area, records, nothing, 0, records, taken, &picked), STATION_REFUSED_AREA_LENGTH);
    SAME(station_request(0, 0, 0, 1, 0xFB, nothing, 0, image, track->image, plan), STATION_REFUSED_AREA_LENGTH);
    SAME(station_request(0, 0, 0, 1, 0xFB, contents, 128, nothing, 0, plan), STATION_REFUSED_IMAGE_LENGTH);
    SAME(station_request(0, 0, 0, 1, 0xFB, contents, 128, image, track->image, plan), STATION_DONE);
    SAME(station_step(plan, 0xFB, nothing, 0, image, track->image), STATION_REFUSED_AREA_LENGTH);
    SAME(station_step(plan, 0xFB, contents, 128, nothing, 0), STATION_REFUSED_IMAGE_LENGTH);
    SAME(station_file_write(nothing, 0, nothing, 0, nothing, 0, nothing, 0, data, 16, length), STATION_DONE);
    SAME(station_file_read(data, 16, &sections), STATION_DONE);
    SAME(station_file_write(nothing, 0, nothing, 0, nothing, 0, nothing, 0, nothing, 0, length), STATION_REFUSED_FILE_AREA_LENGTH);
    SAME(station_file_write(marks, 1, track_zero, 3, nothing, 0, nothing, 0, data, 16, length), STATION_REFUSED_FILE_ANSWER_BYTES);
    SAME(station_file_read(nothing, 0, &sections), STATION_REFUSED_FILE_PAST_END);
    SAME(station_flux(100, nowhere, 0, image, track->image, &result), STATION_REFUSED_FLUX_NO_STAMPS);
    SAME(station_flux(100, stamps, 2, nothing, 0, &result), STATION_REFUSED_FLUX_PAST_IMAGE);
    SAME(station_flux(100, nowhere, 0, nothing, 0, &result), STATION_REFUSED_FLUX_NO_STAMPS);
    SAME(station_flux(0, nowhere, 0, nothing, 0, &result), STATION_REFUSED_FLUX_TICKS_NUMBER);
}

void empty_test(void) {
    with(NULL, NULL);
    /* for stamps one with their alignment */
    with((uint8_t *)(uintptr_t)1, (const uint32_t *)(uintptr_t)4);
}
