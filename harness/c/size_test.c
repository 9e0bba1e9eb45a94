/* The header's sizes are the papers', and just those that the library takes: one more or one less is refused. */
#include "check.h"
#include "station.h"
#include "station_test.h"
#include "tracks.h"

#include <string.h>

static const struct size {
    size_t sectors, bytes, image;
} SIZES[STATION_LAYOUTS] = {
    {STATION_SECTORS_0, STATION_BYTES_0, STATION_IMAGE_0},
    {STATION_SECTORS_1, STATION_BYTES_1, STATION_IMAGE_1},
    {STATION_SECTORS_2, STATION_BYTES_2, STATION_IMAGE_2},
    {STATION_SECTORS_3, STATION_BYTES_3, STATION_IMAGE_3},
};

static uint8_t data[STATION_LONGEST_AREA + 1], marks[STATION_MOST_SECTORS + 1], image[STATION_LONGEST_IMAGE + 1];
static uint8_t area[STATION_LONGEST_AREA + 1];
static struct station_record records[STATION_MOST_SECTORS];

static uint8_t formats(const struct track *track, size_t data_length, size_t count, size_t image_length) {
    return station_format(track->layout, track->cylinder, track->side, data, data_length, marks, count, image, image_length);
}

static uint8_t reads(const struct track *track, size_t image_length, size_t area_length) {
    uint32_t counts[2];
    return station_read(track->layout, track->cylinder, track->side, image, image_length, area, area_length, records, counts);
}

static uint8_t picks(uint32_t layout, size_t sector, size_t length) {
    struct station_record picked;
    uint32_t taken[3];
    return station_pick(layout, (uint32_t)sector, area, length, records, area, length, records, taken, &picked);
}

static uint8_t asks(const struct track *track, size_t sector, size_t length) {
    uint32_t plan[4];
    return station_request(track->layout, track->cylinder, track->side, (uint32_t)sector, STATION_MARK_DATA, data, length, image,
                           track->image, plan);
}

static void taken_by_layout(const struct track *track, const struct size *size) {
    size_t whole = size->sectors * size->bytes;
    SAME(size->sectors, track->sectors);
    SAME(size->bytes, track->size);
    SAME(size->image, track->image);
    memset(data, 0x44, sizeof data), memset(marks, STATION_MARK_DATA, sizeof marks);
    SAME(formats(track, whole - 1, size->sectors, size->image), STATION_REFUSED_AREA_LENGTH);
    SAME(formats(track, whole + 1, size->sectors, size->image), STATION_REFUSED_AREA_LENGTH);
    SAME(formats(track, whole, size->sectors - 1, size->image), STATION_REFUSED_MARK_BYTES);
    SAME(formats(track, whole, size->sectors + 1, size->image), STATION_REFUSED_MARK_BYTES);
    SAME(formats(track, whole, size->sectors, size->image - 1), STATION_REFUSED_IMAGE_LENGTH);
    SAME(formats(track, whole, size->sectors, size->image + 1), STATION_REFUSED_IMAGE_LENGTH);
    SAME(formats(track, whole, size->sectors, size->image), STATION_DONE);

    SAME(reads(track, size->image, whole - 1), STATION_REFUSED_AREA_LENGTH);
    SAME(reads(track, size->image, whole + 1), STATION_REFUSED_AREA_LENGTH);
    SAME(reads(track, STATION_LONGEST_IMAGE + 1, whole), STATION_REFUSED_IMAGE_LENGTH);
    SAME(reads(track, STATION_LONGEST_IMAGE, whole), STATION_DONE);
    SAME(reads(track, size->image, whole), STATION_DONE);

    SAME(picks(track->layout, size->sectors, whole - 1), STATION_REFUSED_AREA_LENGTH);
    SAME(picks(track->layout, size->sectors + 1, whole), STATION_REFUSED_SECTOR_NUMBER);
    SAME(picks(track->layout, size->sectors, whole), STATION_ANSWER_DATA);
    SAME(asks(track, size->sectors, size->bytes - 1), STATION_REFUSED_AREA_LENGTH);
    SAME(asks(track, size->sectors, size->bytes + 1), STATION_REFUSED_AREA_LENGTH);
    SAME(asks(track, size->sectors + 1, size->bytes), STATION_REFUSED_SECTOR_NUMBER);
    SAME(asks(track, size->sectors, size->bytes), STATION_DONE);
}

void size_test(void) {
    size_t i, most = 0, longest = 0;
    for (i = 0; i < STATION_LAYOUTS; i++) {
        taken_by_layout(&TRACKS[i], &SIZES[i]);
        most = SIZES[i].sectors > most ? SIZES[i].sectors : most;
        longest = SIZES[i].sectors * SIZES[i].bytes > longest ? SIZES[i].sectors * SIZES[i].bytes : longest;
    }
    SAME(STATION_MOST_SECTORS, most);
    SAME(STATION_LONGEST_AREA, longest);
    SAME(picks(STATION_LAYOUTS, 1, longest), STATION_REFUSED_LAYOUT_NUMBER);
}
