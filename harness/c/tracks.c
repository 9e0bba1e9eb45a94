#include "tracks.h"

#include "check.h"

const struct track TRACKS[4] = {
    {0, 0, 0, 26, 128, 10416, 158, 206, 2, 376},
    {1, 0, 1, 26, 256, 20832, 316, 404, 8, 744},
    {2, 74, 0, 15, 512, 20832, 316, 404, 8, 1316},
    {3, 5, 1, 8, 1024, 20832, 316, 404, 8, 2404},
};

struct track track_at(size_t layout, uint32_t cylinder, uint32_t side) {
    struct track track = TRACKS[layout];
    track.cylinder = cylinder, track.side = side;
    return track;
}

size_t identifier_of(const struct track *track, size_t sector) {
    return track->identifier + (sector - 1) * track->stride;
}

size_t mark_of(const struct track *track, size_t sector) {
    return track->data_mark + (sector - 1) * track->stride;
}

void fill_data(const struct track *track, uint8_t seed, uint8_t *data) {
    size_t i;
    uint32_t state = 7u + seed;
    for (i = 0; i < track->sectors * track->size; i++) {
        state = state * 1103515245u + 12345u;
        data[i] = i % track->size == 0 ? LETTER_D : (uint8_t)(state >> 16);
    }
}

void fill_letters(const struct track *track, unsigned letter, uint8_t *data) {
    size_t i;
    for (i = 0; i < track->sectors; i++)
        data[i * track->size] = (uint8_t)(letter + i);
}

void fill_marks(const struct track *track, uint8_t *marks) {
    size_t i;
    for (i = 0; i < track->sectors; i++)
        marks[i] = i % 3 == 2 ? STATION_MARK_CONTROL : STATION_MARK_DATA;
}

void fresh(const struct track *track, uint8_t *data, uint8_t *marks, uint8_t *image) {
    fill_data(track, 0, data);
    fill_marks(track, marks);
    SAME(station_format(track->layout, track->cylinder, track->side, data, track->sectors * track->size, marks, track->sectors, image,
                        track->image),
         STATION_DONE);
}

struct station_record record(uint32_t answer, uint32_t place, uint32_t clocks) {
    struct station_record made;
    made.answer = answer;
    made.place = place;
    made.clocks = clocks;
    return made;
}

uint32_t place_of(const struct track *track, size_t sector) {
    return (uint32_t)(8 * mark_of(track, sector));
}

uint32_t answer_of(const struct track *track, uint8_t mark, uint8_t letter, int is_right) {
    int is_control = mark == STATION_MARK_CONTROL;
    if (is_control && letter == LETTER_F && track->cylinder != 0)
        return STATION_ANSWER_DEFECTIVE;
    if (!is_right)
        return STATION_ANSWER_WRONG_EDC;
    if (is_control && letter != LETTER_D && track->cylinder == 0)
        return STATION_ANSWER_FORBIDDEN_LETTER;
    return is_control ? STATION_ANSWER_CONTROL : STATION_ANSWER_DATA;
}

void turn(uint8_t *image, size_t cell) {
    image[cell / 8] ^= (uint8_t)(0x80u >> cell % 8);
}

void move_on(uint8_t *image, size_t length) {
    size_t i;
    image[length] = 0;
    for (i = length; i > 0; i--)
        image[i] = (uint8_t)(image[i] >> 1 | image[i - 1] << 7);
    image[0] >>= 1;
}
