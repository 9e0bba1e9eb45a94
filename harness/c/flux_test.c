/* Flux timings (02, Req 05): captures by their intervals, with the cells, or the refusal, that were worked out by hand from the paper's numbers. */
#include "check.h"
#include "station.h"
#include "station_test.h"
#include "tracks.h"

#include <string.h>

enum { MOST_STAMPS = 8 * LONGEST / 2 + 2, OTHER = 0xA5 };
#define OTHER_NUMBER 0xA5A5A5A5A5A5A5A5u

static uint32_t stamps[MOST_STAMPS], kept[MOST_STAMPS];
static size_t count;
static struct room room;

/* A new capture: the counter at its first transition. */
static void from(uint32_t first) {
    stamps[0] = first, count = 1;
}

/* An interval more, so many times. The counter runs over. */
static void then(uint32_t interval, size_t times) {
    for (; times > 0; times--, count++)
        stamps[count] = stamps[count - 1] + interval;
}

/* What comes of the capture in an image of so many bytes, which held something else and is left in the room. */
static void gives(uint32_t ticks, size_t image_length, uint8_t number, uint64_t cells, uint64_t interval) {
    uint8_t *image = lend(&room, image_length, OTHER);
    struct station_flux_result result[2] = {{OTHER_NUMBER, OTHER_NUMBER}, {OTHER_NUMBER, OTHER_NUMBER}};
    memcpy(kept, stamps, sizeof kept);
    SAME(station_flux(ticks, stamps, count, image, image_length, result), number);
    SAME(result[0].cells, cells);
    SAME(result[0].interval, interval);
    SAME(result[1].cells == OTHER_NUMBER && result[1].interval == OTHER_NUMBER, 1);
    SAME(memcmp(stamps, kept, sizeof kept), 0);
    ROOM_KEPT(&room);
    if (number != STATION_DONE)
        ALL(image, 0, image_length);
}

/* The same with its first bytes; the others are zero. */
static void holds(uint32_t ticks, size_t image_length, uint64_t cells, const uint8_t *bytes, size_t length) {
    const uint8_t *image = room.bytes + MARGIN;
    gives(ticks, image_length, STATION_DONE, cells, 0);
    SAME_BYTES(image, bytes, length);
    ALL(image + length, 0, image_length - length);
}

/* One stamp is a cell 1; then 01, 001 and 0001. */
static void cells(void) {
    static const uint8_t one[] = {0x80}, three[] = {0xA0}, ten[] = {0xA4, 0x40}, pairs[] = {0xAA, 0xAA, 0x80};
    from(12345), holds(100, 1, 1, one, 1), holds(16, 9, 1, one, 1), holds(1024, 100, 1, one, 1);
    then(100, 1), holds(100, 5, 3, three, 1);
    then(150, 1), then(200, 1), holds(100, 2, 10, ten, 2), holds(100, 40, 10, ten, 2);
    from(0), then(16, 8), holds(16, 3, 17, pairs, 3), holds(16, 30, 17, pairs, 3);
}

static void ticks(void) {
    static const uint32_t wrong[] = {0, 1, 15, 1025, 2048, 65536 + 100, 0x80000064, UINT32_MAX};
    size_t i;
    for (i = 0; i < sizeof wrong / sizeof wrong[0]; i++) {
        from(7), then(wrong[i], 3), gives(wrong[i], 4, 41, 0, 0), gives(wrong[i], 0, 41, 0, 0);
        count = 0, gives(wrong[i], 4, 41, 0, 0), gives(wrong[i], 0, 41, 0, 0);
        from(7), then(0, 1), gives(wrong[i], 4, 41, 0, 0);
    }
    count = 0, gives(16, 4, 42, 0, 0), gives(1024, 0, 42, 0, 0), gives(100, LONGEST, 42, 0, 0);
    from(7), then(STATION_LEAST_TICKS, 3), gives(STATION_LEAST_TICKS, 4, 0, 7, 0), gives(STATION_LEAST_TICKS - 1, 4, 41, 0, 0);
    from(7), then(STATION_MOST_TICKS, 3), gives(STATION_MOST_TICKS, 4, 0, 7, 0), gives(STATION_MOST_TICKS + 1, 4, 41, 0, 0);
}

/* The half cells of the next interval, or 0 where it is in no band: it is then the one that is refused. */
static void next(uint32_t nominal, uint32_t interval, uint64_t before, uint64_t half_cells) {
    size_t own = count;
    then(interval, 1);
    if (half_cells > 0)
        gives(nominal, LONGEST, STATION_DONE, before + half_cells, 0);
    else
        gives(nominal, LONGEST, 43, 0, own);
    count = own;
}

/* The first interval: T is that of eight cells and H is 16, so the ends are 80 % and 120 % of a cell, 130 % and 165 %, 185 % and 225 %. */
static void ends(void) {
    /* a cell of 100 ticks has whole ends; of 17: 13.6 to 20.4, 22.1 to 28.05, 31.45 to 38.25; of 1,024: 819.2 to 1,228.8 and so on */
    static const uint32_t of[][7] = {
        {100, 80, 120, 130, 165, 185, 225},
        {17, 14, 20, 23, 28, 32, 38},
        {16, 13, 19, 21, 26, 30, 36},
        {1024, 820, 1228, 1332, 1689, 1895, 2304},
    };
    size_t i, band;
    for (i = 0; i < sizeof of / sizeof of[0]; i++)
        for (band = 0; band < 3; band++) {
            uint32_t low = of[i][1 + 2 * band], high = of[i][2 + 2 * band];
            from(1000);
            next(of[i][0], low - 1, 1, 0), next(of[i][0], low, 1, 2 + band);
            next(of[i][0], high, 1, 2 + band), next(of[i][0], high + 1, 1, 0);
        }
}

/* One cell of 120 ticks among those of 100: T is 820 with it, 800 without it, and H 16. It is one of the last eight until eight more have come. */
static void last_eight(void) {
    size_t behind;
    for (behind = 0; behind <= 20; behind++) {
        uint32_t low = behind < 8 ? 82 : 80, high = behind < 8 ? 123 : 120;
        from(UINT32_MAX - 500), then(100, 3), then(120, 1), then(100, behind);
        next(100, low - 1, 9 + 2 * behind, 0), next(100, low, 9 + 2 * behind, 2);
        next(100, high, 9 + 2 * behind, 2), next(100, high + 1, 9 + 2 * behind, 0);
    }
    /* an interval of four half cells with 216 ticks: T is 916 and H 18; 4.5 times 916 / 18 is 229 */
    from(0), then(216, 1), next(100, 229, 5, 4), next(100, 230, 5, 0), next(100, 81, 5, 0), next(100, 82, 5, 2);
}

/* From 4,294,967,295 the counter runs over to 0. Two equal stamps are no time at all. */
static void counter(void) {
    static const uint8_t ten[] = {0xA4, 0x40};
    uint32_t first, number;
    for (first = UINT32_MAX - 460; first != 3; first++)
        from(first), then(100, 1), then(150, 1), then(200, 1), holds(100, 3, 10, ten, 2);
    for (number = 1; number <= 20; number++) {
        from(4000000000u), then(100, number - 1), then(0, 1), then(100, 2), gives(100, 50, 43, 0, number);
        from(50), then(100, number - 1), then(UINT32_MAX, 1), then(100, 2), gives(100, 50, 43, 0, number);
    }
}

/* Each as long as the band allows: 120 % of the average, until the counter is too short for more. There T is 8 * 4,294,967,295. */
static void drift(void) {
    uint64_t sum = 8 * 16, last[8] = {16, 16, 16, 16, 16, 16, 16, 16}, interval = 16;
    size_t at, more = 20;
    from(77);
    for (at = 0; more > 0; at++) {
        interval = 240 * sum / 1600;
        if (interval >= UINT32_MAX)
            interval = UINT32_MAX, more--;
        sum += interval - last[at % 8], last[at % 8] = interval;
        then((uint32_t)interval, 1);
    }
    SAME(sum, 8 * (uint64_t)UINT32_MAX);
    next(16, UINT32_MAX, 2 * count - 1, 2);
    /* 80 % of 4,294,967,295 is the whole number 3,435,973,836 */
    next(16, 3435973836u, 2 * count - 1, 2), next(16, 3435973835u, 2 * count - 1, 0);
    next(16, 16, 2 * count - 1, 0), next(16, 0, 2 * count - 1, 0);
}

/* The last cell may be the image's last; its zeros may be in it where its 1 is not; and 43 comes before 44 in one interval, not in the next. */
static void room_for_cells(void) {
    size_t length;
    from(9), gives(100, 0, 44, 0, 0), then(0, 1), gives(100, 0, 44, 0, 0);
    for (length = 1; length <= 20; length++) {
        /* 8 * length - 1 cells, then two, three or four more */
        from(9), then(100, 4 * length - 1), gives(100, length, 0, 8 * length - 1, 0);
        then(100, 1), gives(100, length, 44, 0, 0), gives(100, length + 1, 0, 8 * length + 1, 0);
        count--, then(150, 1), gives(100, length, 44, 0, 0);
        count--, then(200, 1), gives(100, length, 44, 0, 0);
        count--, then(125, 1), gives(100, length, 43, 0, 4 * length);
        count--, then(100, 1), then(125, 1), gives(100, length, 44, 0, 0);
        /* one of three half cells in the place of one of two: all cells of the image */
        from(9), then(150, 1), then(100, 4 * length - 2), gives(100, length, 0, 8 * length, 0);
        if (length > 1)
            gives(100, length - 1, 44, 0, 0);
    }
    from(9), then(16, MOST_STAMPS - 3), gives(16, LONGEST, 0, 8 * LONGEST - 1, 0);
    then(16, 1), gives(16, LONGEST, 44, 0, 0);
}

/* A formatted track, captured cell by cell: the image comes back, and it is zero behind the track. */
static void track(const struct track *track, uint32_t nominal, uint32_t first) {
    static uint8_t data[LONGEST_AREA], marks[MOST_SECTORS], formatted[LONGEST_TRACK];
    const uint8_t *image = room.bytes + MARGIN;
    size_t cell, last = 0;
    fresh(track, data, marks, formatted);
    SAME(formatted[0] >> 7, 1);
    from(first);
    for (cell = 1; cell < 8 * track->image; cell++)
        if (formatted[cell / 8] >> (7 - cell % 8) & 1) {
            then((uint32_t)(cell - last) * (nominal / 2), 1);
            last = cell;
        }
    gives(nominal, track->image, 0, last + 1, 0);
    SAME_BYTES(image, formatted, track->image);
    gives(nominal, LONGEST, 0, last + 1, 0);
    SAME_BYTES(image, formatted, track->image);
    ALL(image + track->image, 0, LONGEST - track->image);
}

void flux_test(void) {
    size_t layout;
    cells();
    ticks();
    ends();
    last_eight();
    counter();
    drift();
    room_for_cells();
    for (layout = 1; layout < 4; layout++)
        track(&TRACKS[layout], 16, 0), track(&TRACKS[layout], 500, UINT32_MAX - 20000000);
}
