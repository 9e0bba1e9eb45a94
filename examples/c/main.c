/*
 * Reads a captured track from a file, makes a file for another bench of what was read, then formats and rewrites a track in memory. On x86-64,
 * from the repository's root:
 *
 *     cc -std=c99 -Iinclude examples/c/main.c target/staticlib/libstation.a -o target/example
 *     target/example samples/worn.in
 *     target/example samples/capture.flux
 *
 * The captured file has the layout, the cylinder and the side, one byte each, and then the track's image. One whose name ends in .flux has in its
 * place the ticks of a nominal bit cell and the time stamps of the flux transitions, four bytes each, the most significant first.
 * Exit status: 0 all was printed; 1 a call was refused; 2 wrong words, or a file that can't be read or written.
 */
#include "station.h"

#include <errno.h>
#include <stdio.h>
#include <string.h>

static const struct {
    size_t sectors, bytes;
    uint32_t image;
} LAYOUTS[STATION_LAYOUTS] = {
    {STATION_SECTORS_0, STATION_BYTES_0, STATION_IMAGE_0},
    {STATION_SECTORS_1, STATION_BYTES_1, STATION_IMAGE_1},
    {STATION_SECTORS_2, STATION_BYTES_2, STATION_IMAGE_2},
    {STATION_SECTORS_3, STATION_BYTES_3, STATION_IMAGE_3},
};

enum { BYTES = STATION_BYTES_1, AREA = STATION_SECTORS_1 * STATION_BYTES_1 };

/* With one stamp more than this, since each interval is two cells at least, every capture is refused. */
enum { MOST_STAMPS = 8 * STATION_LONGEST_IMAGE / 2, NUMBER = 4 };

/* Large, so not on the stack. The library itself keeps nothing: all that it works on is lent by the caller. */
static uint8_t file[3 + NUMBER * (1 + MOST_STAMPS + 1)], area[STATION_LONGEST_AREA], image[STATION_IMAGE_1];
static uint8_t captured[STATION_LONGEST_IMAGE + 1], data[STATION_LONGEST_AREA], sent[STATION_LONGEST_FILE];
static uint32_t stamps[MOST_STAMPS + 1];

/* Only 1, 2 and 3 come with bytes, those of 3 being F and zeros; in every other case the slot is zeros, which must not be taken for data. */
static int has_bytes(uint32_t answer) {
    return answer == STATION_ANSWER_DATA || answer == STATION_ANSWER_CONTROL || answer == STATION_ANSWER_DEFECTIVE;
}

static int is_flux(const char *path) {
    const char *end = strrchr(path, '.');
    return end != NULL && strcmp(end, ".flux") == 0;
}

/* Says why where the file can't be read. */
static int read_file(const char *path, size_t *length) {
    FILE *stream = fopen(path, "rb");
    const char *why = NULL;
    errno = stream == NULL ? errno : 0;
    /* room for more than an image or a capture can have: a file that is too long is then refused, where a cut one would be read */
    if (stream == NULL)
        why = strerror(errno);
    else if ((*length = fread(file, 1, sizeof file, stream)) < sizeof file && ferror(stream))
        why = strerror(errno);
    else if (*length < 3)
        why = "it has fewer than three bytes";
    else if (is_flux(path) && *length > 3 + NUMBER && (*length - 3) % NUMBER != 0)
        why = "it ends within a stamp";
    if (why != NULL)
        fprintf(stderr, "example: can't read %s: %s\n", path, why);
    if (stream != NULL)
        fclose(stream);
    return why == NULL;
}

static int refused(const char *what, uint8_t number) {
    if (number != STATION_DONE)
        printf("%s is refused: %u\n", what, number);
    return number != STATION_DONE;
}

/* A sector that can't be used, with how far round its mark is, so that the disk can be turned to it. A capture may be longer than a turn. */
static void show_refused(size_t sector, struct station_record record, uint32_t cells_of_a_turn) {
    printf("sector %u can't be used: answer %u", (unsigned)sector, (unsigned)record.answer);
    if (record.place != STATION_NO_PLACE) {
        /* a captured image has at most 196,608 cells: this stays within 32 bits */
        uint32_t tenths = record.place * 3600 / cells_of_a_turn % 3600;
        printf(", %u.%u degrees round from the index hole", (unsigned)tenths / 10, (unsigned)tenths % 10);
    }
    /* no scratch: the record is whole, but some station wrote what may not stand there */
    if (record.answer == STATION_ANSWER_FORBIDDEN_LETTER)
        printf("; not allowed on cylinder 0, report it");
}

/*
 * A sector's doubtful clocks, if it has some. They change no answer, but where it can still be used they are the first sign that the cartridge wears
 * out. In a planned defect, and where a rewrite was cut off, they say nothing of that.
 */
static void show_clocks(struct station_record record) {
    const char *means = "";
    if (record.clocks == 0)
        return;
    if (record.answer == STATION_ANSWER_DATA || record.answer == STATION_ANSWER_CONTROL)
        means = ", copy the cartridge now";
    else if (record.answer == STATION_ANSWER_DEFECTIVE)
        means = ", no sign of wear in a defect";
    else if (record.answer == STATION_ANSWER_OPEN_MARK)
        means = ", no sign of wear in a rewrite that was cut off";
    printf("; %u doubtful clock%s%s", (unsigned)record.clocks, record.clocks == 1 ? "" : "s", means);
}

static void show_sector(size_t sector, struct station_record record, const uint8_t *slot, uint32_t cells_of_a_turn) {
    const char *means = record.answer == STATION_ANSWER_DEFECTIVE ? "is a planned defect, copy it as such" : "can be used";
    if (has_bytes(record.answer))
        printf("sector %u %s: answer %u, first byte %02X", (unsigned)sector, means, (unsigned)record.answer, slot[0]);
    else
        show_refused(sector, record, cells_of_a_turn);
    show_clocks(record);
    printf("\n");
}

/* All answers in a byte each, and in `data`, one after the other, the slots that come with bytes. Gives how many bytes these are. */
static size_t gather(const struct station_record *records, size_t sectors, size_t bytes, uint8_t *answers) {
    size_t sector, length = 0;
    for (sector = 1; sector <= sectors; sector++) {
        uint32_t answer = records[sector - 1].answer;
        answers[sector - 1] = (uint8_t)answer;
        if (has_bytes(answer)) {
            memcpy(data + length, area + (sector - 1) * bytes, bytes);
            length += bytes;
        }
    }
    return length;
}

/* What was read of the captured track, as a file for another bench. */
static int file_captured(const struct station_record *records, size_t sectors, size_t bytes) {
    const char *label = "for the second bench";
    uint8_t track[STATION_TRACK_BYTES] = {file[1], file[2], file[0]}, answers[STATION_MOST_SECTORS];
    size_t data_length = gather(records, sectors, bytes, answers);
    struct station_sections sections;
    uint32_t length[1];
    if (refused("the file", station_file_write((const uint8_t *)label, strlen(label), track, sizeof track, answers, sectors, data, data_length,
                                               sent, sizeof sent, length)))
        return 0;

    /* at the other bench: nothing in these bytes is to be trusted before they are read */
    if (refused("the file that was sent", station_file_read(sent, length[0], &sections)))
        return 0;
    printf("file of %u bytes: label at %u, tracks at %u, answers at %u, data at %u\n", (unsigned)length[0], (unsigned)sections.label_place,
           (unsigned)sections.tracks_place, (unsigned)sections.answers_place, (unsigned)sections.data_place);
    printf("it holds %u track, %u answers and %u bytes of data\n", (unsigned)sections.tracks_count, (unsigned)sections.answers_count,
           (unsigned)sections.data_count);
    printf("without its last byte it is refused: %u\n", station_file_read(sent, length[0] - 1, &sections));
    return 1;
}

static uint32_t number_at(size_t at) {
    return (uint32_t)file[at] << 24 | (uint32_t)file[at + 1] << 16 | (uint32_t)file[at + 2] << 8 | file[at + 3];
}

/* Makes the captured image of the stamps in the file, and gives how many bytes hold cells; 0 where it is refused. */
static size_t image_of_stamps(size_t length) {
    size_t count = (length - 3) / NUMBER, i;
    /* without ticks they are out of range */
    uint32_t ticks = count > 0 ? number_at(3) : 0;
    struct station_flux_result result;
    uint8_t number;
    for (i = 1; i < count; i++)
        stamps[i - 1] = number_at(3 + NUMBER * i);
    number = station_flux(ticks, stamps, count > 0 ? count - 1 : 0, captured, STATION_LONGEST_IMAGE, &result);
    if (number == STATION_REFUSED_FLUX_NO_BAND)
        printf("interval %lu is in no band\n", (unsigned long)result.interval);
    if (refused("the capture", number))
        return 0;
    printf("%lu flux transitions give %lu cells\n", (unsigned long)count - 1, (unsigned long)result.cells);
    return (size_t)(result.cells + 7) / 8;
}

/* The image as the file has it, cut where it is too long to be read in any case. */
static size_t image_of_file(size_t length) {
    size_t bytes = length - 3 < sizeof captured ? length - 3 : sizeof captured;
    memcpy(captured, file + 3, bytes);
    return bytes;
}

static int show_captured(size_t length) {
    uint32_t layout = file[0], cylinder = file[1], side = file[2], counts[2];
    struct station_record records[STATION_MOST_SECTORS];
    /* the file may say anything: a layout that there is not is left to the library, which refuses it */
    int known = layout < STATION_LAYOUTS;
    size_t sector, sectors = known ? LAYOUTS[layout].sectors : 0, bytes = known ? LAYOUTS[layout].bytes : 0;
    if (refused("the captured track", station_read(layout, cylinder, side, captured, length, area, sectors * bytes, records, counts)))
        return 0;
    printf("captured: layout %u, cylinder %u, side %u\n", (unsigned)layout, (unsigned)cylinder, (unsigned)side);
    for (sector = 1; sector <= sectors; sector++)
        show_sector(sector, records[sector - 1], area + (sector - 1) * bytes, 8 * LAYOUTS[layout].image);
    printf("identifiers: %u with a wrong EDC, %u of other tracks\n", (unsigned)counts[0], (unsigned)counts[1]);
    return file_captured(records, sectors, bytes);
}

/* What one sector of the track in memory answers: layout 1, cylinder 5, side 0. */
static unsigned answer_of(size_t sector) {
    struct station_record records[STATION_MOST_SECTORS];
    uint32_t counts[2];
    if (station_read(1, 5, 0, image, sizeof image, area, AREA, records, counts) != STATION_DONE)
        return 0;
    return records[sector - 1].answer;
}

static int rewrite_in_memory(void) {
    uint8_t marks[STATION_SECTORS_1], contents[BYTES];
    uint32_t plan[4];
    memset(area, 0xE5, AREA);
    memset(marks, STATION_MARK_DATA, sizeof marks);
    if (refused("the format", station_format(1, 5, 0, area, AREA, marks, sizeof marks, image, sizeof image)))
        return 0;
    printf("formatted: sector 2 answers %u\n", answer_of(2));

    memset(contents, 'N', sizeof contents);
    if (refused("the request", station_request(1, 5, 0, 2, STATION_MARK_DATA, contents, BYTES, image, sizeof image, plan)))
        return 0;
    printf("rewriting sector 2: %u stores from image byte %u on\n", (unsigned)plan[3], (unsigned)plan[1] / 8);
    /* one store a call, so that each can be brought to the disk before the next; mark and bytes stay the same throughout */
    while (plan[2] < plan[3]) {
        if (refused("a step", station_step(plan, STATION_MARK_DATA, contents, BYTES, image, sizeof image)))
            return 0;
        /* were it cut here, nobody could take the half-written sector for a good one */
        if (plan[2] == 200)
            printf("after %u stores: sector 2 answers %u, sector 3 answers %u\n", (unsigned)plan[2], answer_of(2), answer_of(3));
    }
    printf("after the last: sector 2 answers %u", answer_of(2));
    printf(", and its bytes are %s\n", memcmp(area + BYTES, contents, BYTES) == 0 ? "the new ones" : "not the new ones");
    printf("one more step is refused: %u\n", station_step(plan, STATION_MARK_DATA, contents, BYTES, image, sizeof image));
    /* a refused format leaves the image as it was, so the rewritten track is still there */
    printf("cylinder 75 is refused: %u", station_format(1, 75, 0, area, AREA, marks, sizeof marks, image, sizeof image));
    printf(", and sector 2 still answers %u\n", answer_of(2));
    return 1;
}

int main(int count, char **words) {
    size_t length;
    int served;
    if (count != 2) {
        fprintf(stderr, "usage: example FILE: layout, cylinder and side, one byte each, then the track's image, or with .flux ticks and stamps\n");
        return 2;
    }
    if (!read_file(words[1], &length))
        return 2;
    if (is_flux(words[1]))
        served = (length = image_of_stamps(length)) > 0;
    else
        served = 1, length = image_of_file(length);
    served = served && show_captured(length) && rewrite_in_memory();
    if (fflush(stdout) != 0 || ferror(stdout)) {
        fprintf(stderr, "example: the output could not be written: %s\n", strerror(errno));
        return 2;
    }
    return served ? 0 : 1;
}
