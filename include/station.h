/*
 * station.h: the tracks of 200 mm flexible disk cartridges (ISO 7065-2), held as bit cells: format, read, pick from two passes, rewrite; the file
 * of a read cartridge; and the cells of a track from the time stamps of its flux transitions.
 *
 * The functions are in target/staticlib/libstation.a, which bin/library makes for x86-64 programs. Each is proved to do what is
 * said at its prototype, for all arguments, and to touch no byte but those it is lent. The archive has no variable and calls nothing but
 * memset and memmove: nothing is kept from one call to the next, and nothing is allocated.
 *
 * What is lent. An area is a pointer to its first byte and, where the length is not fixed, the number of its bytes, NAME_length; of stamps, which
 * have four bytes each and the alignment of a uint32_t, that is their number.
 *   - const areas are only read, and may overlap one another; the others are written, and must overlap no other area of the call.
 *   - Each pointer must be valid for as many elements as are said, and nothing else may write them during the call.
 *   - Through a pointer whose length is 0 nothing is read or written: it may be null. (The proofs speak of areas, not of pointers; this was
 *     seen by trying it, for each such pointer.) The pointers without a length are never null.
 *   - Numbers have no such rule: every value of every number is taken, and answered or refused.
 *
 * An image is a track's cells, eight to a byte, the most significant bit first, from the index hole on. An area of sectors is a slot of
 * N bytes for each sector number, sector 1 first: sector s is at (s - 1) * N.
 *
 *   layout  mode  sectors  N     area   image   on the tracks
 *   0       FM    26        128  3,328  10,416  cylinder 0, side 0
 *   1       MFM   26        256  6,656  20,832  cylinder 0, side 1, and cylinders 1 to 74
 *   2       MFM   15        512  7,680  20,832  cylinders 1 to 74
 *   3       MFM    8      1,024  8,192  20,832  cylinders 1 to 74
 *
 * Numbers that come back. A call answers 0, or the number of a refusal: the first that applies in the order given with the function.
 *
 *   0   done
 *   1   the length of the image: for a format the table's, else 1 to 24,576 bytes
 *   2   cylinder above 74
 *   3   side above 1
 *   4   layout above 3, or not allowed on this track
 *   5   the length of the data or the area: the table's; for a rewrite N
 *   6   a mark that is neither FB nor F8, or not as many marks as sectors
 *   7   cylinder 0, mark F8, and the sector's first byte is not the letter D, hex 44
 *   8   the layout's fields are more than the image: no layout meets this, since each is proved to add up to the table's length
 *   9   sector 0, or above the layout's count
 *   10  the sector to be rewritten can't be found: reading answers 21, 22, 23 or 24 for it. With every other answer it is found
 *   11  its mark is not on a byte boundary
 *   12  a step after the last
 *   13  a step, and no data, control or open mark stands at the plan's place on a byte boundary, or its block passes the image's end
 *   31  a count or a section passes the end of the file
 *   32  a label of more than 80 bytes; or tracks: more than 150, not three bytes each, or not as it is said of a file below
 *   33  not as many answers as the tracks have sectors, or one that is no answer's number
 *   34  not as many bytes of data as the answers call for
 *   35  bytes are left over behind the file
 *   36  the area is shorter than the file
 *   41  the ticks of a nominal bit cell: 16 to 1,024
 *   42  no stamps
 *   43  an interval in no band
 *   44  a cell past the end of the image
 *
 * A sector's record, from station_read in `records` and from station_pick in `record`, is its answer, its place and its doubtful clocks. The answer:
 *
 *   1   a data record: the slot holds its bytes
 *   2   a control record: the slot holds its bytes
 *   3   a defective area, a planned defect: on cylinders 1 to 74, mark F8 and the letter F, hex 46, as the first byte, its EDC right or wrong.
 *       The slot holds F and then zeros, which are no data to be used: copy the defect as such, by a format or a rewrite with F8 and this slot
 *   21  no identifier of this sector was found
 *   22  more than one was
 *   23  it has no data block
 *   24  its block passes the end of the image
 *   25  an open mark: a rewrite of this sector was cut off
 *   26  its EDC is wrong
 *   27  its EDC is right, but on cylinder 0 a record with mark F8 has to begin with the letter D, hex 44, and it does not: report it
 *
 * With 21 to 27 the slot is all zero. No number of an answer that station_pick gives is that of a refusal that it gives.
 *
 * The place is the cell at which the sector's data, control or open mark begins, the image's first cell being 0. It is there with 1, 2, 3 and 24
 * to 27. With 21 and 23 no such mark was found, and with 22 there may be several: the place is then 4,294,967,295, which no cell has.
 *
 * The doubtful clocks are the clock cells of the block, its N bytes and the two of its EDC, that differ from the mode's rule: in FM a clock cell is
 * 1, in MFM it is 1 exactly if the data bits on both sides are ZERO, the bit before the first byte being the last of the mark that was found. Those of
 * the mark do not count. There are 8 * (N + 2) at most. The number is there with 1, 2, 3 and 25 to 27, and changes no answer: a sector that answers 1
 * or 2 and has some can be used, but its cartridge wears out and wants to be copied now. With 21, 23 and 24 no whole block was found, and with 22
 * more than one identifier: the number is then 0. While a rewrite is under way (25) it says nothing of wear; after the last store it is 0.
 *
 * A file holds what was read of a cartridge, for another bench: four sections, each behind its count of four bytes, the most significant first.
 *
 *   label    0 to 80 bytes, of any value
 *   tracks   0 to 150, three bytes each: cylinder, side, layout. They rise by cylinder and then side, no pair comes twice, and each has a
 *            layout that the table has on it
 *   answers  a byte for each sector of these tracks, by track and then sector number: 1, 2, 3, 21 to 27
 *   data     the bytes of the sectors that are answered 1, 2 or 3, in that order, N of each
 *
 * The tracks' count is that of tracks, the others' that of bytes. Each content has one file. The empty one has 16 bytes, all zero. Whether a
 * read of its track could give an answer is not asked, nor what the data are: behind a 3 too they may be any.
 *
 * A capture is the time stamps of a track's flux transitions in MFM, in ticks, from a counter that runs over from 4,294,967,295 to 0. An interval is
 * what lies between two neighbouring stamps, always less than one full run of the counter; that between the first two has number 1. A bit cell is
 * two cells of an image. By the average of the last eight accepted intervals, the ticks of all over the cells of all, an interval is
 *
 *   2 cells  from 160 % to 240 % of that average cell, ends included
 *   3 cells  from 260 % to 330 %
 *   4 cells  from 370 % to 450 %
 *
 * or it is in no band. At the start the eight are bit cells of the nominal ticks. So the bands follow a drive that slowly runs faster or slower.
 */
#ifndef STATION_H
#define STATION_H

#include <stddef.h>
#include <stdint.h>

#ifdef __cplusplus
extern "C" {
#endif

enum station_refusal {
    STATION_DONE = 0,
    STATION_REFUSED_IMAGE_LENGTH = 1,
    STATION_REFUSED_CYLINDER_NUMBER = 2,
    STATION_REFUSED_SIDE_NUMBER = 3,
    STATION_REFUSED_LAYOUT_NUMBER = 4,
    STATION_REFUSED_AREA_LENGTH = 5,
    STATION_REFUSED_MARK_BYTES = 6,
    STATION_REFUSED_CONTROL_RECORD = 7,
    STATION_REFUSED_OVERFULL = 8,
    STATION_REFUSED_SECTOR_NUMBER = 9,
    STATION_REFUSED_UNREADABLE = 10,
    STATION_REFUSED_OFF_BOUNDARY = 11,
    STATION_REFUSED_FINISHED = 12,
    STATION_REFUSED_NO_BLOCK = 13
};

/* Those of station_file_write and station_file_read. */
enum station_file_refusal {
    STATION_REFUSED_FILE_PAST_END = 31,
    STATION_REFUSED_FILE_LABEL_OR_TRACKS = 32,
    STATION_REFUSED_FILE_ANSWER_BYTES = 33,
    STATION_REFUSED_FILE_DATA_COUNT = 34,
    STATION_REFUSED_FILE_LEFT_OVER = 35,
    STATION_REFUSED_FILE_AREA_LENGTH = 36
};

/* Those of station_flux. */
enum station_flux_refusal {
    STATION_REFUSED_FLUX_TICKS_NUMBER = 41,
    STATION_REFUSED_FLUX_NO_STAMPS = 42,
    STATION_REFUSED_FLUX_NO_BAND = 43,
    STATION_REFUSED_FLUX_PAST_IMAGE = 44
};

enum station_answer {
    STATION_ANSWER_DATA = 1,
    STATION_ANSWER_CONTROL = 2,
    STATION_ANSWER_DEFECTIVE = 3,
    STATION_ANSWER_NO_IDENTIFIER = 21,
    STATION_ANSWER_DOUBLED = 22,
    STATION_ANSWER_NO_BLOCK = 23,
    STATION_ANSWER_PAST_END = 24,
    STATION_ANSWER_OPEN_MARK = 25,
    STATION_ANSWER_WRONG_EDC = 26,
    STATION_ANSWER_FORBIDDEN_LETTER = 27
};

/*
 * The table above in numbers, by layout: the sectors, the bytes of a sector, N, and of a formatted track's image. Sectors times bytes is the
 * length of an area. Then the most of each for an area that is to take every layout, and for an image that is read or rewritten.
 */
enum station_size {
    STATION_LAYOUTS = 4,
    STATION_SECTORS_0 = 26,
    STATION_SECTORS_1 = 26,
    STATION_SECTORS_2 = 15,
    STATION_SECTORS_3 = 8,
    STATION_BYTES_0 = 128,
    STATION_BYTES_1 = 256,
    STATION_BYTES_2 = 512,
    STATION_BYTES_3 = 1024,
    STATION_IMAGE_0 = 10416,
    STATION_IMAGE_1 = 20832,
    STATION_IMAGE_2 = 20832,
    STATION_IMAGE_3 = 20832,
    STATION_MOST_SECTORS = 26,
    STATION_LONGEST_AREA = 8192,
    STATION_LONGEST_IMAGE = 24576
};

/*
 * The most of a file: bytes of the label, tracks, the bytes of one of them, answers, bytes before the data (its place), bytes in all.
 *   answers          3,900 = 150 * 26
 *   before the data  4,446 = 4 * 4 + 80 + 150 * 3 + 3,900
 *   in all       1,224,182 = 4 * 4 + 80 + 150 * 3 + (26 + 3,328) + (26 + 6,656) + 148 * (8 + 8,192)
 * Cylinder 0 has layouts 0 and 1. On the 148 tracks of the others the most answers are layout 1's, and the most bytes layout 3's.
 */
enum station_file_size {
    STATION_LONGEST_LABEL = 80,
    STATION_MOST_TRACKS = 150,
    STATION_TRACK_BYTES = 3,
    STATION_MOST_ANSWERS = 3900,
    STATION_LONGEST_HEAD = 4446,
    STATION_LONGEST_FILE = 1224182
};

/* The ticks that a nominal bit cell of a capture may have: the least and the most. */
enum station_flux_size {
    STATION_LEAST_TICKS = 16,
    STATION_MOST_TICKS = 1024
};

/* The marks that a sector may be given: of a data record, and of a control record or a planned defect. */
enum station_mark {
    STATION_MARK_DATA = 0xFB,
    STATION_MARK_CONTROL = 0xF8
};

/* The place in a record with the answer 21, 22 or 23. */
#define STATION_NO_PLACE 4294967295u

/* A sector's record, as it stands above. */
struct station_record {
    uint32_t answer;
    uint32_t place;
    uint32_t clocks;
};

/* The sections of a file: where each begins, past its count, the file's first byte being 0; and its count. */
struct station_sections {
    uint32_t label_place;
    uint32_t label_count;
    uint32_t tracks_place;
    uint32_t tracks_count;
    uint32_t answers_place;
    uint32_t answers_count;
    uint32_t data_place;
    uint32_t data_count;
};

/* What came of a capture: the number of cells, and for the refusal 43 that of the interval. */
struct station_flux_result {
    uint64_t cells;
    uint64_t interval;
};

/* The EDC of the bytes: X^16 + X^12 + X^5 + 1, the register all ones at the start. Never refused. */
uint16_t station_edc(const uint8_t *bytes, size_t bytes_length);

/* The two image bytes of `byte` in FM, the first in the upper half. `before` changes nothing in FM. Never refused. */
uint16_t station_code_fm(uint8_t before, uint8_t byte);

/* The same in MFM, after the data bit `before`: 0 is ZERO, anything else ONE. Never refused. */
uint16_t station_code_mfm(uint8_t before, uint8_t byte);

/* The data byte that the sixteen cells from cell `place` on hold; cells past the end of the image are 0. Never refused. */
uint8_t station_data_byte(const uint8_t *image, size_t image_length, size_t place);

/*
 * Formats a track. `data` has the sectors' bytes, an area of the layout's length, and `marks` a mark for each sector, by sector number.
 * 0: `image`, whatever it held, holds the track. Each sector of it reads as 1 or 2, by its mark, with its bytes; but as 3 if it has F8 and its
 * first byte is F: the other bytes are then on the track, and no read hands them back.
 * Refused 2, 3, 4, 1, 5, 6, 7: `image` is as it was.
 */
uint8_t station_format(uint32_t layout, uint32_t cylinder, uint32_t side, const uint8_t *data, size_t data_length,
                       const uint8_t *marks, size_t marks_length, uint8_t *image, size_t image_length);

/*
 * Reads a track. Whatever they held before, `area` gets the sectors' slots; `records` the records by sector, that of sector 1 first, and zeros
 * past the layout's count; `counts` the number of identifiers with a wrong EDC, and of those of other tracks.
 * 0: read; look at a sector's answer before its slot is used: data is there with 1 and 2 alone.
 * Refused 2, 3, 4, 1, 5: all three hold zeros, `area` over the whole length lent.
 */
uint8_t station_read(uint32_t layout, uint32_t cylinder, uint32_t side, const uint8_t *image, size_t image_length, uint8_t *area,
                     size_t area_length, struct station_record records[26], uint32_t counts[2]);

/*
 * Picks a sector from two passes over one track, each an area and the records that station_read gave with it (an answer whose number is no
 * answer's counts as 21, whatever stands beside it): from whichever pass answered 1, 2 or 3, the first before the second, so that a 3 of the
 * first goes before a 1 of the second, and never from both.
 * Gives the sector's answer. With 1, 2 or 3 `taken` gets the pass, 1 or 2, the first byte of the slot in that pass's area, and the slot's
 * length, and `record` the sector's record in that pass. Else it is the first pass's answer: `taken` gets zeros, and `record` the record in the
 * first pass. Place and doubtful clocks are handed on as they are. Refused 4 (only above 3), 9, 5: zeros in both.
 */
uint8_t station_pick(uint32_t layout, uint32_t sector, const uint8_t *first, size_t first_length,
                     const struct station_record first_records[26], const uint8_t *second, size_t second_length,
                     const struct station_record second_records[26], uint32_t taken[3], struct station_record *record);

/*
 * Asks for the rewrite of a sector with a mark and N bytes. F8 and a first byte F make a planned defect of it; on cylinder 0 they are refused.
 * The image is only read.
 * 0: `plan` gets the layout, the cell at which the block's mark begins (the place in the sector's record), the stores made, which are 0, and the
 * stores in all.
 * Refused 2, 3, 4, 1, 9, 5, 6, 7, 10, 11: zeros.
 */
uint8_t station_request(uint32_t layout, uint32_t cylinder, uint32_t side, uint32_t sector, uint32_t mark, const uint8_t *contents,
                        size_t contents_length, const uint8_t *image, size_t image_length, uint32_t plan[4]);

/*
 * Makes the next store of a rewrite: one byte of the image. Hand it the plan, and the mark and the bytes of the request, until the stores made,
 * plan[2], are the stores in all, plan[3]. It looks for the mark at the plan's place each time; plan[3] it only writes.
 * 0: the store is made, and the plan moved on. Refused 4 (only above 3), 1, 5, 6, 13, 12: plan and image are as they were.
 *
 * It may be cut after any store: every other sector reads as before; the one under way answers 25 from the first store to the last but one, its
 * place unchanged, and asking anew ends with the image that an uncut rewrite leaves. After the last it reads as one that was formatted with this
 * mark and these bytes: 1, 2 or 3. (A step knows no cylinder: handed other bytes than the request's it can leave a 27 on cylinder 0.)
 */
uint8_t station_step(uint32_t plan[4], uint32_t mark, const uint8_t *contents, size_t contents_length, uint8_t *image,
                     size_t image_length);

/*
 * Writes a file of its four sections, handed over without their counts: `tracks` has three bytes for each track.
 * 0: `area`, whatever it held, holds the file, and zeros from its end on; `length` gets the bytes of the file.
 * Refused 32, 33, 34, 36: zeros in both, `area` over the whole length lent.
 */
uint8_t station_file_write(const uint8_t *label, size_t label_length, const uint8_t *tracks, size_t tracks_length, const uint8_t *answers,
                           size_t answers_length, const uint8_t *data, size_t data_length, uint8_t *area, size_t area_length,
                           uint32_t length[1]);

/*
 * Reads a file, which has to be all that is lent. 0: `sections` gets each section's place and count, also of an empty one.
 * Refused 31 to 35: zeros. The first that is met from the file's first byte on counts: of each section its count (31 where that is cut, else 32,
 * 33 or 34), then whether it is there as a whole (31), then what it holds (32 or 33); 35 is last.
 */
uint8_t station_file_read(const uint8_t *file, size_t file_length, struct station_sections *sections);

/*
 * Turns a capture into the cells of an image, by the ticks of a nominal bit cell. The first stamp gives a cell 1; each interval gives its cells,
 * which are 0 but for the last, a 1.
 * 0: `image`, whatever it held, holds the cells, and zeros behind them; `result` gets their number, and 0 for the interval.
 * Refused 41, 42, then 43 or 44, by the stamps in their order: the first that is met, and in one interval 43. `image` is zero over the whole length
 * lent, and `result` gets zeros, but with 43 the number of the interval.
 */
uint8_t station_flux(uint32_t ticks, const uint32_t *stamps, size_t stamps_length, uint8_t *image, size_t image_length,
                     struct station_flux_result *result);

#ifdef __cplusplus
}
#endif

#endif
