//! The functions of station.h, where their promises are, for Rust: as they are declared, and behind safe ones. A real
//! slice has a valid pointer and the right length, and overlaps nothing else that is written, which is all that the
//! library asks. A program names this file as a module, as examples/rust/main.rs does, and links
//! target/staticlib/libstation.a.
#![allow(dead_code)] // a program need not call all of it

// a slice is two arguments, its pointer and its number of elements; harness/tests/header holds this to the Rattle signatures
#[link(name = "station", kind = "static")]
extern "C" {
    pub fn station_edc(bytes: *const u8, bytes_length: usize) -> u16;
    pub fn station_code_fm(before: u8, byte: u8) -> u16;
    pub fn station_code_mfm(before: u8, byte: u8) -> u16;
    pub fn station_data_byte(image: *const u8, image_length: usize, place: usize) -> u8;
    pub fn station_format(
        layout: u32,
        cylinder: u32,
        side: u32,
        data: *const u8,
        data_length: usize,
        marks: *const u8,
        marks_length: usize,
        image: *mut u8,
        image_length: usize,
    ) -> u8;
    pub fn station_read(
        layout: u32,
        cylinder: u32,
        side: u32,
        image: *const u8,
        image_length: usize,
        area: *mut u8,
        area_length: usize,
        records: *mut [Record; 26],
        counts: *mut [u32; 2],
    ) -> u8;
    pub fn station_pick(
        layout: u32,
        sector: u32,
        first: *const u8,
        first_length: usize,
        first_records: *const [Record; 26],
        second: *const u8,
        second_length: usize,
        second_records: *const [Record; 26],
        taken: *mut [u32; 3],
        record: *mut Record,
    ) -> u8;
    pub fn station_request(
        layout: u32,
        cylinder: u32,
        side: u32,
        sector: u32,
        mark: u32,
        contents: *const u8,
        contents_length: usize,
        image: *const u8,
        image_length: usize,
        plan: *mut [u32; 4],
    ) -> u8;
    pub fn station_step(
        plan: *mut [u32; 4],
        mark: u32,
        contents: *const u8,
        contents_length: usize,
        image: *mut u8,
        image_length: usize,
    ) -> u8;
    pub fn station_file_write(
        label: *const u8,
        label_length: usize,
        tracks: *const u8,
        tracks_length: usize,
        answers: *const u8,
        answers_length: usize,
        data: *const u8,
        data_length: usize,
        area: *mut u8,
        area_length: usize,
        length: *mut [u32; 1],
    ) -> u8;
    pub fn station_file_read(file: *const u8, file_length: usize, sections: *mut Sections) -> u8;
    pub fn station_flux(
        ticks: u32,
        stamps: *const u32,
        stamps_length: usize,
        image: *mut u8,
        image_length: usize,
        result: *mut FluxResult,
    ) -> u8;
}

/// What one layout takes: its sectors, the bytes of one, and the image bytes of a formatted track.
#[derive(Clone, Copy, Debug, PartialEq, Eq)]
pub struct Layout {
    pub sectors: usize,
    pub bytes: usize,
    pub image: usize,
}

impl Layout {
    /// The bytes of all sectors: the length of an area.
    pub const fn area(self) -> usize {
        self.sectors * self.bytes
    }
}

/// The layouts, by number.
pub const LAYOUTS: [Layout; 4] = [
    Layout { sectors: 26, bytes: 128, image: 10_416 },
    Layout { sectors: 26, bytes: 256, image: 20_832 },
    Layout { sectors: 15, bytes: 512, image: 20_832 },
    Layout { sectors: 8, bytes: 1_024, image: 20_832 },
];

/// The sectors of a layout that has the most, and the bytes of the longest image that is read or rewritten.
pub const MOST_SECTORS: usize = 26;
pub const LONGEST_IMAGE: usize = 24_576;

/// The marks that a sector may be given: of a data record, and of a control record or a planned defect.
pub const DATA_MARK: u8 = 0xFB;
pub const CONTROL_MARK: u8 = 0xF8;

/// The place in a record with the answer 21, 22 or 23.
pub const NO_PLACE: u32 = u32::MAX;

/// A sector's record, station.h's `struct station_record`: its answer, the cell at which its data, control or open mark
/// begins, and how many clock cells of its block are doubtful.
#[repr(C)]
#[derive(Clone, Copy, Debug, Default, PartialEq, Eq)]
pub struct Record {
    pub answer: u32,
    pub place: u32,
    pub clocks: u32,
}

/// The most of a file, as station.h adds it up: bytes of the label, tracks, the bytes of one of them (cylinder, side,
/// layout), answers, bytes before the data, and bytes in all.
pub const LONGEST_LABEL: usize = 80;
pub const MOST_TRACKS: usize = 150;
pub const TRACK_BYTES: usize = 3;
pub const MOST_ANSWERS: usize = 3_900;
pub const LONGEST_HEAD: usize = 4_446;
pub const LONGEST_FILE: usize = 1_224_182;

/// The sections of a file, station.h's `struct station_sections`: the place of each, the file's first byte being 0, and
/// its count, of bytes, but of tracks with the tracks.
#[repr(C)]
#[derive(Clone, Copy, Debug, Default, PartialEq, Eq)]
pub struct Sections {
    pub label_place: u32,
    pub label_count: u32,
    pub tracks_place: u32,
    pub tracks_count: u32,
    pub answers_place: u32,
    pub answers_count: u32,
    pub data_place: u32,
    pub data_count: u32,
}

/// The least and the most ticks of a nominal bit cell.
pub const LEAST_TICKS: u32 = 16;
pub const MOST_TICKS: u32 = 1_024;

/// What came of a capture, station.h's `struct station_flux_result`: the number of cells, and for the refusal 43 that of
/// the interval.
#[repr(C)]
#[derive(Clone, Copy, Debug, Default, PartialEq, Eq)]
pub struct FluxResult {
    pub cells: u64,
    pub interval: u64,
}

/// What a read tells of a track, beside the sectors' slots.
#[derive(Clone, Copy, Debug, Default, PartialEq, Eq)]
pub struct Reading {
    /// The record of each sector, that of sector 1 first; zeros past the layout's count.
    pub records: [Record; MOST_SECTORS],
    /// How many identifiers have a wrong EDC, and how many are those of other tracks.
    pub counts: [u32; 2],
}

/// A pass over a track, as a read left it: the slots of all sectors, and their records.
#[derive(Clone, Copy)]
pub struct Pass<'a> {
    pub area: &'a [u8],
    pub records: &'a [Record; MOST_SECTORS],
}

/// The EDC of the bytes, the register all ones at the start.
pub fn edc(bytes: &[u8]) -> u16 {
    // SAFETY: pointer and length are those of one live slice, which is only read.
    unsafe { station_edc(bytes.as_ptr(), bytes.len()) }
}

/// The two image bytes of `byte` in FM after the bit `before` (0 is ZERO, all else ONE), the first in the high half.
pub fn code_fm(before: u8, byte: u8) -> u16 {
    // SAFETY: plain numbers, and the function takes every one of them.
    unsafe { station_code_fm(before, byte) }
}

/// The same in MFM.
pub fn code_mfm(before: u8, byte: u8) -> u16 {
    // SAFETY: plain numbers, and the function takes every one of them.
    unsafe { station_code_mfm(before, byte) }
}

/// The data byte that the sixteen cells from `cell` hold; cells past the end of the image are 0.
pub fn data_byte(image: &[u8], cell: usize) -> u8 {
    // SAFETY: pointer and length are those of one live slice, which is only read; every cell number is taken.
    unsafe { station_data_byte(image.as_ptr(), image.len(), cell) }
}

/// Writes a track, data and marks by sector number. 0: written; else the number of the refusal.
pub fn format(layout: u32, cylinder: u32, side: u32, data: &[u8], marks: &[u8], image: &mut [u8]) -> u8 {
    // SAFETY: each pointer and length are those of one live slice; `data` and `marks` are only read, and `image`, which
    // is written, overlaps neither; every number is taken.
    unsafe {
        station_format(
            layout,
            cylinder,
            side,
            data.as_ptr(),
            data.len(),
            marks.as_ptr(),
            marks.len(),
            image.as_mut_ptr(),
            image.len(),
        )
    }
}

/// Reads a track. 0: slots and records stand by sector number, the records past the layout's count are zeros. Else the
/// number of the refusal, and all that was lent is zero.
pub fn read(layout: u32, cylinder: u32, side: u32, image: &[u8], area: &mut [u8], reading: &mut Reading) -> u8 {
    // SAFETY: each pointer and length are those of one live slice or array; `image` is only read, and the others, which
    // are written, overlap neither it nor each other; every number is taken.
    unsafe {
        station_read(
            layout,
            cylinder,
            side,
            image.as_ptr(),
            image.len(),
            area.as_mut_ptr(),
            area.len(),
            &mut reading.records,
            &mut reading.counts,
        )
    }
}

/// Picks a sector from two passes, the first that answers 1, 2 or 3. The answer's number or the refusal's; what is taken
/// is the pass, 1 or 2, the first byte of its slot in that pass's area, and the slot's length; three zeros if it is
/// neither. The record is that of the pass taken, or of the first if it is neither; zeros if the call is refused.
pub fn pick(layout: u32, sector: u32, first: Pass, second: Pass, taken: &mut [u32; 3], record: &mut Record) -> u8 {
    // SAFETY: each pointer and length are those of one live slice, array or record; all but `taken` and `record` are
    // only read, and these, which are written, overlap none of them nor each other; every number is taken, in the
    // records too.
    unsafe {
        station_pick(
            layout,
            sector,
            first.area.as_ptr(),
            first.area.len(),
            first.records,
            second.area.as_ptr(),
            second.area.len(),
            second.records,
            taken,
            record,
        )
    }
}

/// Asks for the rewrite of a sector. 0: the plan holds the layout, the cell at which the block's mark begins, the stores
/// made and the stores in all. Else the number of the refusal, and the plan is zero.
#[allow(clippy::too_many_arguments)]
pub fn request(
    layout: u32,
    cylinder: u32,
    side: u32,
    sector: u32,
    mark: u32,
    contents: &[u8],
    image: &[u8],
    plan: &mut [u32; 4],
) -> u8 {
    // SAFETY: each pointer and length are those of one live slice or array; `contents` and `image` are only read, and
    // `plan`, which is written, overlaps neither; every number is taken.
    unsafe {
        station_request(
            layout,
            cylinder,
            side,
            sector,
            mark,
            contents.as_ptr(),
            contents.len(),
            image.as_ptr(),
            image.len(),
            plan,
        )
    }
}

/// Makes the next store of a rewrite. 0: it is made, and the plan has moved on. Else the number of the refusal, and plan
/// and image are as they were.
pub fn step(plan: &mut [u32; 4], mark: u32, contents: &[u8], image: &mut [u8]) -> u8 {
    // SAFETY: each pointer and length are those of one live slice or array; `contents` is only read, and `plan` and
    // `image`, which are written, overlap neither it nor each other; every number is taken, in the plan too.
    unsafe { station_step(plan, mark, contents.as_ptr(), contents.len(), image.as_mut_ptr(), image.len()) }
}

/// Writes a file of its four sections: three bytes for each track, an answer for each sector of these, and the data of
/// those that are answered 1, 2 or 3. 0: the area holds the file, and zeros behind it, and the length is the file's.
/// Else the number of the refusal, and area and length are zero.
pub fn file_write(
    label: &[u8],
    tracks: &[u8],
    answers: &[u8],
    data: &[u8],
    area: &mut [u8],
    length: &mut [u32; 1],
) -> u8 {
    // SAFETY: each pointer and length are those of one live slice or array; all but `area` and `length` are only read,
    // and these, which are written, overlap none of them nor each other; every length is taken.
    unsafe {
        station_file_write(
            label.as_ptr(),
            label.len(),
            tracks.as_ptr(),
            tracks.len(),
            answers.as_ptr(),
            answers.len(),
            data.as_ptr(),
            data.len(),
            area.as_mut_ptr(),
            area.len(),
            length,
        )
    }
}

/// Reads a file, which has to be all of the slice. 0: the sections are there, the empty ones too. Else the number of the
/// refusal, and all of them are zero.
pub fn file_read(file: &[u8], sections: &mut Sections) -> u8 {
    // SAFETY: pointer and length are those of one live slice, which is only read, and `sections`, which is written,
    // does not overlap it.
    unsafe { station_file_read(file.as_ptr(), file.len(), sections) }
}

/// Turns the time stamps of flux transitions into the cells of an image, by the ticks of a nominal bit cell. 0: the image
/// holds the cells, and zeros behind them, and the result has their number. Else the number of the refusal, all of the
/// image is zero, and so is the result, but for the interval's number with 43.
pub fn flux(ticks: u32, stamps: &[u32], image: &mut [u8], result: &mut FluxResult) -> u8 {
    // SAFETY: each pointer and length are those of one live slice or struct; `stamps` is only read, and `image` and
    // `result`, which are written, overlap neither it nor each other; every number is taken, in the stamps too.
    unsafe { station_flux(ticks, stamps.as_ptr(), stamps.len(), image.as_mut_ptr(), image.len(), result) }
}
