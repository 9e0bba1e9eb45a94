//! A sector's record (01, "How a track is read"; 02, requests 01, 04 and 06): its answer, the cell at which its data,
//! control or open mark begins, and how many clock cells of its block are doubtful.
use crate::station::{Record, NO_PLACE};

/// That of a sector whose mark begins at a cell, and has no doubtful clock behind it, or no whole block.
pub const fn at(answer: u32, cell: usize) -> Record {
    doubtful(answer, cell, 0)
}

/// The same with so many doubtful clocks.
pub const fn doubtful(answer: u32, cell: usize, clocks: u32) -> Record {
    Record { answer, place: cell as u32, clocks }
}

/// That of a sector for which no such mark was found, or more than one identifier: 21, 22 and 23.
pub const fn nowhere(answer: u32) -> Record {
    Record { answer, place: NO_PLACE, clocks: 0 }
}

/// Whether the number is an answer's.
#[inline]
pub const fn is_answer(number: u32) -> bool {
    matches!(number, 1..=3 | 21..=27)
}

/// Whether there are bytes with an answer: those of a data or a control record, or the F and zeros of a defective area.
#[inline]
pub const fn has_bytes(answer: u32) -> bool {
    matches!(answer, 1..=3)
}
