//! Bytes read from cells with their doubtful clocks, word for word after 02, request 06: one clock cell after the other.
//! Slow, to check the fast version and the library by.
use super::coding::Mode;
use super::layouts::Layout;
use super::plain::is_one;

/// "Reading one byte from cells must also tell how many of its eight clock cells differ from the mode's rule, given the
/// bit before."
pub fn byte(mode: Mode, image: &[u8], cell: usize, before: bool) -> (u8, u32) {
    let (mut byte, mut before, mut doubtful) = (0, before, 0);
    for bit in 0..8 {
        // "clock cell, data cell, eight times, B8 first"
        let (clock, data) = (is_one(image, cell + 2 * bit), is_one(image, cell + 2 * bit + 1));
        if clock != rule(mode, before, data) {
            doubtful += 1;
        }
        byte = 2 * byte + u8::from(data);
        before = data;
    }
    (byte, doubtful)
}

/// "FM: every clock cell is 1 … MFM: a clock cell is 1 exactly if the data bits on both sides are ZERO"
fn rule(mode: Mode, before: bool, behind: bool) -> bool {
    match mode {
        Mode::Fm => true,
        Mode::Mfm => !before && !behind,
    }
}

/// The bytes that the cells from one on hold, and "the sum" of their doubtful clocks. The bit before the first is handed
/// over; before each other it is the last of the byte that it follows.
pub fn bytes(mode: Mode, image: &[u8], from: usize, before: bool, count: usize) -> (Vec<u8>, u32) {
    let (mut bytes, mut before, mut sum) = (vec![], before, 0);
    for at in 0..count {
        let (byte, doubtful) = byte(mode, image, from + 16 * at, before);
        bytes.push(byte);
        before = byte % 2 == 1;
        sum += doubtful;
    }
    (bytes, sum)
}

/// "The sum for its block's N + 2 bytes", of a block that is whole, by the cell at which its mark begins. The last of a
/// mark's 16 or 64 cells is a data cell, its last bit.
pub fn of_block(layout: &Layout, image: &[u8], mark: usize) -> u32 {
    let from = mark
        + match layout.mode {
            Mode::Fm => 16,
            Mode::Mfm => 64,
        };
    bytes(layout.mode, image, from, is_one(image, from - 1), layout.size + 2).1
}
