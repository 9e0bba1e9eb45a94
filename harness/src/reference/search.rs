//! The search for marks at any cell (01, "How a track is read"), an image byte at a time.
use std::ops::Range;

/// Marks of `BYTES` image bytes to search for.
pub struct Wanted<const BYTES: usize, const KINDS: usize> {
    /// Each mark's cells as a number.
    marks: [u64; KINDS],
    /// Where a mark begins in a byte, the next byte lies wholly inside it. So by the value of that next byte: in which
    /// cells of the byte a mark can begin, the first cell in the lowest bit.
    beginnings: [u8; 256],
}

/// A mark's image bytes as a number.
pub const fn number<const BYTES: usize>(image: &[u8; BYTES]) -> u64 {
    let mut cells = 0;
    let mut at = 0;
    while at < BYTES {
        cells = cells << 8 | image[at] as u64;
        at += 1;
    }
    cells
}

impl<const BYTES: usize, const KINDS: usize> Wanted<BYTES, KINDS> {
    pub const fn new(marks: [u64; KINDS]) -> Self {
        let mut beginnings = [0; 256];
        let mut kind = 0;
        while kind < KINDS {
            let first_two = marks[kind] >> (8 * (BYTES - 2));
            let mut cell = 0;
            while cell < 8 {
                beginnings[(first_two >> cell) as usize % 256] |= 1 << cell;
                cell += 1;
            }
            kind += 1;
        }
        Self { marks, beginnings }
    }

    /// The first of the marks that begins at one of the cells and lies wholly in the image: its place and its cells.
    #[inline(never)] // so that the loop has the registers for itself
    pub fn first(&self, image: &[u8], cells: Range<usize>) -> Option<(usize, u64)> {
        let past = (8 * image.len() + 1).saturating_sub(8 * BYTES);
        let cells = cells.start..cells.end.min(past);
        let bytes = cells.start / 8..(cells.end + 7) / 8;
        if bytes.is_empty() {
            return None;
        }
        let next = &image[bytes.start + 1..bytes.end + 1];
        for (byte, &next) in bytes.zip(next) {
            let begins = self.beginnings[usize::from(next)];
            if begins != 0 {
                let found = self.first_in(image, byte, begins, &cells);
                if found.is_some() {
                    return found;
                }
            }
        }
        None
    }

    /// The same among some cells of one byte, from which on the image has at least `BYTES` bytes.
    fn first_in(&self, image: &[u8], byte: usize, mut begins: u8, cells: &Range<usize>) -> Option<(usize, u64)> {
        let mut whole = [0; 8];
        whole[8 - BYTES..].copy_from_slice(&image[byte..byte + BYTES]);
        let whole = u64::from_be_bytes(whole);
        // what stands past the end does not matter: no mark that begins among the cells reaches it
        let last = image.get(byte + BYTES).map_or(0, |&octet| u64::from(octet));
        while begins != 0 {
            let shift = begins.trailing_zeros() as usize;
            let found = (whole << shift | last >> (8 - shift)) & (u64::MAX >> (64 - 8 * BYTES));
            if self.marks.contains(&found) && cells.contains(&(8 * byte + shift)) {
                return Some((8 * byte + shift, found));
            }
            begins &= begins - 1;
        }
        None
    }
}
