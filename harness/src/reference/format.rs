//! The formatter (01, "The image and the four layouts", "Order on the track", "Refused calls"; 004, clauses 5 and 6):
//! one pass over the image, field after field.
use super::coding::{after, Mode};
use super::edc::{continued, edc};
use super::layouts::{of_track, Layout};
use super::marks::{self, Mark, Marks, CONTROL, DATA, LETTER_D};
use std::mem::take;

/// What all layouts of one mode share. A mark takes `MARK` image bytes.
struct Order<const MARK: usize> {
    mode: Mode,
    /// The byte of all gaps.
    gap: u8,
    before_index: usize,
    after_index: usize,
    identifier_gap: usize,
    /// The (00)-bytes before each mark.
    zeros: usize,
    marks: Marks<MARK>,
}

/// 004, clause 5.
const FM: Order<2> = Order {
    mode: Mode::Fm,
    gap: 0xFF,
    before_index: 40,
    after_index: 26,
    identifier_gap: 11,
    zeros: 6,
    marks: marks::FM,
};

/// 004, clause 6.
const MFM: Order<8> = Order {
    mode: Mode::Mfm,
    gap: 0x4E,
    before_index: 80,
    after_index: 50,
    identifier_gap: 22,
    zeros: 12,
    marks: marks::MFM,
};

/// Writes the track, data and marks by sector number. Answers 0, or the number of the refusal, which leaves the image
/// as it was.
pub fn format(layout: u32, cylinder: u32, side: u32, data: &[u8], marks: &[u8], image: &mut [u8]) -> u8 {
    let layout = match of_track(layout, cylinder, side) {
        Ok(layout) => layout,
        Err(number) => return number,
    };
    if image.len() != layout.image_bytes() {
        return 1;
    }
    if data.len() != layout.area_bytes() {
        return 5;
    }
    if marks.len() != layout.sectors || !marks.iter().all(|&mark| mark == DATA || mark == CONTROL) {
        return 6;
    }
    let contents = Contents { cylinder: cylinder as u8, side: side as u8, size: layout.size, data, marks };
    if cylinder == 0 && contents.sectors().any(|(bytes, mark)| mark == CONTROL && bytes[0] != LETTER_D) {
        return 7;
    }
    match layout.mode {
        Mode::Fm => FM.write(layout, &contents, image),
        Mode::Mfm => MFM.write(layout, &contents, image),
    }
}

/// What is to stand on the track.
struct Contents<'a> {
    cylinder: u8,
    side: u8,
    size: usize,
    data: &'a [u8],
    marks: &'a [u8],
}

impl<'a> Contents<'a> {
    /// The data bytes and the mark of each sector, in natural order.
    fn sectors(&self) -> impl Iterator<Item = (&'a [u8], u8)> {
        self.data.chunks_exact(self.size).zip(self.marks.iter().copied())
    }
}

impl<const MARK: usize> Order<MARK> {
    /// The sum of all fields, in bytes of the track.
    fn fields(&self, layout: &Layout) -> usize {
        let mark = self.zeros + MARK / 2;
        let (address, edc) = (4, 2);
        let sector = mark + address + edc + self.identifier_gap + mark + layout.size + edc + layout.block_gap;
        self.before_index + mark + self.after_index + layout.sectors * sector + layout.track_gap
    }

    fn write(&self, layout: &Layout, contents: &Contents, image: &mut [u8]) -> u8 {
        if 2 * self.fields(layout) > image.len() {
            return 8;
        }
        let marks = &self.marks;
        // what the marks leave in the register, once for all sectors
        let (identifier, data) = (edc(marks.identifier.bytes), edc(marks.data.bytes));
        let control = edc(marks.control.bytes);

        // the bit before the track's first is taken as ZERO
        let mut track = Track { rest: image, mode: self.mode, last: 0x00 };
        track.run(self.before_index, self.gap);
        track.mark(self.zeros, &marks.index);
        track.run(self.after_index, self.gap);
        for (number, (bytes, mark)) in (1..).zip(contents.sectors()) {
            track.mark(self.zeros, &marks.identifier);
            track.covered(identifier, &[contents.cylinder, contents.side, number, layout.fourth]);
            track.run(self.identifier_gap, self.gap);
            let (mark, register) = if mark == CONTROL { (&marks.control, control) } else { (&marks.data, data) };
            track.mark(self.zeros, mark);
            track.covered(register, bytes);
            track.run(layout.block_gap, self.gap);
        }
        track.run(layout.track_gap, self.gap);
        0
    }
}

/// The image as far as it is still to be written.
struct Track<'a> {
    rest: &'a mut [u8],
    mode: Mode,
    /// The byte before. Its last bit would do, but a `bool` carried from byte to byte can keep LLVM from vector code.
    last: u8,
}

impl<'a> Track<'a> {
    /// The next image bytes.
    fn next(&mut self, length: usize) -> &'a mut [u8] {
        let (next, rest) = take(&mut self.rest).split_at_mut(length);
        self.rest = rest;
        next
    }

    /// One byte `count` times, at least once. All but the first follow the same bit, so they have the same cells.
    fn run(&mut self, count: usize, byte: u8) {
        let (first, others) = self.next(2 * count).split_at_mut(2);
        first.copy_from_slice(&after(self.mode, self.last, byte));
        let cells = after(self.mode, byte, byte);
        for pair in others.chunks_exact_mut(2) {
            pair.copy_from_slice(&cells);
        }
        self.last = byte;
    }

    fn bytes(&mut self, bytes: &[u8]) {
        let field = self.next(2 * bytes.len());
        for (pair, &byte) in field.chunks_exact_mut(2).zip(bytes) {
            pair.copy_from_slice(&after(self.mode, self.last, byte));
            self.last = byte;
        }
    }

    /// A mark behind its (00)-bytes.
    fn mark<const MARK: usize>(&mut self, zeros: usize, mark: &Mark<MARK>) {
        self.run(zeros, 0x00);
        self.next(MARK).copy_from_slice(&mark.image);
        self.last = mark.bytes[mark.bytes.len() - 1];
    }

    /// Bytes and their EDC, the register being what the mark left in it.
    #[inline(always)] // the address and the data each get code for their length
    fn covered(&mut self, register: u16, bytes: &[u8]) {
        self.bytes(bytes);
        self.bytes(&continued(register, bytes).to_be_bytes());
    }
}
