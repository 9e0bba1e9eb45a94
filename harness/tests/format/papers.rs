//! What the reference writes against the papers: its tracks are read again field by field. The library is not asked.
use harness::compare::format::Call;
use harness::reference::coding::{code, Mode};
use harness::reference::edc::edc;
use harness::reference::format::format;
use harness::rng::Rng;
use harness::tally::Tally;
use harness::tracks::{self, Track};

/// A row of 01's table, and from "Order on the track" the two gaps in which the layouts of one mode differ.
struct Layout {
    mode: Mode,
    sectors: usize,
    size: usize,
    fourth: u8,
    block_gap: usize,
    track_gap: usize,
}

const LAYOUTS: [Layout; 4] = [
    Layout { mode: Mode::Fm, sectors: 26, size: 128, fourth: 0x00, block_gap: 27, track_gap: 247 },
    Layout { mode: Mode::Mfm, sectors: 26, size: 256, fourth: 0x01, block_gap: 54, track_gap: 598 },
    Layout { mode: Mode::Mfm, sectors: 15, size: 512, fourth: 0x02, block_gap: 84, track_gap: 400 },
    Layout { mode: Mode::Mfm, sectors: 8, size: 1_024, fourth: 0x03, block_gap: 116, track_gap: 654 },
];

/// What the reference writes for a call that it has to accept.
fn written(call: &Call) -> Vec<u8> {
    let Track { layout, cylinder, side } = call.track;
    let mut image = call.image.clone();
    assert_eq!(format(layout, cylinder, side, &call.data, &call.marks, &mut image), 0, "{call:?}");
    image
}

/// The image bytes of a mark, made from 004, 4.12: coded by the mode's rule, but for the clocks that are missing.
fn mark(mode: Mode, byte: u8) -> Vec<u8> {
    // Bk's clock cell among sixteen cells: the boundary between Bk and the bit before it
    let clock = |k: u16| 1 << (2 * k - 1);
    let cells = match (mode, byte) {
        (Mode::Fm, 0xFC) => vec![code(mode, false, byte) & !(clock(6) | clock(4))],
        (Mode::Fm, _) => vec![code(mode, false, byte) & !(clock(6) | clock(5) | clock(4))],
        (Mode::Mfm, 0xFC) => [vec![code(mode, false, 0xC2) & !clock(4); 3], vec![code(mode, false, byte)]].concat(),
        (Mode::Mfm, _) => [vec![code(mode, false, 0xA1) & !clock(3); 3], vec![code(mode, true, byte)]].concat(),
    };
    cells.iter().flat_map(|cells| cells.to_be_bytes()).collect()
}

#[test]
fn lengths_and_first_marks() {
    // layout, image bytes, where the first identifier and data marks begin: 01's table and "Small facts". As far as
    // the first data mark layouts 2 and 3 have the fields of layout 1
    let facts = [(0, 10_416, 158, 206), (1, 20_832, 316, 404), (2, 20_832, 316, 404), (3, 20_832, 316, 404)];
    let mut rng = Rng::new(3);
    let mut tally = Tally::of_reference("format", "lengths and first marks");
    for (layout, length, identifier, data) in facts {
        let mut call = Call::new(&mut rng, Track { layout, cylinder: layout.min(1), side: 0 });
        call.marks[0] = 0xFB;
        call.image = vec![0; length];
        let image = written(&call);
        let first = |byte| {
            let mark = mark(LAYOUTS[layout as usize].mode, byte);
            image.windows(mark.len()).position(|bytes| bytes == mark)
        };
        assert_eq!(first(0xFE), Some(identifier), "first identifier mark of layout {layout}");
        assert_eq!(first(0xFB), Some(data), "first data mark of layout {layout}");
        tally.input();
    }
    tally.report();
}

#[test]
fn fields_clocks_and_edc() {
    const EACH: usize = 5;
    let mut rng = Rng::new(4);
    let mut tally = Tally::of_reference("format", "tracks read again field by field");
    for track in tracks::all() {
        for _ in 0..EACH {
            read_again(&Call::new(&mut rng, track));
            tally.input();
        }
    }
    tally.report();
}

/// Reads again what the reference writes for the call: 01, "Order on the track".
fn read_again(call: &Call) {
    let Layout { mode, sectors, size, fourth, block_gap, track_gap } = LAYOUTS[call.track.layout as usize];
    let (gap, before_index, zeros, after_index, identifier_gap) = match mode {
        Mode::Fm => (0xFF, 40, 6, 26, 11),
        Mode::Mfm => (0x4E, 80, 12, 50, 22),
    };
    let image = written(call);
    let mut track = Reading { mode, image: &image, cell: 0, before: false };
    track.run(before_index, gap);
    track.run(zeros, 0x00);
    track.mark(0xFC);
    track.run(after_index, gap);
    for sector in 0..sectors {
        let number = sector as u8 + 1;
        track.run(zeros, 0x00);
        let address = [call.track.cylinder as u8, call.track.side as u8, number, fourth];
        assert_eq!(track.block(0xFE, 4), address, "address of sector {number}: {call:?}");
        track.run(identifier_gap, gap);
        track.run(zeros, 0x00);
        let data = &call.data[sector * size..][..size];
        assert_eq!(track.block(call.marks[sector], size), data, "data of sector {number}: {call:?}");
        track.run(block_gap, gap);
    }
    track.run(track_gap, gap);
    assert_eq!(track.cell, 8 * image.len(), "cells of all fields: {call:?}");
}

/// A track on which one has read up to some cell.
struct Reading<'a> {
    mode: Mode,
    image: &'a [u8],
    cell: usize,
    /// The last bit read.
    before: bool,
}

impl Reading<'_> {
    fn cell(&mut self) -> bool {
        let cell = self.image[self.cell / 8] << (self.cell % 8) & 0x80 != 0;
        self.cell += 1;
        cell
    }

    /// A byte, whose clock cells have to obey the mode's rule.
    fn byte(&mut self) -> u8 {
        (0..8).fold(0, |byte, _| {
            let (at, clock, bit) = (self.cell, self.cell(), self.cell());
            let rule = match self.mode {
                Mode::Fm => true,
                Mode::Mfm => !self.before && !bit,
            };
            assert_eq!(clock, rule, "clock cell {at}");
            self.before = bit;
            byte << 1 | u8::from(bit)
        })
    }

    fn run(&mut self, count: usize, byte: u8) {
        for _ in 0..count {
            assert_eq!(self.byte(), byte, "byte of a gap that ends at cell {}", self.cell);
        }
    }

    fn mark(&mut self, byte: u8) {
        let (mark, at) = (mark(self.mode, byte), self.cell / 8);
        assert_eq!(self.image[at..at + mark.len()], mark, "mark {byte:02X} at image byte {at}");
        self.cell += 8 * mark.len();
        self.before = byte & 1 == 1;
    }

    /// A mark, bytes and their EDC, which has to leave the register zero behind all that it covers.
    fn block(&mut self, mark: u8, length: usize) -> Vec<u8> {
        self.mark(mark);
        let mut bytes: Vec<u8> = (0..length + 2).map(|_| self.byte()).collect();
        let before: &[u8] = if self.mode == Mode::Mfm { &[0xA1; 3] } else { &[] };
        let register = edc(&[before, &[mark], &bytes].concat());
        assert_eq!(register, 0, "register after the block that ends at cell {}", self.cell);
        bytes.truncate(length);
        bytes
    }
}
