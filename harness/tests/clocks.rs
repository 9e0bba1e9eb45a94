//! Doubtful clocks (02, request 06): the reference's one pass over a block against the literal count, clock by clock, and
//! both against the coding. The library is not asked.
use harness::reference::coding::{code, Mode};
use harness::reference::marks::{Mark, FM, MFM};
use harness::reference::{clocks, plain_clocks};
use harness::rng::Rng;
use harness::tally::Tally;
use harness::tracks::damage::{image_of, turn};
use harness::tracks::sketch::cells_of;

const MODES: [Mode; 2] = [Mode::Fm, Mode::Mfm];

/// The longest block: 1,024 data bytes and the EDC.
const LONGEST: usize = 1_026;

/// The bytes from a cell on and their doubtful clocks, which are the same by both versions.
fn read(tally: &mut Tally, mode: Mode, image: &[u8], cell: usize, count: usize) -> (Vec<u8>, u32) {
    let before = cells_of(image)[cell - 1];
    let expected = plain_clocks::bytes(mode, image, cell, before, count);
    let mut bytes = vec![0xEE; count];
    let sum = clocks::decode(mode, image, cell, &mut bytes);
    assert_eq!(sum, expected.1, "{mode:?}, {count} bytes from cell {cell} on: {image:02X?}");
    assert_eq!(bytes, expected.0, "{mode:?}, {count} bytes from cell {cell} on: {image:02X?}");
    tally.input();
    expected
}

/// Cells behind as many random ones, the last of which is the bit before them, and a few random ones behind them. The
/// image, and the first of these cells.
fn embedded(rng: &mut Rng, shift: usize, before: bool, cells: &[bool]) -> (Vec<u8>, usize) {
    let mut all: Vec<bool> = (0..8 + shift).map(|_| rng.below(2) == 1).collect();
    let first = all.len();
    all[first - 1] = before;
    all.extend(cells);
    // none of them, too: then the cells end with the image
    let behind = rng.below(3) * 8 + (8 - all.len() % 8) % 8;
    all.extend((0..behind).map(|_| rng.below(2) == 1));
    (image_of(&all), first)
}

/// The cells of bytes in a row, the first of them after a bit.
fn coded(mode: Mode, mut before: bool, bytes: &[u8]) -> Vec<bool> {
    let mut image = vec![];
    for &byte in bytes {
        image.extend(code(mode, before, byte).to_be_bytes());
        before = byte & 1 == 1;
    }
    cells_of(&image)
}

#[test]
fn every_byte_with_every_clock_turned() {
    let mut rng = Rng::new(1);
    let mut tally = Tally::of_reference("clocks", "every byte after both bits with each set of its clocks turned over");
    for mode in MODES {
        for before in [false, true] {
            for byte in 0..=255 {
                for turned in 0..=255_u8 {
                    // none of them, one, and any more
                    let (mut cells, count) = (coded(mode, before, &[byte]), turned.count_ones());
                    (0..8).filter(|clock| turned >> clock & 1 == 1).for_each(|clock| cells[2 * clock] ^= true);
                    let (image, cell) = embedded(&mut rng, usize::from(byte ^ turned) % 8, before, &cells);
                    let read = read(&mut tally, mode, &image, cell, 1);
                    assert_eq!(read, (vec![byte], count), "{mode:?} {byte:02X} after {before}: {turned:08b}");
                    assert_eq!(plain_clocks::byte(mode, &image, cell, before), (byte, count));
                }
            }
        }
    }
    tally.report();
}

/// A mark with the bit that stands before what follows it.
fn after<const BYTES: usize>(tally: &mut Tally, rng: &mut Rng, mode: Mode, mark: &Mark<BYTES>, last: bool) {
    for coded_after in [false, true] {
        for byte in 0..=255 {
            let cells = [cells_of(&mark.image), coded(mode, coded_after, &[byte, 0x4E])].concat();
            let (image, cell) = embedded(rng, usize::from(byte) % 8, false, &cells);
            let (bytes, sum) = read(tally, mode, &image, cell + 8 * BYTES, 2);
            assert_eq!(bytes, [byte, 0x4E]);
            // in FM the bit before does not matter, and before a ONE the clock is 0 whatever it is
            let is_seen = mode == Mode::Mfm && byte < 0x80 && coded_after != last;
            assert_eq!(sum, u32::from(is_seen), "{byte:02X} coded after {coded_after} behind {:02X?}", mark.bytes);
        }
    }
}

#[test]
fn the_bit_before_is_the_marks_last() {
    let mut rng = Rng::new(2);
    let mut tally = Tally::of_reference("clocks", "every byte behind each kind of mark");
    for (mark, last) in [(&FM.data, true), (&FM.control, false), (&FM.open, true)] {
        after(&mut tally, &mut rng, Mode::Fm, mark, last);
    }
    for (mark, last) in [(&MFM.data, true), (&MFM.control, false), (&MFM.open, true)] {
        after(&mut tally, &mut rng, Mode::Mfm, mark, last);
    }
    tally.report();
}

#[test]
fn blocks_with_clocks_turned() {
    const INPUTS: usize = 2_000;
    let mut rng = Rng::new(3);
    let mut tally = Tally::of_reference("clocks", "coded blocks with a known number of clocks turned over");
    for input in 0..INPUTS {
        let mode = MODES[input % 2];
        let (count, before) = (1 + rng.below(LONGEST), rng.below(2) == 1);
        let block = rng.bytes(count);
        let (mut image, cell) = embedded(&mut rng, input % 8, before, &coded(mode, before, &block));
        let mut turned: Vec<usize> = (0..rng.below(12)).map(|_| rng.below(8 * count)).collect();
        turned.sort_unstable();
        turned.dedup();
        turned.iter().for_each(|clock| turn(&mut image, cell + 2 * clock));
        assert_eq!(read(&mut tally, mode, &image, cell, count), (block, turned.len() as u32), "{mode:?}: {turned:?}");
    }
    tally.report();
}

#[test]
fn random_cells() {
    const INPUTS: usize = 4_000;
    let mut rng = Rng::new(4);
    let mut tally = Tally::of_reference("clocks", "random cells");
    for input in 0..INPUTS {
        let count = rng.below(LONGEST + 1);
        let cells = cells_of(&rng.bytes(2 * count));
        let (image, cell) = embedded(&mut rng, input % 8, input % 3 == 0, &cells);
        read(&mut tally, MODES[input / 8 % 2], &image, cell, count);
    }
    tally.report();
}

/// Where no clock is as it should be, the sum is 8,208, its most.
#[test]
fn every_clock_doubtful() {
    let mut rng = Rng::new(5);
    let mut tally = Tally::of_reference("clocks", "blocks with every clock doubtful");
    for mode in MODES {
        for byte in [0x00, 0xFF, 0x4E, 0xA1] {
            for shift in 0..8 {
                let mut cells = coded(mode, byte & 1 == 1, &[byte; LONGEST]);
                cells.iter_mut().step_by(2).for_each(|clock| *clock ^= true);
                let (image, cell) = embedded(&mut rng, shift, byte & 1 == 1, &cells);
                let read = read(&mut tally, mode, &image, cell, LONGEST);
                assert_eq!(read, (vec![byte; LONGEST], 8_208), "{mode:?} {byte:02X}, {shift} cells later");
            }
        }
    }
    tally.report();
}
