//! Bytes as cells: `station_code_fm`, `station_code_mfm` and `station_data_byte` against the reference and the papers.
use harness::reference::coding::{self, Mode};
use harness::rng::Rng;
use harness::station;
use harness::tally::Tally;

const MODES: [Mode; 2] = [Mode::Fm, Mode::Mfm];

/// The exported function of the mode.
fn station_code(mode: Mode, before: u8, byte: u8) -> u16 {
    match mode {
        Mode::Fm => station::code_fm(before, byte),
        Mode::Mfm => station::code_mfm(before, byte),
    }
}

#[test]
fn every_byte_after_every_bit() {
    let mut tally = Tally::new("coding", "every byte after every bit in both modes");
    for mode in MODES {
        // 0 is ZERO, all else is ONE
        for before in 0..=255 {
            for byte in 0..=255 {
                let expected = coding::code(mode, before != 0, byte);
                let coded = station_code(mode, before, byte);
                assert_eq!(coded, expected, "{mode:?} {byte:02X} after {before}: {coded:04X}, not {expected:04X}");
                tally.input();
            }
        }
    }
    tally.report();
}

#[test]
fn small_facts() {
    let mut tally = Tally::new("coding", "small facts");
    // mode, bit before, byte, image bytes: 01, "Small facts"
    let facts = [
        (Mode::Mfm, 0, 0x4E, 0x9254),
        (Mode::Mfm, 0, 0x00, 0xAAAA),
        (Mode::Mfm, 1, 0x00, 0x2AAA),
        (Mode::Mfm, 1, 0xFF, 0x5555),
        (Mode::Mfm, 0, 0xA1, 0x44A9),
        (Mode::Mfm, 0, 0xC2, 0x52A4),
        (Mode::Fm, 0, 0x00, 0xAAAA),
        (Mode::Fm, 1, 0x00, 0xAAAA),
        (Mode::Fm, 0, 0xFF, 0xFFFF),
        (Mode::Fm, 1, 0xFF, 0xFFFF),
    ];
    for (mode, before, byte, image) in facts {
        assert_eq!(station_code(mode, before, byte), image, "{mode:?} {byte:02X} after {before}");
        assert_eq!(coding::code(mode, before != 0, byte), image, "reference: {mode:?} {byte:02X} after {before}");
        tally.input();
    }
    tally.report();
}

#[test]
fn what_is_coded_is_read_back() {
    let mut rng = Rng::new(1);
    let mut tally = Tally::new("coding", "every coded byte read back at every shift");
    for mode in MODES {
        for before in 0..=1 {
            for byte in 0..=255 {
                for shift in 0..8 {
                    // the sixteen cells stand `shift` cells into three bytes of noise
                    let place = 8 - shift;
                    let noise = rng.bits() as u32 & !(0xFFFF << place);
                    let cells = u32::from(station_code(mode, before, byte)) << place | noise;
                    let image = &cells.to_be_bytes()[1..];
                    let read = station::data_byte(image, shift);
                    assert_eq!(read, byte, "{mode:?} {byte:02X} after {before} at cell {shift}: read {read:02X}");
                    tally.input();
                }
            }
        }
    }
    tally.report();
}

/// Holds the two sides against each other on one cell of an image.
fn compare_data_byte(tally: &mut Tally, image: &[u8], cell: usize) {
    assert_eq!(
        station::data_byte(image, cell),
        coding::data_byte(image, cell),
        "data byte at cell {cell} of {image:02X?}"
    );
    tally.input();
}

#[test]
fn data_bytes_of_random_images() {
    const INPUTS: usize = 50_000;
    let mut rng = Rng::new(2);
    let mut tally = Tally::new("data bytes", "random cells of random images");
    for _ in 0..INPUTS {
        let length = rng.below(64);
        let bytes = rng.bytes(length);
        let from = rng.below(length + 1).min(8);
        let image = &bytes[from..];
        // up to five bytes past the end
        let cell = rng.below(8 * image.len() + 40);
        compare_data_byte(&mut tally, image, cell);
    }
    tally.report();
}

#[test]
fn data_bytes_at_the_edges() {
    let mut tally = Tally::new("data bytes", "short images and the largest cell numbers");
    for length in 0..=4 {
        let image = vec![0xFF; length];
        let near = 0..64;
        let far = (0..64).map(|back| usize::MAX - back);
        // where eight times a byte's number, or a number of 32 bits, runs over
        let over = (0..64).flat_map(|on| [32, 61, 63].map(|power| (1 << power) - 32 + on));
        for cell in near.chain(far).chain(over) {
            compare_data_byte(&mut tally, &image, cell);
        }
    }
    tally.report();
}
