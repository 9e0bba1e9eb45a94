//! Worn and spoilt images, cell by cell.
use super::sketch::{cells_of, Kind};
use crate::reference::coding::Mode;
use crate::rng::Rng;

/// The image bytes of cells. The last byte is filled up with cells 0.
pub fn image_of(cells: &[bool]) -> Vec<u8> {
    let octet = |cells: &[bool]| cells.iter().zip(0..).fold(0, |octet, (&cell, at)| octet | u8::from(cell) << (7 - at));
    cells.chunks(8).map(octet).collect()
}

/// Turns a cell of the image over.
pub fn turn(image: &mut [u8], cell: usize) {
    image[cell / 8] ^= 0x80 >> (cell % 8);
}

/// The image some cells later: random cells stand before it, and its last ones are lost.
pub fn shifted(rng: &mut Rng, image: &[u8], by: usize) -> Vec<u8> {
    let mut cells: Vec<bool> = (0..by).map(|_| rng.below(2) == 1).collect();
    cells.extend(cells_of(image));
    cells.truncate(8 * image.len());
    image_of(&cells)
}

/// One kind of damage, somewhere.
pub fn damage(rng: &mut Rng, cells: &mut Vec<bool>) {
    let at = rng.below(cells.len());
    let count = 1 + rng.below(20);
    let end = (at + count).min(cells.len());
    match rng.below(6) {
        0 | 1 => cells[at] ^= true,
        2 => cells[at..end].iter_mut().for_each(|cell| *cell = rng.below(2) == 1),
        3 => drop(cells.drain(at..end)),
        4 => drop(cells.splice(at..at, (0..count).map(|_| rng.below(2) == 1))),
        _ => {
            // a piece of the track once more, perhaps with marks in it
            let from = rng.below(cells.len());
            let piece = cells[from..(from + rng.below(12_000)).min(cells.len())].to_vec();
            drop(cells.splice(at..at, piece));
        }
    }
}

/// Random bytes in which marks begin everywhere and hardly one is whole: pieces from the beginnings of marks.
pub fn false_beginnings(rng: &mut Rng, mode: Mode, length: usize) -> Vec<u8> {
    let marks = [Kind::Identifier, Kind::Data, Kind::Control, Kind::Open];
    let mut cells = Vec::new();
    while cells.len() < 8 * length {
        let mark = cells_of(marks[rng.below(4)].image(mode));
        let piece = mark.len() / 2 + rng.below(mark.len() / 2);
        cells.extend(&mark[..piece]);
    }
    cells.truncate(8 * length);
    image_of(&cells)
}
