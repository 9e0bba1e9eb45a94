//! Records by their first byte. After a control mark it is a letter that says something of the sector (004, 7.4.2.4.3; 02,
//! request 04), so what is random has those letters often.
use super::sketch::{self, Control, Data, Kind, Open, Sketch};
use super::{Track, FM};
use crate::reference::marks::{CONTROL, DATA, LETTER_D, LETTER_F};
use crate::rng::Rng;

/// The tracks of cylinder 0, on which only D may stand behind a control mark.
pub const CYLINDER_0: [Track; 2] = [FM, Track { layout: 1, cylinder: 0, side: 1 }];

/// Each layout of the others, on the first of them and on the last.
pub const OTHERS: [Track; 6] = [
    Track { layout: 1, cylinder: 1, side: 0 },
    Track { layout: 1, cylinder: 74, side: 1 },
    Track { layout: 2, cylinder: 1, side: 1 },
    Track { layout: 2, cylinder: 74, side: 0 },
    Track { layout: 3, cylinder: 1, side: 0 },
    Track { layout: 3, cylinder: 74, side: 1 },
];

/// The contents of a sector with another first byte.
pub fn lettered(track: Track, sector: u8, letter: u8) -> Vec<u8> {
    let mut bytes = sketch::contents(track, sector);
    bytes[0] = letter;
    bytes
}

/// A first byte: F, D, one that differs from them in a bit, or the one that is handed over.
pub fn letter(rng: &mut Rng, other: u8) -> u8 {
    match rng.below(8) {
        0..=2 => LETTER_F,
        3 => LETTER_D,
        4 => LETTER_F ^ 1 << rng.below(8),
        5 => LETTER_D ^ 1 << rng.below(8),
        _ => other,
    }
}

/// The same behind a mark, where it may stand: on cylinder 0 a control mark has only D behind it.
fn allowed(rng: &mut Rng, track: Track, mark: u8, other: u8) -> u8 {
    if track.cylinder == 0 && mark == CONTROL {
        LETTER_D
    } else {
        letter(rng, other)
    }
}

/// Either mark and random bytes, as a sector of the track may hold them.
pub fn record(rng: &mut Rng, track: Track) -> (u8, Vec<u8>) {
    let mark = [DATA, CONTROL][rng.below(2)];
    let mut bytes = rng.bytes(track.layout().size);
    bytes[0] = allowed(rng, track, mark, bytes[0]);
    (mark, bytes)
}

/// Such records for all sectors: their data bytes, and their marks.
pub fn contents(rng: &mut Rng, track: Track) -> (Vec<u8>, Vec<u8>) {
    let records = (0..track.layout().sectors).map(|_| record(rng, track));
    let (marks, bytes): (Vec<u8>, Vec<Vec<u8>>) = records.unzip();
    (bytes.concat(), marks)
}

/// Lays a block over that of a sector on a formatted track, as other stations may write it: any letter on any cylinder, and
/// an EDC that is wrong.
pub fn lay(image: &mut [u8], track: Track, sector: usize, kind: Kind, bytes: &[u8], is_right: bool) {
    let block = Sketch::new(track).mark(kind).bytes(bytes);
    let block = if is_right { block.edc() } else { block.wrong_edc() }.image();
    let (_, mark) = track.places(sector);
    image[mark..mark + block.len()].copy_from_slice(&block);
}

/// A formatted track on which other stations wrote about every fourth sector: most often a control record.
pub fn mixed(rng: &mut Rng, track: Track) -> Vec<u8> {
    let (mut image, data, _) = track.random(rng);
    for (sector, bytes) in (1..).zip(data.chunks(track.layout().size)) {
        if rng.below(4) == 0 {
            let mut bytes = bytes.to_vec();
            bytes[0] = letter(rng, bytes[0]);
            let kind = [Control, Control, Control, Data, Open][rng.below(5)];
            lay(&mut image, track, sector, kind, &bytes, rng.below(2) == 0);
        }
    }
    image
}
