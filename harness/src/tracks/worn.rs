//! Tracks as a worn cartridge or a careless capture gives them. Some of their sectors other stations wrote.
use super::damage::{self, damage, false_beginnings, image_of, turn};
use super::letters::mixed;
use super::sketch::cells_of;
use super::Track;
use crate::rng::Rng;

/// The longest image that is read or rewritten.
pub const LONGEST: usize = 24_576;

/// A formatted track with some cells turned over.
pub fn turned(rng: &mut Rng, track: Track) -> Vec<u8> {
    let mut image = mixed(rng, track);
    for _ in 0..1 + rng.below(40) {
        let cell = rng.below(8 * image.len());
        turn(&mut image, cell);
    }
    image
}

/// A formatted track with cells turned over, lost, put in and doubled.
pub fn spoilt(rng: &mut Rng, track: Track) -> Vec<u8> {
    let image = mixed(rng, track);
    wear(rng, &image)
}

/// The same done to an image.
pub fn wear(rng: &mut Rng, image: &[u8]) -> Vec<u8> {
    let mut cells = cells_of(image);
    (0..1 + rng.below(12)).for_each(|_| damage(rng, &mut cells));
    cells.truncate(8 * LONGEST);
    image_of(&cells)
}

/// A piece of a formatted track.
pub fn cut(rng: &mut Rng, track: Track) -> Vec<u8> {
    let image = mixed(rng, track);
    let from = rng.below(2) * rng.below(image.len());
    let length = 1 + rng.below(image.len() - from);
    image[from..from + length].to_vec()
}

/// As much of two turns as may be read: all of layout 0, of the others the first sectors twice.
pub fn two_turns(rng: &mut Rng, track: Track) -> Vec<u8> {
    let mut image = mixed(rng, track).repeat(2);
    image.truncate(LONGEST);
    image
}

/// A formatted track some cells later.
pub fn shifted(rng: &mut Rng, track: Track) -> Vec<u8> {
    let (image, by) = (mixed(rng, track), rng.below(64));
    damage::shifted(rng, &image, by)
}

/// Random bytes.
pub fn noise(rng: &mut Rng, _: Track) -> Vec<u8> {
    let length = length(rng);
    rng.bytes(length)
}

/// Random bytes in which marks begin everywhere and hardly one is whole.
pub fn dense(rng: &mut Rng, track: Track) -> Vec<u8> {
    let length = length(rng);
    false_beginnings(rng, track.mode(), length)
}

/// Most often a small one.
fn length(rng: &mut Rng) -> usize {
    if rng.below(15) == 0 {
        LONGEST
    } else {
        1 + rng.below(4_000)
    }
}
