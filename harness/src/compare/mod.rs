//! How the library is held against the reference on one call, and what is counted then: for the tests and the long run.
pub mod file;
pub mod flux;
pub mod format;
pub mod pick;
pub mod read;
pub mod rewrite;

use crate::reference::marks::{DATA, LETTER_D, LETTER_F};
use crate::rng::Rng;
use std::ops::Range;

/// A copy of the bytes among others, and where it stands there: at any alignment.
fn among_others(rng: &mut Rng, bytes: &[u8]) -> (Vec<u8>, Range<usize>) {
    let from = rng.below(16);
    let all = [&rng.bytes(from), bytes, &rng.bytes(16)].concat();
    (all, from..from + bytes.len())
}

/// Where two images differ first.
pub fn difference(found: &[u8], expected: &[u8]) -> String {
    let mut bytes = found.iter().zip(expected).enumerate();
    match bytes.find(|(_, (found, expected))| found != expected) {
        Some((at, (found, expected))) => format!("byte {at} is {found:02X}, not {expected:02X}"),
        None => format!("{} bytes, not {}", found.len(), expected.len()),
    }
}

/// What a sector reads as that was written with a mark and bytes, by the formatter or by a rewrite: its answer, and what its
/// slot holds (01, demands 2 and 3; 02, request 04).
pub fn read_back(cylinder: u32, mark: u32, bytes: &[u8]) -> (u32, Vec<u8>) {
    let mut slot = bytes.to_vec();
    let answer = match (cylinder, bytes[0]) {
        _ if mark == DATA.into() => 1,
        (0, LETTER_D) => 2,
        // the formatter and a request refuse it, but a step does not know the cylinder
        (0, _) => {
            slot.fill(0);
            27
        }
        (_, LETTER_F) => {
            slot[1..].fill(0);
            3
        }
        _ => 2,
    };
    (answer, slot)
}
