//! The kept vectors of 02, request 06: doubtful clocks, which the program does not print and the records have.
use crate::kept::{read, trap};
use crate::Vector;
use harness::reference::coding::Mode;
use harness::rng::Rng;
use harness::tracks::damage::{shifted, turn};
use harness::tracks::letters::mixed;
use harness::tracks::traps::{of_clocks, Trap};
use harness::tracks::{Track, EACH};

pub fn all() -> Vec<Vector> {
    let rng = &mut Rng::new(2029);
    let groups = [by_number(rng), traps(), of_other_stations(rng)];
    groups.into_iter().flatten().collect()
}

/// Each sector with as many doubtful clocks as its number says, one byte from the other.
fn by_number(rng: &mut Rng) -> Vec<Vector> {
    let write = |track: Track| {
        let (mut image, ..) = track.plain(rng);
        let mark = if track.mode() == Mode::Fm { 16 } else { 64 };
        for sector in 1..=track.layout().sectors {
            let first = 8 * track.places(sector).1 + mark;
            // one clock in each byte from the EDC's last back: its first, its second and so on by turns
            (1..=sector)
                .for_each(|byte| turn(&mut image, first + 16 * (track.layout().size + 2 - byte) + 2 * (byte % 8)));
        }
        let by = track.layout as usize;
        read("as many doubtful clocks as the sector's number", track, &shifted(rng, &image, by))
    };
    EACH.map(write).into()
}

/// The traps, each in FM and in MFM: those about the bit before in MFM, where it matters, and the others by turns.
fn traps() -> Vec<Vector> {
    let by_turns = |(turn, modes): (usize, &[Trap])| match modes {
        [in_fm, in_mfm] if ["J2", "J4"].contains(&in_fm.name) => trap(in_mfm),
        modes => trap(&modes[turn % 2]),
    };
    of_clocks().chunks(2).enumerate().map(by_turns).collect()
}

/// Every answer of a whole block, with clocks turned over all over the track.
fn of_other_stations(rng: &mut Rng) -> Vec<Vector> {
    let write = |track: Track| {
        let mut image = mixed(rng, track);
        for _ in 0..200 {
            let clock = 2 * rng.below(4 * image.len());
            turn(&mut image, clock);
        }
        read("other stations' records with doubtful clocks all over the track", track, &image)
    };
    EACH.map(write).into()
}
