//! Formatting: what the reference writes against the papers, and `station_format` against the reference.
mod papers;
mod refusals;

use harness::compare::format::{compare, Call};
use harness::rng::Rng;
use harness::tally::met::Row;
use harness::tally::Tally;
use harness::tracks::{self, Track};

#[test]
fn every_kind_of_track() {
    const RANDOM: usize = 10;
    let mut rng = Rng::new(1);
    let mut tally = Tally::new("format", "every kind of track in each of its layouts");
    for track in tracks::all() {
        for _ in 0..RANDOM {
            let call = Call::new(&mut rng, track);
            assert_eq!(compare(&mut tally, &mut rng, &call), 0, "{call:?}");
        }
        // the same byte everywhere, after either mark
        for byte in [0x00, 0xFF, 0x46, 0x4E, 0xA1, 0xC2, 0x55, 0x80, 0x01] {
            for mark in [0xFB, 0xF8] {
                let mut call = Call::new(&mut rng, track);
                call.data.fill(byte);
                call.marks.fill(mark);
                let call = call.with_letter_d();
                assert_eq!(compare(&mut tally, &mut rng, &call), 0, "{byte:02X} everywhere: {call:?}");
            }
        }
    }
    tally.report();
}

#[test]
fn every_track() {
    let mut rng = Rng::new(2);
    let mut tally = Tally::new("format", "any layout on any cylinder and side");
    for layout in 0..=4 {
        for cylinder in 0..=76 {
            for side in 0..=2 {
                let mut call = Call::new(&mut rng, Track { layout: layout.min(3), cylinder, side });
                call.track.layout = layout;
                compare(&mut tally, &mut rng, &call);
            }
        }
    }
    // one layout on each side of cylinder 0, three on each side of the others
    assert_eq!(tally.times(Row::Format, 0), 2 + 74 * 2 * 3, "accepted tracks");
    tally.report();
}
