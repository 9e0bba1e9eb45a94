//! Reading: the reference against a literal reader, and `station_read` against the reference.
mod clocks;
mod damaged;
mod letters;
mod literal;
mod places;
mod refusals;
mod traps;

use harness::compare::read::{compare, Call, Outcome};
use harness::reference::records::nowhere;
use harness::rng::Rng;
use harness::station;
use harness::tally::met::Row;
use harness::tally::Tally;
use harness::tracks::damage::shifted;
use harness::tracks::{self, worn, Track};

/// Contents, formatted by the library, come back from it.
fn round_trip(tally: &mut Tally, rng: &mut Rng, track: Track, data: &[u8], marks: &[u8]) {
    let Track { layout, cylinder, side } = track;
    let mut image = vec![0; track.layout().image_bytes()];
    assert_eq!(station::format(layout, cylinder, side, data, marks, &mut image), 0, "{track:?}");
    let call = Call::new(track, image);
    let outcome = compare(tally, rng, &call);
    assert!(outcome == Outcome::of_contents(track, data, marks), "{outcome:?} does not hold the contents: {call:?}");
}

#[test]
fn formatted_tracks_read_back() {
    const RANDOM: usize = 10;
    let mut rng = Rng::new(1);
    let mut tally = Tally::new("read", "formatted tracks of every kind");
    for track in tracks::all() {
        for _ in 0..RANDOM {
            let (_, data, marks) = track.random(&mut rng);
            round_trip(&mut tally, &mut rng, track, &data, &marks);
        }
        // the same byte everywhere; 44 is the letter D, which cylinder 0 wants after a control mark, and 46 is F
        for byte in [0x44, 0x46, 0x00, 0xFF, 0x4E, 0xA1, 0xC2, 0xFE] {
            for mark in [0xFB, 0xF8].into_iter().filter(|&mark| track.cylinder > 0 || mark == 0xFB || byte == 0x44) {
                let data = vec![byte; track.layout().area_bytes()];
                round_trip(&mut tally, &mut rng, track, &data, &vec![mark; track.layout().sectors]);
            }
        }
    }
    tally.report();
}

#[test]
fn every_track_reads_back() {
    let mut rng = Rng::new(2);
    let mut tally = Tally::new("read", "every track in each of its layouts");
    for cylinder in 0..=74 {
        for side in 0..=1 {
            let layouts = if cylinder == 0 { side..=side } else { 1..=3 };
            for layout in layouts {
                let track = Track { layout, cylinder, side };
                let (_, data, marks) = track.random(&mut rng);
                round_trip(&mut tally, &mut rng, track, &data, &marks);
            }
        }
    }
    tally.report();
}

#[test]
fn shifted_tracks() {
    let mut rng = Rng::new(3);
    let mut tally = Tally::new("read", "tracks shifted by 0 to 15 cells");
    for track in tracks::all() {
        for by in 0..16 {
            let (image, data, marks) = track.random(&mut rng);
            let call = Call::new(track, shifted(&mut rng, &image, by));
            let outcome = compare(&mut tally, &mut rng, &call);
            let expected = Outcome::of_contents(track, &data, &marks).later(by);
            assert!(outcome == expected, "{outcome:?} after {by} cells: {call:?}");
        }
    }
    tally.report();
}

#[test]
fn two_turns() {
    let mut rng = Rng::new(4);
    let mut tally = Tally::new("read", "tracks captured for more than a turn");
    for track in tracks::all() {
        let call = Call::new(track, worn::two_turns(&mut rng, track));
        let outcome = compare(&mut tally, &mut rng, &call);
        let again = if track == tracks::FM { 26 } else { 1 };
        assert_eq!(outcome.reading.records[..again], vec![nowhere(22); again], "{track:?}");
    }
    tally.report();
}

#[test]
fn foreign_tracks() {
    let mut rng = Rng::new(5);
    let mut tally = Tally::new("read", "another track than the one asked for");
    for track in tracks::all() {
        let (image, ..) = track.random(&mut rng);
        for asked in tracks::all().into_iter().filter(|&asked| asked != track) {
            let outcome = compare(&mut tally, &mut rng, &Call::new(asked, image.clone()));
            if asked.mode() == track.mode() {
                assert_eq!(outcome.reading.counts, [0, track.layout().sectors as u32], "{asked:?} on {track:?}");
            }
        }
    }
    let read: u64 = [1, 2, 3].map(|answer| tally.times(Row::Answer, answer)).iter().sum();
    assert_eq!(read, 0, "sectors read from another track");
    tally.report();
}
