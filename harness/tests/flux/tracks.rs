//! Formatted tracks, captured and turned into cells again, and then read.
use harness::captures::Turn;
use harness::compare::flux::{compare, Call};
use harness::compare::read::Outcome;
use harness::rng::Rng;
use harness::station::LONGEST_IMAGE;
use harness::tally::met::Row;
use harness::tally::Tally;
use harness::tracks::{Track, EACH_MFM};

/// The capture of a track with random contents comes back as the very image, in one as long and in the longest, and it
/// reads as what was formatted.
fn comes_back(tally: &mut Tally, rng: &mut Rng, track: Track, turn: Turn) {
    let (image, data, marks) = track.random(rng);
    let capture = turn.capture(rng, &image);
    for length in [image.len(), LONGEST_IMAGE] {
        let call = Call::new(rng, &capture, length);
        let outcome = compare(tally, rng, &call);
        assert_eq!(outcome.number, 0, "interval {}, {turn:?}, {track:?}", outcome.result.interval);
        assert!(outcome.image[..image.len()] == image, "not the same cells: {turn:?}, {track:?}");
        assert!(outcome.image[image.len()..].iter().all(|&octet| octet == 0), "more cells: {turn:?}, {track:?}");
        let expected = Outcome::of_contents(track, &data, &marks);
        assert_eq!(Outcome::of_image(track, &outcome.image), expected, "what is read: {turn:?}");
    }
}

/// From several numbers of the counter on: it does not run over, or right away, or in the middle.
#[test]
fn nominal_turns() {
    let mut rng = Rng::new(70);
    let mut tally = Tally::new("flux", "tracks captured nominally");
    for track in EACH_MFM {
        for ticks in [16, 18, 100, 512, 1_024] {
            for first in [0, 1, 1 << 31, u32::MAX, u32::MAX - 40 * ticks * 1_000] {
                comes_back(&mut tally, &mut rng, track, Turn::nominal(ticks, first));
            }
        }
    }
    tally.has_met(Row::Interval, &[2, 3, 4]);
    tally.report();
}

/// Up to where no interval can leave its band: each transition 4 % of a bit cell early or late, so that an interval is off
/// by 8 %, and the last eight by as much of a bit cell. A half cell of an odd number of ticks is rounded.
#[test]
fn turns_with_jitter() {
    let mut rng = Rng::new(71);
    let mut tally = Tally::new("flux", "tracks captured with jitter");
    for track in EACH_MFM {
        for ticks in [100, 101, 333, 512, 1_023, 1_024] {
            for jitter in [5, 20, 40] {
                let first = rng.bits() as u32;
                comes_back(&mut tally, &mut rng, track, Turn { jitter, ..Turn::nominal(ticks, first) });
            }
        }
    }
    tally.report();
}

/// And with a drive that runs slower and slower, or faster and faster: to twice as long a cell, and to half of it.
#[test]
fn turns_with_jitter_and_drift() {
    let mut rng = Rng::new(72);
    let mut tally = Tally::new("flux", "tracks captured with jitter and drift");
    for track in EACH_MFM {
        for ticks in [200, 500, 1_024] {
            for (jitter, drift) in [(0, 30), (0, -30), (20, 100), (20, -100), (35, 1_000), (30, -500)] {
                let first = rng.bits() as u32;
                comes_back(&mut tally, &mut rng, track, Turn { ticks, first, jitter, drift });
            }
        }
    }
    tally.report();
}

/// A stamp is lost or comes twice: the interval is in no band, or it is taken for another and the cells are not the same.
#[test]
fn turns_with_a_stamp_lost() {
    const INPUTS: usize = 60;
    let mut rng = Rng::new(73);
    let mut tally = Tally::new("flux", "tracks captured with a stamp lost or twice");
    for input in 0..INPUTS {
        let track = EACH_MFM[input % EACH_MFM.len()];
        let (image, ..) = track.random(&mut rng);
        let mut capture = Turn::nominal(100, rng.bits() as u32).capture(&mut rng, &image);
        let at = 1 + rng.below(capture.stamps.len() - 2);
        if input % 2 == 0 {
            capture.stamps.remove(at);
        } else {
            capture.stamps.insert(at, capture.stamps[at]);
        }
        let call = Call::new(&mut rng, &capture, LONGEST_IMAGE);
        let outcome = compare(&mut tally, &mut rng, &call);
        if input % 2 == 1 {
            assert_eq!(outcome.said(), (43, 0, at as u64 + 1), "stamp {at} twice");
        }
        assert!(outcome.image[..image.len()] != image, "stamp {at} of {track:?} makes no difference");
    }
    tally.has_met(Row::Flux, &[0, 43]);
    tally.report();
}
