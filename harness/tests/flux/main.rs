//! Flux timings: the reference against the papers' sentence, and `station_flux` against both.
mod bands;
mod counter;
mod drift;
mod hostile;
mod images;
mod refusals;
mod ring;
mod tracks;

use harness::captures::hostile::first;
use harness::captures::stream::Stream;
use harness::captures::Capture;
use harness::compare::flux::{compare, Call, Outcome};
use harness::rng::Rng;
use harness::tally::met::Row;
use harness::tally::Tally;

/// The outcome in an image that is longer than any of these captures takes.
fn long_enough(tally: &mut Tally, rng: &mut Rng, capture: &Capture) -> Outcome {
    let length = capture.stamps.len() / 2 + 1 + rng.below(20);
    let call = Call::new(rng, capture, length);
    compare(tally, rng, &call)
}

/// The same where more intervals follow those of a stream.
fn goes_on(tally: &mut Tally, rng: &mut Rng, stream: &Stream, more: &[u32]) -> Outcome {
    let capture = stream.capture(first(rng), more);
    long_enough(tally, rng, &capture)
}

/// The papers' rule in numbers: T and H are 800 and 16, then the same again, then 850 and 17.
#[test]
fn a_capture_in_numbers() {
    let mut rng = Rng::new(1);
    let mut tally = Tally::new("flux", "a capture in numbers");
    let capture = Capture::new(100, 7, &[100, 150, 200]);
    assert_eq!(capture.stamps, [7, 107, 257, 457]);
    let call = Call { capture, image: vec![0xFF; 4] };
    let outcome = compare(&mut tally, &mut rng, &call);
    // 1, 01, 001, 0001
    assert_eq!((outcome.said(), &outcome.image[..]), ((0, 10, 0), &[0xA4, 0x40, 0x00, 0x00][..]));
    tally.has_met(Row::Interval, &[2, 3, 4]);
    tally.report();
}

#[test]
fn one_stamp_is_one_cell() {
    let mut rng = Rng::new(2);
    let mut tally = Tally::new("flux", "one stamp");
    for stamp in [0, 1, 1 << 16, 1 << 31, u32::MAX - 1, u32::MAX] {
        for ticks in [16, 17, 512, 1_024] {
            for length in [1, 2, 300] {
                let call = Call::new(&mut rng, &Capture::new(ticks, stamp, &[]), length);
                let outcome = compare(&mut tally, &mut rng, &call);
                assert_eq!((outcome.said(), outcome.image[0]), ((0, 1, 0), 0x80), "{call:?}");
            }
        }
    }
    tally.report();
}

/// Every number of nominal cells, for all ticks that a cell may have.
#[test]
fn nominal_cells() {
    let mut rng = Rng::new(3);
    let mut tally = Tally::new("flux", "nominal cells, all ticks");
    for ticks in 16..=1_024 {
        let count = rng.below(40);
        let outcome = long_enough(&mut tally, &mut rng, &Capture::new(ticks, ticks, &vec![ticks; count]));
        assert_eq!(outcome.said(), (0, 1 + 2 * count as u64, 0), "{ticks} ticks, {count} intervals");
    }
    tally.report();
}
