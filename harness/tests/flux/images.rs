//! The image that is lent: what fits, what does not, and what is left in it.
use harness::captures::hostile::{first, room, ticks};
use harness::captures::stream::Stream;
use harness::captures::Capture;
use harness::compare::flux::{compare, Call};
use harness::rng::Rng;
use harness::tally::met::Row;
use harness::tally::Tally;

/// Every length up to some more than the cells take, behind every number of intervals; what it held is zeros, ones, a
/// pattern or anything.
#[test]
fn images_of_every_length() {
    let mut rng = Rng::new(60);
    let mut tally = Tally::new("flux", "images of every length");
    for count in 0..=40 {
        let mut stream = Stream::new(ticks(&mut rng));
        (0..count).for_each(|_| stream.push_any(&mut rng));
        let capture = stream.capture(first(&mut rng), &[]);
        let cells = capture.cells().expect("intervals in the bands");
        for length in 0..=(cells + 7) / 8 + 20 {
            for old in [0x00, 0xFF, 0xA5] {
                let call = Call { capture: capture.clone(), image: vec![old; length] };
                let expected = if cells <= 8 * length { (0, cells as u64, 0) } else { (44, 0, 0) };
                assert_eq!(compare(&mut tally, &mut rng, &call).said(), expected, "{call:?}");
            }
        }
    }
    tally.has_met(Row::Flux, &[0, 44]);
    tally.report();
}

/// The last cell at each place of the last byte, and each number of cells past the end: the zeros of an interval may fit
/// where its 1 does not.
#[test]
fn cells_about_the_end() {
    let mut rng = Rng::new(61);
    let mut tally = Tally::new("flux", "the last interval about the image's end");
    for length in 1..=6 {
        for intervals in all_of(length) {
            let cells = 1 + intervals.iter().sum::<u32>() as u64;
            let ticks: Vec<u32> = intervals.iter().map(|half_cells| 50 * half_cells).collect();
            let capture = Capture::new(100, rng.bits() as u32, &ticks);
            let call = Call::new(&mut rng, &capture, length);
            let expected = if cells <= 8 * length as u64 { (0, cells, 0) } else { (44, 0, 0) };
            assert_eq!(compare(&mut tally, &mut rng, &call).said(), expected, "{call:?}");
        }
    }
    tally.has_met(Row::Flux, &[0, 44]);
    tally.report();
}

/// Intervals whose cells come about the end of so many bytes: pairs, and then each two of any number of half cells.
fn all_of(length: usize) -> Vec<Vec<u32>> {
    let mut all = Vec::new();
    for pairs in 4 * length - 4..=4 * length {
        for first in 2..=4 {
            for last in 2..=4 {
                all.push([vec![2; pairs], vec![first, last]].concat());
            }
        }
    }
    all
}

#[test]
fn images_of_longer_captures() {
    const INPUTS: usize = 300;
    let mut rng = Rng::new(62);
    let mut tally = Tally::new("flux", "images about the cells of longer captures");
    for _ in 0..INPUTS {
        let (mut stream, count) = (Stream::new(ticks(&mut rng)), rng.below(3_000));
        (0..count).for_each(|_| stream.push_any(&mut rng));
        let capture = stream.capture(first(&mut rng), &[]);
        let cells = capture.cells().expect("intervals in the bands");
        let enough = (cells + 7) / 8;
        for length in [0, enough / 2, enough - 1, enough, enough + 1, room(&mut rng, cells)] {
            let call = Call::new(&mut rng, &capture, length);
            let expected = if length < enough { (44, 0, 0) } else { (0, cells as u64, 0) };
            assert_eq!(compare(&mut tally, &mut rng, &call).said(), expected, "{call:?}");
        }
    }
    tally.report();
}
