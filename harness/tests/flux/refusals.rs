//! The refusals and their order: 41, then 42, then the first met of 43 and 44.
use crate::long_enough;
use harness::captures::hostile::first;
use harness::captures::Capture;
use harness::compare::flux::{compare, Call};
use harness::rng::Rng;
use harness::station::{LEAST_TICKS, MOST_TICKS};
use harness::tally::met::Row;
use harness::tally::Tally;

/// Ticks out of range: those next to it, and with each high bit.
fn wrong_ticks() -> Vec<u32> {
    let high = (11..32).flat_map(|bit| [1 << bit, 1 << bit | 100, (1 << bit) + LEAST_TICKS]);
    let near = (0..LEAST_TICKS).chain(MOST_TICKS + 1..=3_000);
    near.chain(high).chain((1..1_000).map(|step| 4_294_967 * step)).chain([u32::MAX - 1, u32::MAX]).collect()
}

/// Nothing else is looked at: not that there are no stamps, nor the intervals, nor the image.
#[test]
fn ticks_out_of_range() {
    let mut rng = Rng::new(10);
    let mut tally = Tally::new("flux", "ticks out of range");
    for ticks in wrong_ticks() {
        let right = Capture::new(ticks, 5, &[ticks; 12]);
        let captures = [right, Capture::new(ticks, 5, &[0, 0]), Capture { ticks, stamps: vec![] }];
        for (capture, length) in captures.iter().flat_map(|capture| [(capture, 0), (capture, 1), (capture, 9)]) {
            let call = Call::new(&mut rng, capture, length);
            assert_eq!(compare(&mut tally, &mut rng, &call).said(), (41, 0, 0), "{call:?}");
        }
    }
    tally.report();
}

#[test]
fn no_stamps() {
    let mut rng = Rng::new(11);
    let mut tally = Tally::new("flux", "no stamps");
    for ticks in LEAST_TICKS..=MOST_TICKS {
        for length in [0, 1, 2, 100] {
            let call = Call::new(&mut rng, &Capture { ticks, stamps: vec![] }, length);
            assert_eq!(compare(&mut tally, &mut rng, &call).said(), (42, 0, 0), "{call:?}");
        }
    }
    tally.report();
}

/// What is in no band when all before it was nominal.
const NO_BAND: [u32; 8] = [0, 79, 121, 129, 166, 184, 226, u32::MAX];

/// The interval's number, from 1 on, wherever it stands; whatever follows is not looked at.
#[test]
fn an_interval_in_no_band_by_its_number() {
    let mut rng = Rng::new(12);
    let mut tally = Tally::new("flux", "an interval in no band in each position");
    for number in 1..=40 {
        for interval in NO_BAND {
            for behind in [vec![], vec![100; 5], vec![interval; 3], vec![0, u32::MAX]] {
                let intervals = [vec![100; number - 1], vec![interval], behind].concat();
                let capture = Capture::new(100, first(&mut rng), &intervals);
                let outcome = long_enough(&mut tally, &mut rng, &capture);
                assert_eq!(outcome.said(), (43, 0, number as u64), "{interval} as interval {number}");
            }
        }
    }
    tally.report();
}

/// 44 where an interval is in a band and its cells pass the end; 43 where it is in none, whether there is room or not.
#[test]
fn the_first_met_of_43_and_44() {
    let mut rng = Rng::new(13);
    let mut tally = Tally::new("flux", "both an interval in no band and a cell past the image");
    for length in 1..=12 {
        // interval number n ends with cell 2n
        let fitting = 4 * length - 1;
        for number in 1..=fitting + 4 {
            for interval in NO_BAND {
                let intervals = [vec![100; number - 1], vec![interval], vec![100; 9]].concat();
                let capture = Capture::new(100, first(&mut rng), &intervals);
                let call = Call::new(&mut rng, &capture, length);
                let expected = if number <= fitting + 1 { (43, 0, number as u64) } else { (44, 0, 0) };
                assert_eq!(compare(&mut tally, &mut rng, &call).said(), expected, "number {number}: {call:?}");
            }
        }
    }
    tally.has_met(Row::Flux, &[43, 44]);
    tally.report();
}

/// In an empty image the first cell is past the end already, and no interval is looked at.
#[test]
fn an_empty_image() {
    let mut rng = Rng::new(14);
    let mut tally = Tally::new("flux", "an empty image");
    for ticks in [16, 100, 1_024] {
        for intervals in [vec![], vec![ticks], vec![0], vec![u32::MAX; 3]] {
            let capture = Capture::new(ticks, first(&mut rng), &intervals);
            let call = Call::new(&mut rng, &capture, 0);
            assert_eq!(compare(&mut tally, &mut rng, &call).said(), (44, 0, 0), "{call:?}");
        }
    }
    tally.report();
}
