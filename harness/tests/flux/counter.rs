//! The counter of 32 bits: stamps on both sides of where it runs over, equal ones, and ones almost a full run apart.
use crate::{goes_on, long_enough};
use harness::captures::stream::Stream;
use harness::captures::Capture;
use harness::rng::Rng;
use harness::tally::Tally;

/// The same intervals from any number on give the same: the counter runs over at each of them, and in it at each tick.
#[test]
fn any_number_to_begin_with() {
    let mut rng = Rng::new(30);
    let mut tally = Tally::new("flux", "the counter running over at every tick of a capture");
    let mut stream = Stream::new(16);
    (0..25).for_each(|_| stream.push_any(&mut rng));
    let all: u32 = stream.intervals.iter().sum();
    let expected = long_enough(&mut tally, &mut rng, &stream.capture(0, &[])).said();
    assert_eq!(expected.0, 0);
    for first in (u32::MAX - all - 3..=u32::MAX).chain(0..3) {
        let outcome = long_enough(&mut tally, &mut rng, &stream.capture(first, &[]));
        assert_eq!(outcome.said(), expected, "from {first} on");
    }
    tally.report();
}

/// Two equal stamps are no time, and not a full run of the counter.
#[test]
fn equal_stamps() {
    let mut rng = Rng::new(31);
    let mut tally = Tally::new("flux", "equal stamps");
    for ticks in [16, 100, 1_024] {
        for number in 1..=20 {
            let intervals = [vec![ticks; number - 1], vec![0], vec![ticks; 2]].concat();
            for first in [0, 1, 12_345, u32::MAX] {
                let outcome = long_enough(&mut tally, &mut rng, &Capture::new(ticks, first, &intervals));
                assert_eq!(outcome.said(), (43, 0, number as u64), "{ticks} ticks from {first} on");
            }
        }
    }
    tally.report();
}

/// A stamp below the one before it: the counter ran over, however far it came.
#[test]
fn falling_stamps() {
    let mut rng = Rng::new(32);
    let mut tally = Tally::new("flux", "stamps that fall");
    for back in (1..=300).chain([1 << 16, 1 << 31, u32::MAX - 15]) {
        let capture = Capture { ticks: 16, stamps: vec![1 << 20, (1_u32 << 20).wrapping_sub(back)] };
        let outcome = long_enough(&mut tally, &mut rng, &capture);
        // only the last of them comes round to a cell again
        let expected = if back == u32::MAX - 15 { (0, 3, 0) } else { (43, 0, 1) };
        assert_eq!(outcome.said(), expected, "{back} ticks back");
    }
    tally.report();
}

/// Products with so long an interval have more than 32 bits, and more than 40.
#[test]
fn intervals_up_to_the_longest() {
    let mut rng = Rng::new(33);
    let mut tally = Tally::new("flux", "intervals up to 4,294,967,295");
    let powers = (11..32).flat_map(|bit| [1 << bit, (1 << bit) - 1, (1 << bit) + 100]);
    // what in 32 bits would be 100 × 16 × a cell again, or the cell itself
    let wraps = (1..1_600).map(|runs: u64| ((runs << 32) / 1_600) as u32).flat_map(|at| [at, at + 1, at + 100]);
    for interval in powers.chain(wraps).chain([u32::MAX, u32::MAX - 1]).filter(|&interval| interval > 2_304) {
        for ticks in [16, 100, 1_024] {
            let outcome = goes_on(&mut tally, &mut rng, &Stream::new(ticks), &[interval]);
            assert_eq!(outcome.said(), (43, 0, 1), "{interval} with {ticks} ticks");
        }
    }
    tally.report();
}
