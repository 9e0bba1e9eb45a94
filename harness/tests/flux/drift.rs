//! Drift, which the bands follow as far as the counter goes, and jumps, which they do not.
use crate::goes_on;
use harness::captures::stream::{Place, Stream};
use harness::reference::plain_flux::BANDS;
use harness::rng::Rng;
use harness::tally::met::Row;
use harness::tally::Tally;

/// At the high end each time, until the counter is too short for more; then many that are as long as can be.
#[test]
fn up_to_the_longest_interval() {
    let mut rng = Rng::new(40);
    let mut tally = Tally::new("flux", "drift up to 4,294,967,295");
    for ticks in [16, 17, 100, 1_023, 1_024] {
        let mut stream = Stream::new(ticks);
        while stream.intervals.iter().filter(|&&interval| interval == u32::MAX).count() < 40 {
            assert!(stream.push_at(&mut rng, BANDS[0], Place::High), "{:?}", stream.intervals);
        }
        let outcome = goes_on(&mut tally, &mut rng, &stream, &[]);
        assert_eq!(outcome.said(), (0, 1 + 2 * stream.intervals.len() as u64, 0));
        // there T has 36 bits: all of the counter's runs but one tick each
        for interval in [0, 1, ticks, u32::MAX / 2, u32::MAX / 10 * 8, u32::MAX / 10 * 8 - 10] {
            goes_on(&mut tally, &mut rng, &stream, &[interval]);
        }
        let (low, high) = stream.ends(BANDS[0]).expect("two half cells");
        assert_eq!((low, high), (3_435_973_836, u32::MAX));
        let number = stream.intervals.len() as u64 + 1;
        let outcome = goes_on(&mut tally, &mut rng, &stream, &[low - 1]);
        assert_eq!(outcome.said(), (43, 0, number));
        let outcome = goes_on(&mut tally, &mut rng, &stream, &[low]);
        assert_eq!(outcome.number, 0);
    }
    tally.has_met(Row::Flux, &[0, 43]);
    tally.report();
}

/// At the low end each time: at four ticks a cell no shorter interval is in the band, since 80 % of four are more than
/// three.
#[test]
fn down_to_the_shortest_interval() {
    let mut rng = Rng::new(41);
    let mut tally = Tally::new("flux", "drift down to 4 ticks");
    for ticks in 16..=1_024 {
        let mut stream = Stream::new(ticks);
        (0..200).for_each(|_| assert!(stream.push_at(&mut rng, BANDS[0], Place::Low)));
        assert_eq!(stream.intervals.last(), Some(&4), "{ticks} ticks");
        let outcome = goes_on(&mut tally, &mut rng, &stream, &[]);
        assert_eq!(outcome.number, 0, "{ticks} ticks");
        for interval in 0..=12 {
            goes_on(&mut tally, &mut rng, &stream, &[interval]);
        }
    }
    tally.report();
}

/// There and back in all bands: low ends as long as the shortest two half cells are more than 5 ticks, high ends as long as
/// they are less than a million, and low ends again.
#[test]
fn there_and_back() {
    let mut rng = Rng::new(42);
    let mut tally = Tally::new("flux", "drift down and up again");
    for ticks in (16..=1_024).step_by(7) {
        let mut stream = Stream::new(ticks);
        for (place, is_on_the_way) in [
            (Place::Low, (|cell| cell > 5) as fn(u32) -> bool),
            (Place::High, |cell| cell < 1_000_000),
            (Place::Low, |cell| cell > 500),
        ] {
            while is_on_the_way(stream.ends(BANDS[0]).expect("two half cells").0) {
                let band = BANDS[rng.below(BANDS.len())];
                stream.push_at(&mut rng, band, place);
            }
        }
        let outcome = goes_on(&mut tally, &mut rng, &stream, &[]);
        assert_eq!(outcome.number, 0, "{ticks} ticks");
    }
    tally.has_met(Row::Interval, &[2, 3, 4]);
    tally.report();
}

/// From one interval to the next the cell is another: within a fifth or so it is followed, beyond that refused at once or
/// taken for another number of half cells. After eight intervals nothing is left of the old one.
#[test]
fn sudden_jumps() {
    let mut rng = Rng::new(43);
    let mut tally = Tally::new("flux", "sudden jumps");
    for before in [1, 4, 7, 8, 9, 15, 16, 17] {
        for cell in 0..=300 {
            let mut stream = Stream::new(100);
            (0..before).for_each(|_| stream.push(100));
            let outcome = goes_on(&mut tally, &mut rng, &stream, &[cell; 24]);
            let is_taken = outcome.number == 0 || outcome.result.interval > before as u64 + 1;
            assert_eq!(is_taken, [80..=120, 130..=165, 185..=225].iter().any(|band| band.contains(&cell)), "{cell}");
        }
    }
    tally.has_met(Row::Flux, &[0, 43]);
    tally.report();
}
