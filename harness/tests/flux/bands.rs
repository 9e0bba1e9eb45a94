//! The ends of the bands, for T and H as they are at each interval.
use crate::goes_on;
use harness::captures::hostile::ticks;
use harness::captures::stream::{Place, Stream};
use harness::reference::plain_flux::BANDS;
use harness::rng::Rng;
use harness::tally::met::Row;
use harness::tally::Tally;

/// Each end as the next interval, and a tick outside of it. Hands back how many were just at their end.
fn ends_come_next(tally: &mut Tally, rng: &mut Rng, stream: &Stream) -> usize {
    let number = stream.intervals.len() as u64 + 1;
    let mut exact = 0;
    for band in BANDS {
        let (low, high) = stream.ends(band).expect("a band with an interval in it");
        for interval in [low, high] {
            let outcome = goes_on(tally, rng, stream, &[interval]);
            assert_eq!(outcome.number, 0, "{interval} as interval {number} behind {:?}", stream.intervals);
            exact += usize::from(stream.is_exact(interval));
        }
        // a tick further there may be another band, where a tick is much
        for interval in [low - 1, high + 1].into_iter().filter(|interval| stream.outside().contains(interval)) {
            let outcome = goes_on(tally, rng, stream, &[interval]);
            assert_eq!(outcome.said(), (43, 0, number), "{interval} behind {:?}", stream.intervals);
        }
    }
    exact
}

/// The first interval, for all ticks: with a multiple of 20 every end is a whole number of ticks.
#[test]
fn ends_at_the_start() {
    let mut rng = Rng::new(20);
    let mut tally = Tally::new("flux", "the bands' ends at the start, all ticks");
    for ticks in 16..=1_024 {
        let exact = ends_come_next(&mut tally, &mut rng, &Stream::new(ticks));
        assert!(exact == 6 || ticks % 20 != 0, "{exact} exact ends with {ticks} ticks");
    }
    tally.has_met(Row::Flux, &[0, 43]);
    tally.report();
}

/// The papers' ends in numbers: 100 ticks a cell.
#[test]
fn ends_in_numbers() {
    let mut rng = Rng::new(21);
    let mut tally = Tally::new("flux", "the bands of 100 ticks in numbers");
    for interval in 0..=300 {
        let half_cells = match interval {
            80..=120 => 2,
            130..=165 => 3,
            185..=225 => 4,
            _ => 0,
        };
        let outcome = goes_on(&mut tally, &mut rng, &Stream::new(100), &[interval]);
        let expected = if half_cells == 0 { (43, 0, 1) } else { (0, 1 + half_cells, 0) };
        assert_eq!(outcome.said(), expected, "{interval} of 100 ticks");
    }
    tally.report();
}

/// Behind nominal intervals, two, three and four half cells: T is then a whole number of times H, and all ends are exact.
#[test]
fn ends_behind_nominal_intervals() {
    let mut rng = Rng::new(22);
    let mut tally = Tally::new("flux", "the bands' ends behind nominal intervals");
    for ticks in (20..=1_020).step_by(20) {
        let mut stream = Stream::new(ticks);
        for _ in 0..20 {
            stream.push(ticks / 2 * [2, 3, 4][rng.below(3)]);
            assert_eq!(ends_come_next(&mut tally, &mut rng, &stream), 6, "{ticks} ticks, {:?}", stream.intervals);
        }
    }
    tally.report();
}

/// Behind intervals anywhere in the bands, many of them at the ends, so that T and H are odd numbers.
#[test]
fn ends_behind_any_intervals() {
    const INPUTS: usize = 400;
    let (mut rng, mut exact) = (Rng::new(23), 0);
    let mut tally = Tally::new("flux", "the bands' ends behind any intervals");
    for _ in 0..INPUTS {
        let mut stream = Stream::new(ticks(&mut rng));
        for _ in 0..rng.below(30) {
            stream.push_any(&mut rng);
            if (0..3).all(|band| stream.ends(BANDS[band]).is_some()) {
                exact += ends_come_next(&mut tally, &mut rng, &stream);
            }
        }
    }
    assert!(exact > 0, "no interval was just at an end");
    println!("flux: {exact} intervals behind any others were just at an end of their band");
    tally.has_met(Row::Flux, &[0, 43]);
    tally.report();
}

/// One end after the other, in each order: every second interval at the low end of a band, the others at the high end.
#[test]
fn ends_by_turns() {
    let mut rng = Rng::new(24);
    let mut tally = Tally::new("flux", "low and high ends by turns");
    for ticks in [16, 17, 19, 20, 33, 100, 999, 1_023, 1_024] {
        for (low, high) in BANDS.into_iter().flat_map(|low| BANDS.map(|high| (low, high))) {
            let mut stream = Stream::new(ticks);
            for _ in 0..40 {
                stream.push_at(&mut rng, low, Place::Low);
                stream.push_at(&mut rng, high, Place::High);
            }
            let outcome = goes_on(&mut tally, &mut rng, &stream, &[]);
            assert_eq!(outcome.number, 0, "{ticks} ticks, {low:?} and {high:?}");
        }
    }
    tally.report();
}
