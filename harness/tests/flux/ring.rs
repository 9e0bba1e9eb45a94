//! Which intervals are the last eight: the oldest goes when a ninth is accepted, and none but accepted ones count.
use crate::goes_on;
use harness::captures::hostile::ticks;
use harness::captures::stream::Stream;
use harness::reference::plain_flux::BANDS;
use harness::rng::Rng;
use harness::tally::met::Row;
use harness::tally::Tally;

/// One cell of 120 ticks among nominal ones of 100 makes T 820 for eight intervals, and then 800 again. So long a low end
/// of the first band is 82, not 80.
#[test]
fn one_long_cell_counts_eight_times() {
    let mut rng = Rng::new(50);
    let mut tally = Tally::new("flux", "one long cell among nominal ones");
    for place in 0..30 {
        for behind in 0..20 {
            let mut stream = Stream::new(100);
            (0..place).for_each(|_| stream.push(100));
            stream.push(120);
            (0..behind).for_each(|_| stream.push(100));
            // in numbers: 82 and 123 as long as the long one is among the eight
            let ends = if behind < 8 { (82, 123) } else { (80, 120) };
            assert_eq!(stream.ends(BANDS[0]), Some(ends));
            let number = place + 1 + behind + 1;
            for (interval, is_in) in [(ends.0 - 1, false), (ends.0, true), (ends.1, true), (ends.1 + 1, false)] {
                let outcome = goes_on(&mut tally, &mut rng, &stream, &[interval]);
                let expected = if is_in { (0, 1 + 2 * number, 0) } else { (43, 0, number) };
                assert_eq!(outcome.said(), expected, "{interval}, {behind} behind the long one");
            }
        }
    }
    tally.report();
}

/// The same of the half cells: four of 216 ticks are 8 % long, and H is 18 for eight intervals.
#[test]
fn one_interval_of_four_half_cells_counts_eight_times() {
    let mut rng = Rng::new(51);
    let mut tally = Tally::new("flux", "one interval of four half cells among nominal ones");
    for place in 0..20 {
        for behind in 0..20 {
            let mut stream = Stream::new(100);
            (0..place).for_each(|_| stream.push(100));
            stream.push(216);
            (0..behind).for_each(|_| stream.push(100));
            // T 916 and H 18: 81.4 to 122.1, 132.3 to 167.9, 188.3 to 229
            let ends = if behind < 8 { [82, 122, 133, 167, 189, 229] } else { [80, 120, 130, 165, 185, 225] };
            let number = place + 1 + behind + 1;
            let cells = 1 + 2 * (place + behind) + 4;
            for (band, half_cells) in ends.chunks(2).zip(2..) {
                for (interval, is_in) in [(band[0] - 1, false), (band[0], true), (band[1], true), (band[1] + 1, false)]
                {
                    let outcome = goes_on(&mut tally, &mut rng, &stream, &[interval]);
                    let expected = if is_in { (0, cells + half_cells, 0) } else { (43, 0, number) };
                    assert_eq!(outcome.said(), expected, "{interval}, {behind} behind the long one");
                }
            }
        }
    }
    tally.has_met(Row::Interval, &[2, 3, 4]);
    tally.report();
}

/// Every number of intervals up to some turns of the ring, with any places in the bands.
#[test]
fn every_number_of_intervals() {
    const TIMES: usize = 20;
    let mut rng = Rng::new(52);
    let mut tally = Tally::new("flux", "0 to 70 intervals");
    for count in 0..=70 {
        for _ in 0..TIMES {
            let mut stream = Stream::new(ticks(&mut rng));
            (0..count).for_each(|_| stream.push_any(&mut rng));
            let outcome = goes_on(&mut tally, &mut rng, &stream, &[]);
            assert_eq!(outcome.number, 0, "{count} intervals");
            for interval in stream.outside() {
                let outcome = goes_on(&mut tally, &mut rng, &stream, &[interval]);
                assert_eq!(outcome.said(), (43, 0, count + 1), "{interval} behind {:?}", stream.intervals);
            }
        }
    }
    tally.report();
}
