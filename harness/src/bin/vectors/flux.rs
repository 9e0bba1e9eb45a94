//! The kept captures: short ones for each refusal and each end of a band, and a few whole tracks. They are the same whenever
//! they are written.
use crate::Vector;
use harness::captures::stream::Stream;
use harness::captures::{Capture, Turn};
use harness::reference::plain_flux::BANDS;
use harness::rng::Rng;
use harness::tracks::{Track, MFM};

const LONGEST: Track = Track { layout: 3, cylinder: 74, side: 1 };

pub fn all() -> Vec<Vector> {
    let rng = &mut Rng::new(2029);
    let groups = [beginnings(), ticks(), cells(), ends(), measure(rng), counter(), past_end(), tracks(rng)];
    groups.into_iter().flatten().collect()
}

fn vector(shows: &str, input: &[u8]) -> Vector {
    Vector { shows: shows.to_string(), input: input.to_vec() }
}

fn capture(shows: &str, capture: &Capture) -> Vector {
    vector(shows, &capture.input(MFM))
}

/// From the counter's 1000 on.
fn intervals(shows: &str, ticks: u32, intervals: &[u32]) -> Vector {
    capture(shows, &Capture::new(ticks, 1_000, intervals))
}

fn beginnings() -> Vec<Vector> {
    let input = Capture { ticks: 100, stamps: vec![] }.input(MFM);
    vec![
        vector("no byte at all: refused 41", &[]),
        vector("three bytes: refused 41", &input[..3]),
        vector("six bytes, the ticks cut: refused 41", &input[..6]),
        vector("seven bytes, no stamp: refused 42", &input),
        capture("no stamp, and 15 ticks: 41 before 42", &Capture { ticks: 15, stamps: vec![] }),
        intervals("one stamp is one cell", 100, &[]),
    ]
}

fn ticks() -> Vec<Vector> {
    let of = |ticks: u32| intervals(&format!("{ticks} ticks of a cell, three nominal intervals"), ticks, &[ticks; 3]);
    let mut all: Vec<Vector> = [0, 15, 16, 17, 1_023, 1_024, 1_025, 65_636, u32::MAX].map(of).into();
    all.push(intervals("15 ticks, and an interval in no band: 41 before 43", 15, &[0]));
    all
}

fn cells() -> Vec<Vector> {
    // no layout and no cylinder: the letters with which a refusal begins
    let any_track = Track { layout: b'r'.into(), cylinder: b'e'.into(), side: b'f'.into() };
    vec![
        intervals("two, three and four half cells", 100, &[100, 150, 200]),
        intervals("seven nominal intervals: fifteen cells, one byte and seven cells", 16, &[16; 7]),
        intervals("eight cells: one byte", 100, &[100, 100, 150]),
        intervals("nine cells: two bytes", 100, &[100, 150, 150]),
        vector("the track's bytes are handed on, whatever they are", &Capture::new(100, 0, &[100]).input(any_track)),
    ]
}

/// Each end of each band as the first interval, and a tick outside: 100 ticks, whose ends are whole, and 17, whose are not.
fn ends() -> Vec<Vector> {
    let mut all = Vec::new();
    for ticks in [100, 17] {
        let stream = Stream::new(ticks);
        for band in BANDS {
            let (low, high) = stream.ends(band).expect("a band with an interval in it");
            for (interval, place) in
                [(low - 1, "below"), (low, "the least of"), (high, "the most of"), (high + 1, "above")]
            {
                let shows = format!("{interval} of {ticks} ticks, {place} {} half cells", band.half_cells);
                all.push(intervals(&shows, ticks, &[interval]));
            }
        }
    }
    all
}

/// What the last eight accepted intervals are.
fn measure(rng: &mut Rng) -> Vec<Vector> {
    let behind = |count: usize, last: u32| [&[120][..], &vec![100; count], &[last]].concat();
    let mut any = Stream::new(300);
    (0..60).for_each(|_| any.push_any(rng));
    let mut up = Stream::new(16);
    while up.intervals.last() != Some(&u32::MAX) {
        up.push(up.ends(BANDS[0]).expect("two half cells").1);
    }
    let mut down = Stream::new(1_024);
    while down.intervals.last() != Some(&4) {
        down.push(down.ends(BANDS[0]).expect("two half cells").0);
    }
    vec![
        intervals("120 ticks and seven of 100: 81 is below the band", 100, &behind(7, 81)),
        intervals("120 ticks and seven of 100: 82 is in it", 100, &behind(7, 82)),
        intervals("120 ticks and eight of 100: 80 is in the band again", 100, &behind(8, 80)),
        intervals("120 ticks and eight of 100: 79 is below", 100, &behind(8, 79)),
        capture("sixty intervals, many at the ends of their bands", &any.capture(77, &[])),
        capture("the same, and one in no band", &any.capture(77, &any.outside()[..1])),
        capture("drift up to an interval of 4,294,967,295", &up.capture(0, &[u32::MAX; 10])),
        capture(
            "the same, and one of 3,435,973,835: below the band",
            &up.capture(0, &[&[u32::MAX; 10][..], &[3_435_973_835]].concat()),
        ),
        capture("drift down to an interval of 4", &down.capture(0, &[4; 10])),
    ]
}

fn counter() -> Vec<Vector> {
    let from = |first: u32| Capture::new(100, first, &[100, 150, 200, 100]);
    vec![
        capture("the counter runs over in the second interval", &from(u32::MAX - 150)),
        capture("the counter runs over from 4,294,967,295 to 0 at a stamp", &from(u32::MAX - 99)),
        intervals("two equal stamps: refused 43", 100, &[100, 0, 100]),
        intervals("a stamp one tick before the last: refused 43", 100, &[100, u32::MAX]),
        intervals("the twentieth interval is in no band", 100, &[vec![100; 19], vec![125], vec![100]].concat()),
    ]
}

/// The program's image has 24,576 bytes: 196,608 cells.
fn past_end() -> Vec<Vector> {
    // the first cell, and as many intervals of four half cells as leave room for three more
    let with_last = |last: u32| [vec![32; 49_151], vec![last]].concat();
    vec![
        intervals("as many cells as the image has", 16, &with_last(24)),
        intervals("a cell more: refused 44", 16, &with_last(32)),
    ]
}

fn tracks(rng: &mut Rng) -> Vec<Vector> {
    let (image, ..) = LONGEST.plain(rng);
    let turn = Turn { ticks: 333, first: u32::MAX - 5_000_000, jitter: 30, drift: -40 };
    let captured = turn.capture(rng, &image);
    let whole = vector(&format!("a track with jitter and drift ({LONGEST:?})"), &captured.input(LONGEST));
    vec![whole, capture("a piece of it with a transition lost", &dropout(captured, 1_500, 300))]
}

/// So many stamps of a capture, without the one behind so many of them from where on two intervals together are in no band.
pub fn dropout(mut capture: Capture, behind: usize, more: usize) -> Capture {
    let intervals = capture.intervals();
    // more than two cells and a half
    let is_long = |at: usize| 2 * (intervals[at - 1] + intervals[at]) > 5 * capture.ticks;
    let lost = (behind..intervals.len()).find(|&at| is_long(at)).expect("two long intervals");
    capture.stamps.remove(lost);
    capture.stamps.truncate(lost + more);
    capture
}
