//! Captures that nobody should trust. Many are right but for a few stamps, so that the later intervals are looked at too.
use super::stream::{Place, Stream, PLACES};
use super::{Capture, Turn};
use crate::reference::plain_flux::BANDS;
use crate::rng::Rng;
use crate::station::{LEAST_TICKS, MOST_TICKS};
use crate::tracks::EACH_MFM;

/// Captures by kind.
pub type Kind = fn(&mut Rng) -> Capture;

pub const KINDS: [(&str, Kind); 10] = [
    ("random stamps", noise),
    ("intervals about the nominal ones", about_nominal),
    ("intervals anywhere in the bands", in_bands),
    ("intervals at the ends of the bands", at_ends),
    ("intervals at the ends, and one a tick outside", outside),
    ("drift", drift),
    ("sudden jumps", jumps),
    ("pieces of worn tracks", worn),
    ("stamps lost, put in and moved", spoilt),
    ("any ticks of a cell", any_ticks),
];

/// Ticks that a nominal cell may have: often such that the bands end at whole ticks, and often the least or the most.
pub fn ticks(rng: &mut Rng) -> u32 {
    let (least, most) = (LEAST_TICKS as usize, MOST_TICKS as usize);
    match rng.below(6) {
        0 => 20 * (1 + rng.below(most / 20)) as u32,
        1 => [LEAST_TICKS, MOST_TICKS][rng.below(2)],
        _ => (least + rng.below(most - least + 1)) as u32,
    }
}

/// A number of the counter: often just before it runs over.
pub fn first(rng: &mut Rng) -> u32 {
    match rng.below(3) {
        0 => u32::MAX - rng.below(30_000) as u32,
        1 => rng.below(3) as u32,
        _ => rng.bits() as u32,
    }
}

/// Most often a few.
fn count(rng: &mut Rng) -> usize {
    match rng.below(8) {
        0 => rng.below(2_000),
        1 => rng.below(3),
        _ => rng.below(60),
    }
}

fn noise(rng: &mut Rng) -> Capture {
    let (ticks, count) = (ticks(rng), rng.below(20));
    Capture { ticks, stamps: (0..count).map(|_| rng.bits() as u32).collect() }
}

/// Two, three or four half cells, and up to some hundredths of a cell more or less.
fn about_nominal(rng: &mut Rng) -> Capture {
    let (ticks, count, spread) = (ticks(rng), count(rng), rng.below(40));
    let interval = |rng: &mut Rng| {
        let hundredths = [100, 150, 200][rng.below(3)] + rng.below(2 * spread + 1) - spread;
        (ticks as usize * hundredths / 100) as u32
    };
    let intervals: Vec<u32> = (0..count).map(|_| interval(rng)).collect();
    Capture::new(ticks, first(rng), &intervals)
}

fn stream(rng: &mut Rng, next: fn(&mut Rng, &mut Stream)) -> Stream {
    let (mut stream, count) = (Stream::new(ticks(rng)), count(rng));
    (0..count).for_each(|_| next(rng, &mut stream));
    stream
}

fn in_bands(rng: &mut Rng) -> Capture {
    let stream = stream(rng, |rng, stream| {
        let band = BANDS[rng.below(BANDS.len())];
        stream.push_at(rng, band, Place::Within);
    });
    stream.capture(first(rng), &[])
}

fn at_ends(rng: &mut Rng) -> Capture {
    stream(rng, |rng, stream| stream.push_any(rng)).capture(first(rng), &[])
}

/// What follows the one outside is as it may come.
fn outside(rng: &mut Rng) -> Capture {
    let stream = stream(rng, |rng, stream| stream.push_any(rng));
    let outside = stream.outside();
    let one = outside[rng.below(outside.len())];
    stream.capture(first(rng), &[one, [one, nominal(&stream), rng.bits() as u32][rng.below(3)]])
}

/// Two half cells by the bands as they are now.
fn nominal(stream: &Stream) -> u32 {
    stream.ends(BANDS[0]).map_or(0, |(low, high)| low + (high - low) / 2)
}

/// Always the same end of the bands: up to where the counter ends, or down to where no interval is shorter.
fn drift(rng: &mut Rng) -> Capture {
    let (mut stream, place) = (Stream::new(ticks(rng)), PLACES[rng.below(PLACES.len())]);
    let bands = 1 + rng.below(BANDS.len());
    for _ in 0..rng.below(400) {
        let band = BANDS[rng.below(bands)];
        stream.push_at(rng, band, place);
    }
    stream.capture(first(rng), &[])
}

/// At some place everything is longer or shorter by some hundredths.
fn jumps(rng: &mut Rng) -> Capture {
    let (capture, hundredths) = (about_nominal(rng), 50 + rng.below(100));
    let mut intervals = capture.intervals();
    let from = rng.below(intervals.len() + 1);
    intervals[from..].iter_mut().for_each(|one| *one = (*one as usize * hundredths / 100) as u32);
    Capture::new(capture.ticks, first(rng), &intervals)
}

/// A piece of a formatted track, not always within the bands.
fn worn(rng: &mut Rng) -> Capture {
    let track = EACH_MFM[rng.below(EACH_MFM.len())];
    let (image, ..) = track.random(rng);
    let turn =
        Turn { ticks: ticks(rng), first: first(rng), jitter: rng.below(80) as u32, drift: rng.below(600) as i32 - 300 };
    let mut capture = turn.capture(rng, &image);
    let (from, length) = (rng.below(capture.stamps.len()), 1 + rng.below(4_000));
    capture.stamps.drain(..from);
    capture.stamps.truncate(length);
    capture
}

fn spoilt(rng: &mut Rng) -> Capture {
    let mut capture = at_ends(rng);
    for _ in 0..1 + rng.below(3) {
        let at = rng.below(capture.stamps.len().max(1));
        match (rng.below(3), capture.stamps.get(at).copied()) {
            (0, Some(_)) => drop(capture.stamps.remove(at)),
            (1, Some(stamp)) => capture.stamps.insert(at, stamp.wrapping_add(rng.below(40) as u32)),
            (_, Some(stamp)) => capture.stamps[at] = stamp.wrapping_add(rng.below(9) as u32).wrapping_sub(4),
            (_, None) => {}
        }
    }
    capture
}

fn any_ticks(rng: &mut Rng) -> Capture {
    let ticks = match rng.below(4) {
        0 => rng.below(40) as u32,
        1 => MOST_TICKS - 20 + rng.below(40) as u32,
        2 => [0, LEAST_TICKS - 1, MOST_TICKS + 1, 1 << 16 | 100, 1 << 31, u32::MAX][rng.below(6)],
        _ => rng.bits() as u32,
    };
    Capture { ticks, ..about_nominal(rng) }
}

/// The bytes of an image for so many cells: just enough, longer, shorter or none.
pub fn room(rng: &mut Rng, cells: usize) -> usize {
    let enough = (cells + 7) / 8;
    match rng.below(8) {
        0 => enough.saturating_sub(1),
        1 => rng.below(enough + 1),
        2 => 0,
        3 | 4 => enough + 1 + rng.below(300),
        _ => enough,
    }
}
