//! Captures of tracks, right ones and wrong ones: for the tests, the long run, the benchmark and what is kept.
pub mod hostile;
pub mod stream;

use crate::reference::plain_flux::flux;
use crate::rng::Rng;
use crate::station::FluxResult;
use crate::tracks::sketch::cells_of;
use crate::tracks::Track;
use std::fmt;

/// What the board hands over: the ticks of a nominal bit cell, and a stamp for each flux transition.
#[derive(Clone, PartialEq, Eq)]
pub struct Capture {
    pub ticks: u32,
    pub stamps: Vec<u32>,
}

impl Capture {
    /// The first stamp, and those of the intervals behind it. The counter runs over.
    pub fn new(ticks: u32, first: u32, intervals: &[u32]) -> Capture {
        let mut stamps = vec![first];
        stamps.extend(intervals.iter().scan(first, |at, &interval| {
            *at = at.wrapping_add(interval);
            Some(*at)
        }));
        Capture { ticks, stamps }
    }

    pub fn intervals(&self) -> Vec<u32> {
        self.stamps.windows(2).map(|pair| pair[1].wrapping_sub(pair[0])).collect()
    }

    /// How many cells there are, if the capture is not refused in an image that is long enough.
    pub fn cells(&self) -> Option<usize> {
        let (mut image, mut result) = (vec![0; self.stamps.len() / 2 + 1], FluxResult::default());
        (flux(self.ticks, &self.stamps, &mut image, &mut result) == 0).then_some(result.cells as usize)
    }

    /// What the program takes that turns a capture into a track: the track's three bytes, then the numbers.
    pub fn input(&self, track: Track) -> Vec<u8> {
        let numbers = [&[self.ticks], &self.stamps[..]].concat();
        track.input(&numbers.iter().flat_map(|number| number.to_be_bytes()).collect::<Vec<u8>>())
    }
}

impl fmt::Debug for Capture {
    fn fmt(&self, f: &mut fmt::Formatter) -> fmt::Result {
        const SHOWN: usize = 1_000;
        write!(f, "{} ticks, {} stamps", self.ticks, self.stamps.len())?;
        if let [first, ..] = self.stamps[..] {
            let intervals = self.intervals();
            let shown = &intervals[..intervals.len().min(SHOWN)];
            write!(f, " from {first} on, intervals {shown:?}")?;
            write!(f, "{}", if shown.len() < intervals.len() { " and more" } else { "" })?;
        }
        Ok(())
    }
}

/// How a track passes under the head.
#[derive(Clone, Copy, Debug)]
pub struct Turn {
    pub ticks: u32,
    /// The counter at the first transition.
    pub first: u32,
    /// The most that a transition comes early or late, in thousandths of a nominal bit cell.
    pub jitter: u32,
    /// By how much the last cell is longer than the first, in thousandths of it. They change evenly.
    pub drift: i32,
}

impl Turn {
    /// As nominal as whole ticks can be.
    pub const fn nominal(ticks: u32, first: u32) -> Turn {
        Turn { ticks, first, jitter: 0, drift: 0 }
    }

    /// The capture of an image whose first cell is a 1.
    pub fn capture(self, rng: &mut Rng, image: &[u8]) -> Capture {
        let cells = cells_of(image);
        assert!(cells[0], "a capture begins with a transition");
        let all = cells.len() as i64;
        let transitions = (0..all).zip(cells).filter(|&(_, cell)| cell);
        let stamps = transitions.map(|(at, _)| self.stamp(rng, at, all)).collect();
        Capture { ticks: self.ticks, stamps }
    }

    /// The stamp of a transition at the end of so many cells, of so many in all.
    fn stamp(self, rng: &mut Rng, cells: i64, all: i64) -> u32 {
        // in so many parts of a tick, so that nothing but the stamp is rounded
        const PARTS: i64 = 1 << 16;
        let bit_cell = i64::from(self.ticks) * PARTS;
        // the cells so far are longer on average by half of what the last of them is
        let longer = bit_cell * i64::from(self.drift) * cells / (2 * 1_000 * all);
        let spread = bit_cell * i64::from(self.jitter) / 1_000;
        let jitter = rng.below(2 * spread as usize + 1) as i64 - spread;
        let time = cells * (bit_cell + longer) / 2 + jitter;
        self.first.wrapping_add((time + PARTS / 2).div_euclid(PARTS) as u32)
    }
}
