//! Captures that are turned into cells, and how the sides are held against each other on one of them.
use super::difference;
use super::read::garbage;
use crate::captures::Capture;
use crate::reference::flux::{self, Flux};
use crate::reference::flux_track::octets;
use crate::reference::plain_flux;
use crate::rng::Rng;
use crate::station::{self, FluxResult};
use crate::tally::met::Row;
use crate::tally::Tally;
use crate::tracks::sketch::cells_of;
use std::fmt;

/// All that is handed over.
#[derive(Clone)]
pub struct Call {
    pub capture: Capture,
    /// What the image holds before.
    pub image: Vec<u8>,
}

impl Call {
    /// With an image of so many bytes, none of which is 0.
    pub fn new(rng: &mut Rng, capture: &Capture, length: usize) -> Call {
        Call { capture: capture.clone(), image: garbage(rng, length) }
    }

    /// What one side makes of it. The result is full of something else before, and so is what stands around image and
    /// stamps.
    pub fn outcome(&self, rng: &mut Rng, flux: Flux) -> Outcome {
        let Call { capture: Capture { ticks, stamps }, image } = self;
        // at any alignment
        let (before, after) = (rng.below(16), rng.below(16));
        let any = |rng: &mut Rng, count: usize| -> Vec<u32> { (0..count).map(|_| rng.bits() as u32).collect() };
        let kept_stamps = [any(rng, before), stamps.clone(), any(rng, after)].concat();
        let kept_image = [&garbage(rng, before), &image[..], &garbage(rng, after)].concat();
        let (lent_stamps, mut lent_image) = (kept_stamps.clone(), kept_image.clone());
        let own = before..before + image.len();
        let mut result = FluxResult { cells: rng.bits() | 1, interval: rng.bits() | 1 };
        let number =
            flux(*ticks, &lent_stamps[before..before + stamps.len()], &mut lent_image[own.clone()], &mut result);
        assert!(lent_stamps == kept_stamps, "the stamps changed: {self:?}");
        assert_eq!(lent_image[..own.start], kept_image[..own.start], "bytes before the image: {self:?}");
        assert_eq!(lent_image[own.end..], kept_image[own.end..], "bytes after the image: {self:?}");
        Outcome { number, result, image: lent_image[own].to_vec() }
    }
}

impl fmt::Debug for Call {
    fn fmt(&self, f: &mut fmt::Formatter) -> fmt::Result {
        write!(f, "image of {} bytes, {:?}", self.image.len(), self.capture)
    }
}

/// What comes back.
#[derive(Clone, PartialEq, Eq)]
pub struct Outcome {
    pub number: u8,
    pub result: FluxResult,
    pub image: Vec<u8>,
}

impl Outcome {
    /// What is said of it without the image.
    pub fn said(&self) -> (u8, u64, u64) {
        (self.number, self.result.cells, self.result.interval)
    }

    /// Whatever the capture is: cells end with a 1 in the image, there are zeros behind them, and a refusal leaves zeros.
    fn holds(&self, call: &Call) {
        let (number, cells, interval) = self.said();
        let is_right = match number {
            0 => cells > 0 && octets(cells) <= self.image.len() && interval == 0,
            43 => cells == 0 && (1..call.capture.stamps.len() as u64).contains(&interval),
            _ => cells == 0 && interval == 0,
        };
        assert!(is_right, "{:?}: {call:?}", self.said());
        let last = cells_of(&self.image).iter().rposition(|&cell| cell).map_or(0, |at| at as u64 + 1);
        assert_eq!(last, cells, "cells up to the last 1: {call:?}");
    }

    /// Counts one input with this outcome, and the intervals of its cells.
    fn count(&self, tally: &mut Tally) {
        tally.input();
        tally.met(Row::Flux, self.number);
        half_cells(&self.image).into_iter().for_each(|half_cells| tally.met(Row::Interval, half_cells));
    }
}

/// How far each cell 1 of an image is from the one before it.
pub fn half_cells(image: &[u8]) -> Vec<u32> {
    let ones: Vec<u32> = (0..).zip(cells_of(image)).filter(|&(_, cell)| cell).map(|(at, _)| at).collect();
    ones.windows(2).map(|pair| pair[1] - pair[0]).collect()
}

/// Holds the reference against the literal version, and hands back their outcome.
pub fn references(rng: &mut Rng, call: &Call) -> Outcome {
    let expected = call.outcome(rng, plain_flux::flux);
    agrees(call, "the reference", &call.outcome(rng, flux::flux), &expected);
    expected.holds(call);
    expected
}

/// Holds the library against both, and hands back their outcome.
pub fn compare(tally: &mut Tally, rng: &mut Rng, call: &Call) -> Outcome {
    let expected = references(rng, call);
    agrees(call, "the library", &call.outcome(rng, station::flux), &expected);
    expected.count(tally);
    expected
}

/// Says where two outcomes of a call differ, if they do.
fn agrees(call: &Call, who: &str, found: &Outcome, expected: &Outcome) {
    assert_eq!(found.said(), expected.said(), "number, cells and interval by {who}: {call:?}");
    assert!(found.image == expected.image, "{who}: {}: {call:?}", difference(&found.image, &expected.image));
}
