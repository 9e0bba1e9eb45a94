//! Intervals one after the other, each chosen by the bands as they are when it comes.
use super::Capture;
use crate::reference::plain_flux::{Accepted, Band, BANDS};
use crate::rng::Rng;

/// The intervals so far, all of them accepted.
#[derive(Clone)]
pub struct Stream {
    ticks: u32,
    accepted: Accepted,
    pub intervals: Vec<u32>,
}

/// Where in a band an interval is.
#[derive(Clone, Copy, Debug, PartialEq, Eq)]
pub enum Place {
    Low,
    Within,
    High,
}

pub const PLACES: [Place; 3] = [Place::Low, Place::Within, Place::High];

impl Stream {
    pub fn new(ticks: u32) -> Stream {
        Stream { ticks, accepted: Accepted::new(ticks), intervals: vec![] }
    }

    /// The least and the most interval that is in a band now, if there is one.
    pub fn ends(&self, band: Band) -> Option<(u32, u32)> {
        let (ticks, half_cells) = self.accepted.last_eight();
        let measure = 100 * half_cells;
        let (low, high) = ((band.from * ticks + measure - 1) / measure, band.to * ticks / measure);
        let low = u32::try_from(low).ok()?;
        Some((low, u32::try_from(high).unwrap_or(u32::MAX))).filter(|(low, high)| low <= high)
    }

    /// Whether an interval is just at an end of its band: 100 × I × H is the band's number times T.
    pub fn is_exact(&self, interval: u32) -> bool {
        let (ticks, half_cells) = self.accepted.last_eight();
        let own = 100 * u128::from(interval) * half_cells;
        BANDS.iter().any(|band| own == band.from * ticks || own == band.to * ticks)
    }

    /// The next interval, which is in a band.
    pub fn push(&mut self, interval: u32) {
        let half_cells = self.accepted.half_cells(interval.into());
        self.accepted.accept(interval.into(), half_cells.expect("an interval that is in a band"));
        self.intervals.push(interval);
    }

    /// The next interval at a place in a band, if there is one.
    pub fn push_at(&mut self, rng: &mut Rng, band: Band, place: Place) -> bool {
        let ends = self.ends(band);
        if let Some((low, high)) = ends {
            self.push(match place {
                Place::Low => low,
                Place::Within => low + rng.below((high - low) as usize + 1) as u32,
                Place::High => high,
            });
        }
        ends.is_some()
    }

    /// The next interval at any place in any band: there always is one of the first.
    pub fn push_any(&mut self, rng: &mut Rng) {
        let (band, place) = (BANDS[rng.below(BANDS.len())], PLACES[rng.below(PLACES.len())]);
        if !self.push_at(rng, band, place) {
            assert!(self.push_at(rng, BANDS[0], Place::Within), "no interval is two half cells: {:?}", self.intervals);
        }
    }

    /// Intervals next to the bands as they are now, and in none of them: a tick below each, and a tick above.
    pub fn outside(&self) -> Vec<u32> {
        let ends = BANDS.iter().filter_map(|&band| self.ends(band));
        let beside = ends.flat_map(|(low, high)| [low.checked_sub(1), high.checked_add(1)]).flatten();
        beside.filter(|&interval| self.accepted.half_cells(interval.into()).is_none()).collect()
    }

    /// All of them, and more that may be in no band, from some number of the counter on.
    pub fn capture(&self, first: u32, more: &[u32]) -> Capture {
        Capture::new(self.ticks, first, &[&self.intervals, more].concat())
    }
}
