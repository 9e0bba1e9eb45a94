//! Flux timings (02, request 05): the time stamps of flux transitions, and the cells of an image that they give. One pass,
//! with the sums of the last eight intervals carried along.
use crate::station::FluxResult;

/// The ticks that a nominal bit cell may have.
const LEAST_TICKS: u32 = 16;
const MOST_TICKS: u32 = 1_024;

/// The bands by their half cells: the ends of each in tenths of a half cell, since all the papers' hundreds are tens.
const TWO: (u64, u64) = (16, 24);
const THREE: (u64, u64) = (26, 33);
const FOUR: (u64, u64) = (37, 45);

/// So many accepted intervals are the measure for the next, at the start of one nominal cell each: two half cells.
const KEPT: usize = 8;
const NOMINAL: u32 = 2;

/// What gives cells: the ticks of a nominal bit cell, the stamps, the image, and what is told beside the number.
pub type Flux = fn(u32, &[u32], &mut [u8], &mut FluxResult) -> u8;

/// Fills the image with the cells. Answers 0, or the number of the refusal. Nothing is left of what the image held: past
/// the cells it is zero, and all of it after a refusal.
#[inline(never)]
pub fn flux(ticks: u32, stamps: &[u32], image: &mut [u8], result: &mut FluxResult) -> u8 {
    image.fill(0);
    let (number, cells, interval) = match laid(ticks, stamps, image) {
        Ok(cells) => (0, cells, 0),
        Err((number, interval)) => {
            image.fill(0);
            (number, 0, interval)
        }
    };
    *result = FluxResult { cells: cells as u64, interval: interval as u64 };
    number
}

/// Lays the cells into an image of zeros, and counts them. Else the refusal, with the number of the interval for 43.
fn laid(ticks: u32, stamps: &[u32], image: &mut [u8]) -> Result<usize, (u8, usize)> {
    if !(LEAST_TICKS..=MOST_TICKS).contains(&ticks) {
        return Err((41, 0));
    }
    if stamps.is_empty() {
        return Err((42, 0));
    }
    let (mut measure, mut cell) = (Measure::new(ticks), 0);
    lay(image, cell)?;
    for (at, pair) in stamps.windows(2).enumerate() {
        // the counter may have run over between the two
        let interval = pair[1].wrapping_sub(pair[0]);
        let half_cells = measure.half_cells(interval).ok_or((43, at + 1))?;
        measure.accept(at, interval, half_cells);
        // the last cell of an interval is its 1: if that is in the image, so are the zeros before it
        cell += half_cells as usize;
        lay(image, cell)?;
    }
    Ok(cell + 1)
}

/// Sets a cell of the image to 1, if it is there.
#[inline(always)]
fn lay(image: &mut [u8], cell: usize) -> Result<(), (u8, usize)> {
    let octet = image.get_mut(cell / 8).ok_or((44, 0))?;
    *octet |= 0x80 >> (cell % 8);
    Ok(())
}

/// The last accepted intervals, each with its half cells, and the sums of both.
struct Measure {
    kept: [(u32, u32); KEPT],
    ticks: u64,
    half_cells: u64,
}

impl Measure {
    fn new(ticks: u32) -> Measure {
        let sum = |one: u32| KEPT as u64 * u64::from(one);
        Measure { kept: [(ticks, NOMINAL); KEPT], ticks: sum(ticks), half_cells: sum(NOMINAL) }
    }

    /// The half cells of an interval, if it is in a band.
    #[inline(always)]
    fn half_cells(&self, interval: u32) -> Option<u32> {
        // all products are below 2^42: an interval has 32 bits, eight have 35, and the half cells are 32 at most
        let (own, ticks) = (10 * u64::from(interval) * self.half_cells, self.ticks);
        // below the band the difference runs over, and is more than any band is wide
        let is_in = |(from, to): (u64, u64)| own.wrapping_sub(from * ticks) <= (to - from) * ticks;
        match () {
            _ if is_in(TWO) => Some(2),
            _ if is_in(THREE) => Some(3),
            _ if is_in(FOUR) => Some(4),
            _ => None,
        }
    }

    /// An interval takes the place of the oldest.
    #[inline(always)]
    fn accept(&mut self, at: usize, interval: u32, half_cells: u32) {
        let oldest = std::mem::replace(&mut self.kept[at % KEPT], (interval, half_cells));
        self.ticks = self.ticks + u64::from(interval) - u64::from(oldest.0);
        self.half_cells = self.half_cells + u64::from(half_cells) - u64::from(oldest.1);
    }
}
