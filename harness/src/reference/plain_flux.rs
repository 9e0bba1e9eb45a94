//! Flux timings word for word after 02, request 05: lists of intervals and of cells, and each sum taken anew. Slow, to
//! check the fast version and the library by.
use crate::station::FluxResult;

/// The bands: "100 × I × H from 160 × T to 240 × T is two half cells, 260 × T to 330 × T three, 370 × T to 450 × T four,
/// ends included".
pub const BANDS: [Band; 3] = [
    Band { from: 160, to: 240, half_cells: 2 },
    Band { from: 260, to: 330, half_cells: 3 },
    Band { from: 370, to: 450, half_cells: 4 },
];

#[derive(Clone, Copy, Debug)]
pub struct Band {
    pub from: u128,
    pub to: u128,
    pub half_cells: u128,
}

/// Gives cells, as `flux::flux` does.
pub fn flux(ticks: u32, stamps: &[u32], image: &mut [u8], result: &mut FluxResult) -> u8 {
    let (number, cells, interval) = match cells(ticks, stamps, 8 * image.len()) {
        Ok(cells) => (0, cells, 0),
        // "image all zero, no number of cells"
        Err((number, interval)) => (number, vec![], interval),
    };
    *result = FluxResult { cells: cells.len() as u64, interval };
    // "the rest of the lent image becomes zero"
    let mut bits = cells.into_iter().chain(std::iter::repeat(0));
    for octet in image {
        *octet = (0..8).fold(0, |octet, _| 2 * octet + bits.next().expect("a cell or a zero of the rest"));
    }
    number
}

/// All cells, each 0 or 1; or the refusal, and with 43 the number of the interval.
fn cells(ticks: u32, stamps: &[u32], room: usize) -> Result<Vec<u8>, (u8, u64)> {
    // "41 and 42 first, then the first met"
    if !(16..=1_024).contains(&ticks) {
        return Err((41, 0));
    }
    if stamps.is_empty() {
        return Err((42, 0));
    }
    let mut cells = Vec::new();
    // "the first stamp gives the cell 1"
    put(&mut cells, 1, room)?;
    let mut accepted = Accepted::new(ticks);
    // "with its number from 1"
    for (number, interval) in (1..).zip(intervals(stamps)) {
        let half_cells = accepted.half_cells(interval).ok_or((43, number))?;
        accepted.accept(interval, half_cells);
        // "each interval gives its half cells as zeros but the last, a 1"
        for half_cell in 1..=half_cells {
            put(&mut cells, u8::from(half_cell == half_cells), room)?;
        }
    }
    Ok(cells)
}

/// "44 a cell past the lent image"
fn put(cells: &mut Vec<u8>, cell: u8, room: usize) -> Result<(), (u8, u64)> {
    if cells.len() == room {
        return Err((44, 0));
    }
    cells.push(cell);
    Ok(())
}

/// "a 32-bit counter that runs over from 4,294,967,295 to 0": "two neighbouring stamps are taken to lie less than one full
/// run of the counter apart".
fn intervals(stamps: &[u32]) -> Vec<u128> {
    let run = 1_u128 << 32;
    stamps.windows(2).map(|pair| (u128::from(pair[1]) + run - u128::from(pair[0])) % run).collect()
}

/// The accepted intervals, each with its half cells, behind those that there are "at the start".
#[derive(Clone)]
pub struct Accepted(Vec<(u128, u128)>);

impl Accepted {
    /// "at the start eight of one nominal cell each"
    pub fn new(ticks: u32) -> Accepted {
        Accepted(vec![(ticks.into(), 2); 8])
    }

    /// T and H: "the ticks and … the half cells of the last eight accepted intervals".
    pub fn last_eight(&self) -> (u128, u128) {
        let last = &self.0[self.0.len() - 8..];
        (last.iter().map(|one| one.0).sum(), last.iter().map(|one| one.1).sum())
    }

    /// The half cells of an interval, if it is in a band.
    pub fn half_cells(&self, interval: u128) -> Option<u128> {
        let (ticks, half_cells) = self.last_eight();
        let is_in = |band: &&Band| {
            let own = 100 * interval * half_cells;
            band.from * ticks <= own && own <= band.to * ticks
        };
        BANDS.iter().find(is_in).map(|band| band.half_cells)
    }

    pub fn accept(&mut self, interval: u128, half_cells: u128) {
        self.0.push((interval, half_cells));
    }
}
