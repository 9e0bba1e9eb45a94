//! Traps that the papers lay for a reader: small tracks, each with the outcome that 01 and 02 want, worked out by hand.
mod blocks;
mod clocks;
mod identifiers;
mod letters;
mod searches;

use super::sketch::{contents, Sketch};
use super::{Track, FM, MFM};
use crate::reference::coding::Mode;
use crate::reference::records::{at, nowhere};
use crate::reference::stores::stores;
use crate::station::Reading;

/// One of the data, control and open marks of a track.
#[derive(Clone, Copy)]
enum Mark {
    First,
    Second,
}

/// A track with its outcome.
pub struct Trap {
    pub name: &'static str,
    pub shows: String,
    pub track: Track,
    pub image: Vec<u8>,
    pub reading: Reading,
    /// The slots of all sectors.
    pub area: Vec<u8>,
    /// Where the data, control and open marks begin.
    blocks: Vec<usize>,
}

/// All of them.
pub fn all() -> Vec<Trap> {
    [of_01(), of_letters(), of_clocks()].into_iter().flatten().collect()
}

/// Those that are in 01 already.
pub fn of_01() -> Vec<Trap> {
    [searches::all(), identifiers::all(), blocks::all()].into_iter().flatten().collect()
}

/// Those of 02, request 04, each on all tracks that have it, one after the other.
pub fn of_letters() -> Vec<Trap> {
    letters::all()
}

/// Those of 02, request 06, each in both modes.
pub fn of_clocks() -> Vec<Trap> {
    clocks::all()
}

impl Trap {
    /// Every sector without an identifier, until more is said.
    fn new(name: &'static str, shows: &str, sketch: &Sketch) -> Trap {
        let track = sketch.track;
        let layout = track.layout();
        let mut reading = Reading::default();
        reading.records[..layout.sectors].fill(nowhere(21));
        let (shows, area) = (shows.to_string(), vec![0; layout.area_bytes()]);
        Trap { name, shows, track, image: sketch.image(), reading, area, blocks: sketch.blocks.clone() }
    }

    /// A sector for which no data, control or open mark was found, or more than one identifier.
    fn nowhere(mut self, sector: u8, answer: u32) -> Trap {
        self.reading.records[usize::from(sector) - 1] = nowhere(answer);
        self
    }

    /// Sectors with their answers and the track's data, control or open mark that is theirs: its first, its second.
    /// Where the answer is 1 or 2, the slot holds the sector's own contents; where it is 3, F and zeros.
    fn answers(mut self, answers: &[(u8, u32, Mark)]) -> Trap {
        for &(sector, answer, mark) in answers {
            self.reading.records[usize::from(sector) - 1] = at(answer, self.blocks[mark as usize]);
            let mut bytes = contents(self.track, sector);
            match answer {
                1 | 2 => self = self.holds(sector, &bytes),
                3 => {
                    bytes.fill(0);
                    bytes[0] = b'F';
                    self = self.holds(sector, &bytes);
                }
                _ => (),
            }
        }
        self
    }

    /// A sector has so many doubtful clocks. Without that it has none.
    fn doubtful(mut self, sector: u8, clocks: u32) -> Trap {
        self.reading.records[usize::from(sector) - 1].clocks = clocks;
        self
    }

    /// The slot of a sector holds these bytes.
    fn holds(mut self, sector: u8, bytes: &[u8]) -> Trap {
        let size = self.track.layout().size;
        self.area[(usize::from(sector) - 1) * size..][..size].copy_from_slice(bytes);
        self
    }

    fn counts(mut self, bad: u32, foreign: u32) -> Trap {
        self.reading.counts = [bad, foreign];
        self
    }
}

/// How many clocks are doubtful where one is wrong by the rule of MFM alone.
fn in_mfm(track: Track) -> u32 {
    u32::from(track.mode() == Mode::Mfm)
}

/// The answer of a right control record with `contents`, whose first byte is Z: cylinder 0 takes D alone.
fn of_control(track: Track) -> u32 {
    if track.cylinder == 0 {
        27
    } else {
        2
    }
}

/// The image after the stores of a rewrite of its first block, but for the last ones.
fn rewritten(mut trap: Trap, mark: u32, contents: &[u8], missing: usize) -> Trap {
    let stores = stores(trap.track.layout, &trap.image, trap.blocks[0], mark, contents);
    for &(at, octet) in &stores[..stores.len() - missing] {
        trap.image[at] = octet;
    }
    trap
}

/// The same trap in both modes.
fn in_both(trap: impl Fn(Sketch) -> Trap) -> Vec<Trap> {
    [FM, MFM].map(|track| trap(Sketch::new(track).gap(4))).into()
}
