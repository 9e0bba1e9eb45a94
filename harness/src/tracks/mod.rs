//! Tracks to be read, right ones and wrong ones: for the tests, the benchmark and the kept vectors.
pub mod damage;
pub mod letters;
pub mod random;
pub mod sketch;
pub mod traps;
pub mod worn;

use crate::reference::coding::Mode;
use crate::reference::format::format;
use crate::reference::layouts::{Layout, LAYOUTS};
use crate::rng::Rng;
use std::fmt;

/// Which track is asked for.
#[derive(Clone, Copy, PartialEq, Eq)]
pub struct Track {
    pub layout: u32,
    pub cylinder: u32,
    pub side: u32,
}

/// The only track in FM.
pub const FM: Track = Track { layout: 0, cylinder: 0, side: 0 };

/// One of those in MFM, with the smallest blocks.
pub const MFM: Track = Track { layout: 1, cylinder: 5, side: 1 };

/// A track of each layout.
pub const EACH: [Track; 4] = [FM, MFM, Track { layout: 2, ..MFM }, Track { layout: 3, ..MFM }];

/// Those in MFM.
pub const EACH_MFM: [Track; 3] = [EACH[1], EACH[2], EACH[3]];

/// Every kind of track with each layout that it takes.
pub fn all() -> Vec<Track> {
    let mut tracks = vec![FM, Track { layout: 1, cylinder: 0, side: 1 }];
    for cylinder in [1, 37, 74] {
        for side in 0..=1 {
            tracks.extend((1..=3).map(|layout| Track { layout, cylinder, side }));
        }
    }
    tracks
}

/// Any of them: one of cylinder 0, which has rules of its own, at least each fourth time.
pub fn any(rng: &mut Rng) -> Track {
    let mut tracks = all();
    if rng.below(4) == 0 {
        tracks.truncate(2);
    }
    tracks[rng.below(tracks.len())]
}

impl Track {
    /// The layout, which there is.
    pub fn layout(self) -> &'static Layout {
        &LAYOUTS[self.layout as usize]
    }

    pub fn mode(self) -> Mode {
        self.layout().mode
    }

    /// The address of a sector.
    pub fn address(self, sector: u8) -> [u8; 4] {
        [self.cylinder as u8, self.side as u8, sector, self.layout().fourth]
    }

    /// What the program that prints a track takes: the track's three bytes, then an image.
    pub fn input(self, image: &[u8]) -> Vec<u8> {
        let three = [self.layout, self.cylinder, self.side].map(|number| number as u8);
        [&three, image].concat()
    }

    /// The track as the formatter writes it.
    pub fn formatted(self, data: &[u8], marks: &[u8]) -> Vec<u8> {
        let mut image = vec![0; self.layout().image_bytes()];
        let number = format(self.layout, self.cylinder, self.side, data, marks, &mut image);
        assert_eq!(number, 0, "refusal of the formatter: {self:?}");
        image
    }

    /// A formatted track with random contents, and these: data bytes and marks. Many sectors begin with a letter that the
    /// papers name.
    pub fn random(self, rng: &mut Rng) -> (Vec<u8>, Vec<u8>, Vec<u8>) {
        let (data, marks) = letters::contents(rng, self);
        (self.formatted(&data, &marks), data, marks)
    }

    /// The same without such letters, but where cylinder 0 wants them. The benchmark and the vectors that have been kept
    /// from the beginning are made of these, and stay as they are.
    pub fn plain(self, rng: &mut Rng) -> (Vec<u8>, Vec<u8>, Vec<u8>) {
        let layout = self.layout();
        let mut data = rng.bytes(layout.area_bytes());
        let marks: Vec<u8> = (0..layout.sectors).map(|_| [0xFB, 0xF8][rng.below(2)]).collect();
        for (bytes, &mark) in data.chunks_mut(layout.size).zip(&marks) {
            // on cylinder 0 a control mark may stand only before the letter D
            if self.cylinder == 0 && mark == 0xF8 {
                bytes[0] = 0x44;
            }
        }
        (self.formatted(&data, &marks), data, marks)
    }

    /// Where on a formatted track the identifier mark of a sector begins, and where its data or control mark: as image
    /// bytes. 01, "Order on the track".
    pub fn places(self, sector: usize) -> (usize, usize) {
        let layout = self.layout();
        // the first identifier mark; from each to the data mark; from there to the next (00)-bytes, but for the data
        let (first, zeros, to_data, rest) = match self.mode() {
            Mode::Fm => (40 + 6 + 1 + 26 + 6, 6, 1 + 6 + 11 + 6, 1 + 2),
            Mode::Mfm => (80 + 12 + 4 + 50 + 12, 12, 4 + 6 + 22 + 12, 4 + 2),
        };
        let each = zeros + to_data + rest + layout.size + layout.block_gap;
        let identifier = first + (sector - 1) * each;
        (2 * identifier, 2 * (identifier + to_data))
    }
}

impl fmt::Debug for Track {
    fn fmt(&self, f: &mut fmt::Formatter) -> fmt::Result {
        let Track { layout, cylinder, side } = self;
        write!(f, "layout {layout}, cylinder {cylinder}, side {side}")
    }
}
