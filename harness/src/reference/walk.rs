//! The walk over a track (01, "How a track is read", steps 1 to 4): whoever walks says what becomes of what is met.
use super::coding::{data_byte, Mode};
use super::edc::{continued, edc};
use super::layouts::{of_track, readable, Layout};
use super::marks::{self, Marks};
use super::search::{number, Wanted};

/// The cells of a byte.
pub const BYTE: usize = 16;

/// The cells of the address bytes, and of an EDC.
const ADDRESS: usize = 4 * BYTE;
const EDC: usize = 2 * BYTE;

/// What is walked over.
#[derive(Clone, Copy)]
pub struct Track<'a> {
    pub layout: &'static Layout,
    pub cylinder: u8,
    pub side: u8,
    pub image: &'a [u8],
}

impl<'a> Track<'a> {
    /// The track, or the first of the refusals 2, 3, 4 and 1.
    pub fn new(layout: u32, cylinder: u32, side: u32, image: &'a [u8]) -> Result<Self, u8> {
        let layout = of_track(layout, cylinder, side)?;
        readable(image)?;
        Ok(Track { layout, cylinder: cylinder as u8, side: side as u8, image })
    }
}

/// The marks before a block.
#[derive(Clone, Copy, PartialEq, Eq)]
pub enum Kind {
    Data,
    Control,
    Open,
}

/// What follows an accepted identifier.
pub enum Found {
    Nothing,
    /// A block that passes the end of the image: the cell at which its mark begins.
    Cut {
        mark: usize,
    },
    /// A whole block: the cell at which its mark begins, and the one at which its bytes do.
    Block {
        kind: Kind,
        mark: usize,
        bytes: usize,
    },
}

/// What becomes of what the walk meets.
pub trait Meets {
    fn bad(&mut self) {}
    fn foreign(&mut self) {}
    /// An accepted identifier of the sector with this index.
    fn accepted(&mut self, sector: usize, found: Found);
}

/// Walks from cell 0 until the walk ends.
#[inline(never)] // inlined into the reader, its loop is slower
pub fn walk(track: Track, meets: &mut impl Meets) {
    match track.layout.mode {
        Mode::Fm => Walk::new(&FM, track, meets).run(),
        Mode::Mfm => Walk::new(&MFM, track, meets).run(),
    }
}

/// What the layouts of one mode share. A mark takes `MARK` image bytes.
struct Rules<const MARK: usize> {
    marks: Marks<MARK>,
    identifier: u64,
    data: u64,
    open: u64,
    identifiers: Wanted<MARK, 1>,
    all: Wanted<MARK, 4>,
    /// As many cells after the address EDC a data, control or open mark may begin.
    window: usize,
}

static FM: Rules<2> = Rules::new(marks::FM, 544);
static MFM: Rules<8> = Rules::new(marks::MFM, 1_088);

impl<const MARK: usize> Rules<MARK> {
    const fn new(marks: Marks<MARK>, window: usize) -> Self {
        let (identifier, data) = (number(&marks.identifier.image), number(&marks.data.image));
        let (control, open) = (number(&marks.control.image), number(&marks.open.image));
        let identifiers = Wanted::new([identifier]);
        let all = Wanted::new([identifier, data, control, open]);
        Rules { marks, identifier, data, open, identifiers, all, window }
    }

    /// The kind of a mark that is no identifier mark.
    fn kind(&self, mark: u64) -> Kind {
        if mark == self.data {
            Kind::Data
        } else if mark == self.open {
            Kind::Open
        } else {
            Kind::Control
        }
    }
}

struct Walk<'a, M, const MARK: usize> {
    rules: &'static Rules<MARK>,
    track: Track<'a>,
    meets: &'a mut M,
    /// What the mark leaves in the register, once for all identifiers.
    identifier: u16,
}

impl<'a, M: Meets, const MARK: usize> Walk<'a, M, MARK> {
    fn new(rules: &'static Rules<MARK>, track: Track<'a>, meets: &'a mut M) -> Self {
        Walk { rules, track, meets, identifier: edc(rules.marks.identifier.bytes) }
    }

    fn run(mut self) {
        let mut cell = 0;
        while let Some(next) = self.step(cell) {
            cell = next;
        }
    }

    fn cells(&self) -> usize {
        8 * self.track.image.len()
    }

    /// Steps 1 and 2: the next identifier, and where the walk goes on, if it does.
    fn step(&mut self, from: usize) -> Option<usize> {
        let image = self.track.image;
        let (mark, _) = self.rules.identifiers.first(image, from..self.cells())?;
        let address = mark + 8 * MARK;
        let end = address + ADDRESS + EDC;
        if end > self.cells() {
            return None;
        }
        let mut bytes = [0; 4];
        decode(image, address, &mut bytes);
        if continued(self.identifier, &bytes) != stored(image, address + ADDRESS) {
            self.meets.bad();
            return Some(address);
        }
        match self.sector(bytes) {
            Some(sector) => self.accepted(sector, end),
            None => {
                self.meets.foreign();
                Some(end)
            }
        }
    }

    /// The index of the sector that an address names, if it is one of this track's.
    fn sector(&self, [cylinder, side, number, fourth]: [u8; 4]) -> Option<usize> {
        let Track { layout, cylinder: own, side: own_side, .. } = self.track;
        let is_own = (cylinder, side, fourth) == (own, own_side, layout.fourth);
        // number 0 becomes a large one
        let sector = usize::from(number).wrapping_sub(1);
        (is_own && sector < layout.sectors).then_some(sector)
    }

    /// Steps 3 and 4: an accepted identifier, whose EDC ends before a cell.
    fn accepted(&mut self, sector: usize, from: usize) -> Option<usize> {
        let found = self.rules.all.first(self.track.image, from..from + self.rules.window + 1);
        let (found, next) = match found.filter(|&(_, mark)| mark != self.rules.identifier) {
            Some((place, mark)) => self.block(place, mark),
            None => (Found::Nothing, Some(from)),
        };
        self.meets.accepted(sector, found);
        next
    }

    /// The block behind a mark, and where the walk goes on.
    fn block(&self, place: usize, mark: u64) -> (Found, Option<usize>) {
        let bytes = place + 8 * MARK;
        let end = bytes + BYTE * self.track.layout.size + EDC;
        if end > self.cells() {
            return (Found::Cut { mark: place }, None);
        }
        (Found::Block { kind: self.rules.kind(mark), mark: place, bytes }, Some(end))
    }
}

/// The EDC that stands at a cell.
fn stored(image: &[u8], cell: usize) -> u16 {
    u16::from_be_bytes([data_byte(image, cell), data_byte(image, cell + BYTE)])
}

/// The data bytes from a cell on. An EDC follows them, so the image goes on for at least one byte.
#[inline(always)]
fn decode(image: &[u8], cell: usize, bytes: &mut [u8]) {
    let (from, shift) = (cell / 8, cell % 8);
    let length = 2 * bytes.len();
    let octets = image[from..from + length].chunks_exact(2);
    let later = image[from + 1..from + 1 + length].chunks_exact(2);
    // of each octet as it stands on the track the upper cells come from one byte and the lower ones from the next
    let upper = (0xFF_u16 << shift & 0xFF) * 0x0101;
    for ((byte, octets), later) in bytes.iter_mut().zip(octets).zip(later) {
        let pair = |octets: &[u8]| u16::from_le_bytes([octets[0], octets[1]]);
        *byte = together(pair(octets) << shift & upper | pair(later) >> (8 - shift) & !upper);
    }
}

/// The data cells of two octets, the first of them in the lower half, as a byte. In this order of the halves LLVM makes
/// vector code of them, without turning them round.
fn together(octets: u16) -> u8 {
    let mut bits = octets & 0x5555;
    bits = (bits | bits >> 1) & 0x3333;
    bits = (bits | bits >> 2) & 0x0F0F;
    (bits << 4 | bits >> 8) as u8
}
