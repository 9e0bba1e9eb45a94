//! The rewrite of a sector (01, "Rewriting a sector", "Refused calls"): a request walks over the track and notes the
//! block's place, and each step makes one store.
use super::coding::{after, Mode};
use super::edc::{continued, edc};
use super::layouts::{readable, Layout, LAYOUTS};
use super::marks::{Mark, Marks, CONTROL, DATA, FM, LETTER_D, MFM};
use super::walk::{walk, Found, Meets, Track};

/// The layout, the cell at which the block's mark begins, the stores made, the stores in all.
pub type Plan = [u32; 4];

/// A request: layout, cylinder, side, sector, mark, contents, image, plan.
pub type Request = fn(u32, u32, u32, u32, u32, &[u8], &[u8], &mut Plan) -> u8;

/// A step: plan, mark, contents, image.
pub type Step = fn(&mut Plan, u32, &[u8], &mut [u8]) -> u8;

/// Asks for a rewrite. Answers 0, and the plan is made; or the number of the refusal, and the plan is zero.
#[inline(never)]
#[allow(clippy::too_many_arguments)]
pub fn request(
    layout: u32,
    cylinder: u32,
    side: u32,
    sector: u32,
    mark: u32,
    contents: &[u8],
    image: &[u8],
    plan: &mut Plan,
) -> u8 {
    let track = Track::new(layout, cylinder, side, image);
    match track.and_then(|track| found(track, sector, mark, contents)) {
        Ok((place, stores)) => {
            *plan = [layout, place as u32, 0, stores as u32];
            0
        }
        Err(number) => {
            *plan = [0; 4];
            number
        }
    }
}

/// The cell at which the block's mark begins, and the number of stores.
fn found(track: Track, sector: u32, mark: u32, contents: &[u8]) -> Result<(usize, usize), u8> {
    let Track { layout, cylinder, image, .. } = track;
    // number 0 becomes a large one
    let sector = (sector as usize).wrapping_sub(1);
    if sector >= layout.sectors {
        return Err(9);
    }
    let mark = writable(layout, mark, contents)?;
    if cylinder == 0 && mark == CONTROL && contents[0] != LETTER_D {
        return Err(7);
    }
    let mut search = Search { sector, times: 0, place: None };
    walk(track, &mut search);
    let place = search.place.ok_or(10)?;
    if place % 8 != 0 {
        return Err(11);
    }
    let mark = match layout.mode {
        Mode::Fm => FM.data.image.len(),
        Mode::Mfm => MFM.data.image.len(),
    };
    let end = place / 8 + mark + block_bytes(contents);
    Ok((place, stores(layout.mode, contents, end < image.len())))
}

/// The mark, or the first of the refusals 5 and 6.
fn writable(layout: &Layout, mark: u32, contents: &[u8]) -> Result<u8, u8> {
    if contents.len() != layout.size {
        return Err(5);
    }
    if mark != DATA.into() && mark != CONTROL.into() {
        return Err(6);
    }
    Ok(mark as u8)
}

/// The image bytes of a block with its EDC, but without its mark.
fn block_bytes(contents: &[u8]) -> usize {
    2 * contents.len() + 4
}

/// The number of stores: one for each byte of the block, two for its mark, and in MFM one for the byte that follows, if
/// one does.
fn stores(mode: Mode, contents: &[u8], follows: bool) -> usize {
    block_bytes(contents) + 2 + usize::from(mode == Mode::Mfm && follows)
}

/// The search for the block of one sector.
struct Search {
    sector: usize,
    /// Accepted identifiers of the sector.
    times: usize,
    /// Where the mark of its block begins, if it has one identifier and a whole block.
    place: Option<usize>,
}

impl Meets for Search {
    fn accepted(&mut self, sector: usize, found: Found) {
        if sector == self.sector {
            self.place = match found {
                Found::Block { mark, .. } if self.times == 0 => Some(mark),
                _ => None,
            };
            self.times += 1;
        }
    }
}

/// Makes the next store. Answers 0, and the plan has moved on; or the number of the refusal, which leaves everything as
/// it was. Whatever stands in the plan, its fourth number is not looked at.
#[inline(never)]
pub fn step(plan: &mut Plan, mark: u32, contents: &[u8], image: &mut [u8]) -> u8 {
    match made(*plan, mark, contents, image) {
        Ok(stores) => {
            plan[2] += 1;
            plan[3] = stores as u32;
            0
        }
        Err(number) => number,
    }
}

/// Makes the store, and hands back the number of stores in all.
fn made([layout, place, made, _]: Plan, mark: u32, contents: &[u8], image: &mut [u8]) -> Result<usize, u8> {
    let layout = LAYOUTS.get(layout as usize).ok_or(4)?;
    readable(image)?;
    let mark = writable(layout, mark, contents)?;
    let (place, made) = (place as usize, made as usize);
    match layout.mode {
        Mode::Fm => Block { mode: Mode::Fm, marks: &FM, mark, contents }.store(place, made, image),
        Mode::Mfm => Block { mode: Mode::Mfm, marks: &MFM, mark, contents }.store(place, made, image),
    }
}

/// What is to stand in a block. A mark takes `MARK` image bytes.
struct Block<'a, const MARK: usize> {
    mode: Mode,
    marks: &'static Marks<MARK>,
    mark: u8,
    contents: &'a [u8],
}

// All is inlined, so that each mode gets code of its own, which has the block in registers.
impl<const MARK: usize> Block<'_, MARK> {
    /// Makes a store, if a mark stands at the cell with a whole block behind it, and if the store is not past the last:
    /// refusals 13 and 12. Hands back the number of stores in all.
    #[inline(always)]
    fn store(&self, place: usize, made: usize, image: &mut [u8]) -> Result<usize, u8> {
        let from = place / 8 + MARK;
        let end = from + block_bytes(self.contents);
        if place % 8 != 0 || end > image.len() || !self.begins(&image[from - MARK..from]) {
            return Err(13);
        }
        let stores = stores(self.mode, self.contents, end < image.len());
        if made >= stores {
            return Err(12);
        }
        // the block's own stores are in the middle, each one byte further on
        let (last, at) = (from - 1, from - 1 + made);
        if made == 0 {
            image[last] = self.marks.open.image[MARK - 1];
        } else if at < end {
            image[at] = self.octet(made - 1);
        } else if made + 1 == stores {
            image[last] = self.new_mark().image[MARK - 1];
        } else {
            image[end] = self.following(image[end]);
        }
        Ok(stores)
    }

    /// Whether image bytes are a mark before a block.
    #[inline(always)]
    fn begins(&self, octets: &[u8]) -> bool {
        let Marks { data, control, open, .. } = self.marks;
        octets == open.image || octets == data.image || octets == control.image
    }

    #[inline(always)]
    fn new_mark(&self) -> &'static Mark<MARK> {
        if self.mark == CONTROL {
            &self.marks.control
        } else {
            &self.marks.data
        }
    }

    /// An image byte of the block.
    #[inline(always)]
    fn octet(&self, at: usize) -> u8 {
        let [first, second] = match (at / 2).checked_sub(self.contents.len()) {
            None => self.data_pair(at / 2),
            Some(byte) => self.edc_pair(byte),
        };
        if at % 2 == 0 {
            first
        } else {
            second
        }
    }

    /// The image bytes of a data byte.
    #[inline(always)]
    fn data_pair(&self, byte: usize) -> [u8; 2] {
        let last = if byte == 0 { self.mark } else { self.contents[byte - 1] };
        after(self.mode, last, self.contents[byte])
    }

    /// The image bytes of the EDC's first or second byte.
    #[inline(always)]
    fn edc_pair(&self, byte: usize) -> [u8; 2] {
        let [high, low] = self.edc().to_be_bytes();
        if byte == 0 {
            after(self.mode, self.contents[self.contents.len() - 1], high)
        } else {
            after(self.mode, high, low)
        }
    }

    /// What the byte behind the block becomes: its first clock cell follows the EDC's last bit, if its first data cell
    /// is 0. If that is 1 nothing changes, since a cleared clock cell could be the first of an identifier mark.
    #[inline(always)]
    fn following(&self, octet: u8) -> u8 {
        let (clock, data) = (0x80, 0x40);
        if octet & data != 0 {
            octet
        } else if self.edc() & 1 == 0 {
            octet | clock
        } else {
            octet & !clock
        }
    }

    #[inline(always)]
    fn edc(&self) -> u16 {
        covering(self.new_mark().bytes, self.contents)
    }
}

/// The EDC of a mark and the contents.
#[inline(never)]
fn covering(mark: &[u8], contents: &[u8]) -> u16 {
    continued(edc(mark), contents)
}
