//! The reader (01, "How a track is read", "Refused calls"; 02, requests 04 and 06): one walk over the image, and each
//! block goes straight into its slot, its doubtful clocks counted in the same pass.
use super::clocks::decode;
use super::coding::Mode;
use super::edc::{continued, edc};
use super::layouts::Layout;
use super::marks::{self, LETTER_D, LETTER_F};
use super::records::{at, doubtful, has_bytes, nowhere};
use super::walk::{walk, Found, Kind, Meets, Track, BYTE};
use crate::station::{Reading, Record};

/// Reads a track. Answers 0, or the number of the refusal. Nothing is left of what area and reading held: slots and
/// records stand by sector number, the counts are those of bad and foreign identifiers, all else is zero.
#[inline(never)]
pub fn read(layout: u32, cylinder: u32, side: u32, image: &[u8], area: &mut [u8], reading: &mut Reading) -> u8 {
    *reading = Reading::default();
    let track = match accepted(layout, cylinder, side, image, area) {
        Ok(track) => track,
        Err(number) => {
            area.fill(0);
            return number;
        }
    };
    let layout = track.layout;
    let Reading { records, counts } = reading;
    let records = &mut records[..layout.sectors];
    records.fill(nowhere(21));
    let (data, control) = match layout.mode {
        Mode::Fm => (marks::FM.data.bytes, marks::FM.control.bytes),
        Mode::Mfm => (marks::MFM.data.bytes, marks::MFM.control.bytes),
    };
    let (data, control) = (edc(data), edc(control));
    let (cylinder, &Layout { mode, size, .. }) = (track.cylinder, layout);
    walk(track, &mut Filling { image, cylinder, mode, size, data, control, area, records, counts });
    let slots = area.chunks_exact_mut(layout.size).zip(records);
    slots.filter(|(_, record)| !has_bytes(record.answer)).for_each(|(slot, _)| slot.fill(0));
    0
}

/// The track, if the call is not refused.
fn accepted<'a>(layout: u32, cylinder: u32, side: u32, image: &'a [u8], area: &[u8]) -> Result<Track<'a>, u8> {
    let track = Track::new(layout, cylinder, side, image)?;
    if area.len() != track.layout.area_bytes() {
        return Err(5);
    }
    Ok(track)
}

/// What the walk fills.
struct Filling<'a> {
    image: &'a [u8],
    cylinder: u8,
    mode: Mode,
    size: usize,
    /// What the marks leave in the register, once for all blocks.
    data: u16,
    control: u16,
    area: &'a mut [u8],
    records: &'a mut [Record],
    counts: &'a mut [u32; 2],
}

impl Meets for Filling<'_> {
    fn bad(&mut self) {
        self.counts[0] += 1;
    }

    fn foreign(&mut self) {
        self.counts[1] += 1;
    }

    fn accepted(&mut self, sector: usize, found: Found) {
        let found = match found {
            Found::Nothing => nowhere(23),
            Found::Cut { mark } => at(24, mark),
            Found::Block { kind, mark, bytes } => self.block(sector, kind, mark, bytes),
        };
        let record = &mut self.records[sector];
        *record = if record.answer == 21 { found } else { nowhere(22) };
    }
}

impl Filling<'_> {
    /// The record of a whole block, as if no other had its number. A slot that its answer gives no bytes is cleared later.
    fn block(&mut self, sector: usize, kind: Kind, mark: usize, from: usize) -> Record {
        let (slot, mut edc) = (&mut self.area[sector * self.size..][..self.size], [0; 2]);
        let of_data = decode(self.mode, self.image, from, slot);
        let of_edc = decode(self.mode, self.image, from + BYTE * self.size, &mut edc);
        doubtful(self.answer(sector, kind, u16::from_be_bytes(edc)), mark, of_data + of_edc)
    }

    /// The answer of a block whose bytes are in their slot, and this EDC behind them.
    fn answer(&mut self, sector: usize, kind: Kind, stored: u16) -> u32 {
        let register = match kind {
            Kind::Data => self.data,
            Kind::Control => self.control,
            Kind::Open => return 25,
        };
        let slot = &mut self.area[sector * self.size..][..self.size];
        let is_right = continued(register, slot) == stored;
        match (kind, self.cylinder, slot[0]) {
            // the sector contains a defective area, and its EDC may be right or wrong: nothing but the letter is handed on
            (Kind::Control, 1.., LETTER_F) => {
                slot[1..].fill(0);
                3
            }
            _ if !is_right => 26,
            (Kind::Control, 0, letter) if letter != LETTER_D => 27,
            (Kind::Control, ..) => 2,
            _ => 1,
        }
    }
}
