//! Reading once more, word for word and cell by cell (01, "How a track is read"): slow, to check the fast reader by.
use super::annex::edc;
use super::coding::Mode;
use super::layouts::{of_track, Layout};
use super::marks::{Mark, Marks, FM, MFM};
use super::plain_clocks::bytes;
use super::records::{at, doubtful, nowhere};
use crate::station::{Reading, Record};

/// Reads a track, as `read::read` does.
pub fn read(layout: u32, cylinder: u32, side: u32, image: &[u8], area: &mut [u8], reading: &mut Reading) -> u8 {
    area.fill(0);
    *reading = Reading::default();
    let layout = match of_track(layout, cylinder, side) {
        Err(number) => return number,
        Ok(_) if !(1..=24_576).contains(&image.len()) => return 1,
        Ok(layout) if area.len() != layout.sectors * layout.size => return 5,
        Ok(layout) => layout,
    };
    let met = met(layout, cylinder, side, image);
    reading.counts = [met.bad, met.foreign];
    for number in 1..=layout.sectors {
        let accepted: Vec<_> = met.accepted.iter().filter(|accepted| accepted.sector == number).collect();
        reading.records[number - 1] = match accepted[..] {
            [] => nowhere(21),
            [only] => only.record,
            _ => nowhere(22),
        };
        if let [Accepted { bytes, .. }] = accepted[..] {
            area[(number - 1) * layout.size..][..bytes.len()].copy_from_slice(bytes);
        }
    }
    0
}

/// What the walk meets.
#[derive(Default)]
pub(super) struct Met {
    bad: u32,
    foreign: u32,
    pub(super) accepted: Vec<Accepted>,
}

/// An accepted identifier, with what its block gives.
pub(super) struct Accepted {
    pub(super) sector: usize,
    /// The sector's, if it has no other identifier.
    pub(super) record: Record,
    /// The data, where the answer says that it is to be had.
    bytes: Vec<u8>,
}

impl Accepted {
    fn refused(sector: usize, record: Record) -> Accepted {
        Accepted { sector, record, bytes: vec![] }
    }
}

/// The whole walk.
pub(super) fn met(layout: &Layout, cylinder: u32, side: u32, image: &[u8]) -> Met {
    let (mut met, own) = (Met::default(), [cylinder as u8, side as u8, layout.fourth]);
    match layout.mode {
        Mode::Fm => walk(&FM, 544, layout, own, image, &mut met),
        Mode::Mfm => walk(&MFM, 1_088, layout, own, image, &mut met),
    };
    met
}

/// The walk from cell 0, as long as it goes on. `own` are the track's cylinder, side and fourth address byte.
fn walk<const MARK: usize>(
    marks: &Marks<MARK>,
    window: usize,
    layout: &Layout,
    own: [u8; 3],
    image: &[u8],
    met: &mut Met,
) -> Option<()> {
    let (cells, mut cell) = (8 * image.len(), 0);
    loop {
        // 1
        let mark = (cell..cells).find(|&place| stands(image, &marks.identifier, place))?;
        cell = mark + 8 * MARK;
        let (six, _) = (cells - cell >= 96).then(|| bytes(layout.mode, image, cell, last_bit(&marks.identifier), 6))?;
        // 2
        if edc(&[marks.identifier.bytes, &six].concat()) != 0 {
            met.bad += 1;
            continue;
        }
        cell += 96;
        let sector = usize::from(six[2]);
        if [six[0], six[1], six[3]] != own || !(1..=layout.sectors).contains(&sector) {
            met.foreign += 1;
            continue;
        }
        // 3
        let kinds = [&marks.identifier, &marks.data, &marks.control, &marks.open];
        let kind_at = |place| kinds.iter().position(|mark| stands(image, mark, place));
        let found = (cell..=cell + window).find_map(|place| Some((place, kind_at(place)?)));
        let (place, kind) = found.unwrap_or((cell, 0));
        if kind == 0 {
            met.accepted.push(Accepted::refused(sector, nowhere(23)));
            continue;
        }
        // 4
        cell = place + 8 * MARK + 16 * (layout.size + 2);
        if cell > cells {
            met.accepted.push(Accepted::refused(sector, at(24, place)));
            return None;
        }
        // request 06: "the sum for its block's N + 2 bytes", and "the bit before the first byte is the mark's last"
        let before = last_bit(kinds[kind]);
        let (block, clocks) = bytes(layout.mode, image, place + 8 * MARK, before, layout.size + 2);
        let at = |answer, place| doubtful(answer, place, clocks);
        let is_right = edc(&[kinds[kind].bytes, &block].concat()) == 0;
        let (is_control, first, is_cylinder_0) = (kind == 2, block[0], own[0] == 0);
        met.accepted.push(match kind {
            3 => Accepted::refused(sector, at(25, place)),
            // request 04: "answers 3, defective area, with either EDC, and its slot holds F followed by zeros"
            _ if is_control && first == 0x46 && !is_cylinder_0 => {
                let mut bytes = vec![0; layout.size];
                bytes[0] = 0x46;
                Accepted { sector, record: at(3, place), bytes }
            }
            _ if !is_right => Accepted::refused(sector, at(26, place)),
            // "27 on cylinder 0, mark F8 and EDC right, but first byte not D"
            _ if is_control && first != 0x44 && is_cylinder_0 => Accepted::refused(sector, at(27, place)),
            _ => Accepted { sector, record: at(kind as u32, place), bytes: block[..layout.size].to_vec() },
        });
    }
}

/// Whether a cell of the image is 1.
pub(super) fn is_one(image: &[u8], cell: usize) -> bool {
    image[cell / 8] >> (7 - cell % 8) & 1 == 1
}

/// Whether a mark stands at a place: all its cells, in the image.
pub(super) fn stands<const MARK: usize>(image: &[u8], mark: &Mark<MARK>, place: usize) -> bool {
    let is_inside = place + 8 * MARK <= 8 * image.len();
    is_inside && (0..8 * MARK).all(|cell| is_one(image, place + cell) == is_one(&mark.image, cell))
}

/// The last bit of what a mark stands for.
fn last_bit<const MARK: usize>(mark: &Mark<MARK>) -> bool {
    mark.bytes.last().expect("a mark's byte") % 2 == 1
}
