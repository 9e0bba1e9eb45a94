//! Rewriting once more, word for word and cell by cell (01, "Rewriting a sector", "Refused calls"): the stores as a
//! list, of which each step takes one. Slow, to check the fast rewrite by.
use super::annex::edc;
use super::coding::Mode;
use super::layouts::{of_track, Layout, LAYOUTS};
use super::marks::{Marks, FM, MFM};
use super::plain::{met, stands};
use super::rewrite::Plan;

/// An image byte, and what it becomes.
pub type Store = (usize, u8);

/// All stores, for the block whose mark begins at a cell.
pub fn stores(layout: u32, image: &[u8], place: usize, mark: u32, contents: &[u8]) -> Vec<Store> {
    match LAYOUTS[layout as usize].mode {
        Mode::Fm => listed(&FM, Mode::Fm, image, place, mark, contents),
        Mode::Mfm => listed(&MFM, Mode::Mfm, image, place, mark, contents),
    }
}

fn listed<const MARK: usize>(
    marks: &Marks<MARK>,
    mode: Mode,
    image: &[u8],
    place: usize,
    mark: u32,
    contents: &[u8],
) -> Vec<Store> {
    let new = if mark == 0xFB { &marks.data } else { &marks.control };
    let edc = edc(&[new.bytes, contents].concat());
    let bytes = [contents, &edc.to_be_bytes()].concat();
    let last = place / 8 + MARK - 1;
    let behind = last + 1 + 2 * bytes.len();

    let mut stores = vec![(last, marks.open.image[MARK - 1])];
    // the marks' last bits are those of their bytes: (FB) ends in ONE, (F8) in ZERO
    stores.extend((last + 1..).zip(coded(mode, mark == 0xFB, &bytes)));
    if mode == Mode::Mfm && behind < image.len() {
        stores.push((behind, clocked(image[behind], edc % 2 == 0)));
    }
    stores.push((last, new.image[MARK - 1]));
    stores
}

/// The image bytes of bytes after a bit.
fn coded(mode: Mode, before: bool, bytes: &[u8]) -> Vec<u8> {
    let (mut cells, mut before) = (Vec::new(), before);
    for bit in bytes.iter().flat_map(|byte| (0..8).map(move |at| byte >> (7 - at) & 1 == 1)) {
        let clock = mode == Mode::Fm || !before && !bit;
        cells.extend([clock, bit]);
        before = bit;
    }
    cells.chunks(8).map(|cells| cells.iter().fold(0, |octet, &cell| octet << 1 | u8::from(cell))).collect()
}

/// The byte behind a block, by whether the EDC's last bit is ZERO.
fn clocked(octet: u8, is_zero: bool) -> u8 {
    match (octet >> 6 & 1, is_zero) {
        (1, _) => octet,
        (_, true) => octet % 128 + 128,
        (_, false) => octet % 128,
    }
}

/// Asks for a rewrite, as `rewrite::request` does.
#[allow(clippy::too_many_arguments)]
pub fn request(
    layout: u32,
    cylinder: u32,
    side: u32,
    sector: u32,
    mark: u32,
    contents: &[u8],
    image: &[u8],
    plan: &mut Plan,
) -> u8 {
    *plan = [0; 4];
    let accepted = match of_track(layout, cylinder, side) {
        Err(number) => return number,
        Ok(_) if !(1..=24_576).contains(&image.len()) => return 1,
        Ok(found) if !(1..=found.sectors).contains(&(sector as usize)) => return 9,
        Ok(found) if contents.len() != found.size => return 5,
        Ok(_) if ![0xFB, 0xF8].contains(&mark) => return 6,
        Ok(_) if cylinder == 0 && mark == 0xF8 && contents[0] != 0x44 => return 7,
        Ok(found) => met(found, cylinder, side, image).accepted,
    };
    let named: Vec<_> = accepted.iter().filter(|accepted| accepted.sector == sector as usize).collect();
    let place = match named[..] {
        [only] if ![23, 24].contains(&only.record.answer) => only.record.place as usize,
        _ => return 10,
    };
    if place % 8 != 0 {
        return 11;
    }
    *plan = [layout, place as u32, 0, stores(layout, image, place, mark, contents).len() as u32];
    0
}

/// Makes the next store, as `rewrite::step` does.
pub fn step(plan: &mut Plan, mark: u32, contents: &[u8], image: &mut [u8]) -> u8 {
    let (place, made) = (plan[1] as usize, plan[2] as usize);
    let is_block = match LAYOUTS.get(plan[0] as usize) {
        None => return 4,
        Some(_) if !(1..=24_576).contains(&image.len()) => return 1,
        Some(found) if contents.len() != found.size => return 5,
        Some(_) if ![0xFB, 0xF8].contains(&mark) => return 6,
        Some(found) if found.mode == Mode::Fm => is_block(&FM, found, image, place),
        Some(found) => is_block(&MFM, found, image, place),
    };
    if !is_block {
        return 13;
    }
    let stores = stores(plan[0], image, place, mark, contents);
    match stores.get(made) {
        None => 12,
        Some(&(at, octet)) => {
            image[at] = octet;
            (plan[2], plan[3]) = (plan[2] + 1, stores.len() as u32);
            0
        }
    }
}

/// Whether a data, control or open mark stands at a place on a byte boundary, and its block is whole.
fn is_block<const MARK: usize>(marks: &Marks<MARK>, layout: &Layout, image: &[u8], place: usize) -> bool {
    let end = place + 8 * MARK + 16 * (layout.size + 2);
    let kinds = [&marks.data, &marks.control, &marks.open];
    place % 8 == 0 && end <= 8 * image.len() && kinds.iter().any(|mark| stands(image, mark, place))
}
