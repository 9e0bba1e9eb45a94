//! The pick from two passes (01, "Two passes", "Refused calls"; 02, requests 01 and 04).
use super::layouts::LAYOUTS;
use super::records::{has_bytes, is_answer};
use crate::station::{Pass, Record};

/// What is handed back for one sector.
#[derive(Clone, Copy, Debug, PartialEq, Eq)]
pub enum Pick<'a> {
    /// The first pass answered 1, 2 or 3: its record and its slot.
    First(Record, &'a [u8]),
    /// Only the second did.
    Second(Record, &'a [u8]),
    /// Neither did: the first pass's record.
    Neither(Record),
    /// The call was refused by this number.
    Refused(u8),
}

/// Picks a sector from two passes. A slot is handed out by its answer alone.
#[inline]
pub fn pick<'a>(layout: u32, sector: u32, first: Pass<'a>, second: Pass<'a>) -> Pick<'a> {
    let layout = match LAYOUTS.get(layout as usize) {
        Some(layout) => layout,
        None => return Pick::Refused(4),
    };
    if sector == 0 || sector as usize > layout.sectors {
        return Pick::Refused(9);
    }
    if first.area.len() != layout.area_bytes() || second.area.len() != layout.area_bytes() {
        return Pick::Refused(5);
    }
    let index = sector as usize - 1;
    let slot = index * layout.size..(index + 1) * layout.size;
    let (one, two) = (first.records[index], second.records[index]);
    match (one.answer, two.answer) {
        (answer, _) if has_bytes(answer) => Pick::First(one, &first.area[slot]),
        (_, answer) if has_bytes(answer) => Pick::Second(two, &second.area[slot]),
        (answer, _) if is_answer(answer) => Pick::Neither(one),
        // no answer's number stands for a sector that was never met
        _ => Pick::Neither(Record { answer: 21, ..one }),
    }
}

/// A pick in numbers: layout, sector, first and second pass, what is taken, the record that is handed on.
pub type Picker = fn(u32, u32, Pass, Pass, &mut [u32; 3], &mut Record) -> u8;

/// The same in numbers: the answer's or the refusal's. What is taken is the pass, 1 or 2, the first byte of its slot in
/// that pass's area, and the slot's length; or three zeros. A refusal hands on no record, but zeros.
#[inline]
pub fn taken(layout: u32, sector: u32, first: Pass, second: Pass, taken: &mut [u32; 3], record: &mut Record) -> u8 {
    let part = |pass, slot: &[u8]| [pass, (sector - 1) * slot.len() as u32, slot.len() as u32];
    let (number, part, handed_on) = match pick(layout, sector, first, second) {
        Pick::First(one, slot) => (one.answer as u8, part(1, slot), one),
        Pick::Second(two, slot) => (two.answer as u8, part(2, slot), two),
        Pick::Neither(one) => (one.answer as u8, [0; 3], one),
        Pick::Refused(number) => (number, [0; 3], Record::default()),
    };
    (*taken, *record) = (part, handed_on);
    number
}
