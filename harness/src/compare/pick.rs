//! Picks from two passes, and how the two sides are held against each other on one of them.
use super::read::any_record;
use crate::reference::pick::{taken, Picker};
use crate::rng::Rng;
use crate::station::{self, Record, MOST_SECTORS, NO_PLACE};
use crate::tally::met::{Row, ANSWERS};
use crate::tally::Tally;
use crate::tracks::worn::LONGEST;
use crate::tracks::Track;

/// A pass over a track.
#[derive(Clone, PartialEq, Eq)]
pub struct Pass {
    pub area: Vec<u8>,
    pub records: [Record; MOST_SECTORS],
}

impl Pass {
    /// With an area full of one byte, and one record for all sectors.
    pub fn all(track: Track, byte: u8, record: Record) -> Pass {
        Pass { area: vec![byte; track.layout().area_bytes()], records: [record; MOST_SECTORS] }
    }

    pub fn lent(&self) -> station::Pass<'_> {
        station::Pass { area: &self.area, records: &self.records }
    }
}

/// All that is handed to a pick.
#[derive(Clone)]
pub struct Call {
    pub layout: u32,
    pub sector: u32,
    pub first: Pass,
    pub second: Pass,
}

/// What comes back from a pick.
#[derive(Clone, Copy, Debug, PartialEq, Eq)]
pub struct Outcome {
    pub number: u8,
    pub taken: [u32; 3],
    pub record: Record,
}

impl Outcome {
    /// The number is that of the record which is handed on.
    pub fn new(taken: [u32; 3], record: Record) -> Outcome {
        Outcome { number: record.answer as u8, taken, record }
    }

    /// That of a refused call.
    pub fn refused(number: u8) -> Outcome {
        Outcome { number, taken: [0; 3], record: Record::default() }
    }
}

impl Call {
    /// Random areas with random records.
    pub fn new(rng: &mut Rng, track: Track) -> Call {
        let mut pass = || {
            let records =
                [0; MOST_SECTORS].map(|_| Record { answer: answer(rng), place: place(rng), clocks: clocks(rng) });
            Pass { area: rng.bytes(track.layout().area_bytes()), records }
        };
        let (first, second) = (pass(), pass());
        let sector = 1 + rng.below(track.layout().sectors) as u32;
        Call { layout: track.layout, sector, first, second }
    }

    /// What comes of it on one side. All that is written held something else before.
    fn outcome(&self, rng: &mut Rng, picker: Picker) -> Outcome {
        let (mut taken, mut record) = ([0; 3].map(|_| rng.bits() as u32 | 1), any_record(rng));
        let (first, second) = (self.first.lent(), self.second.lent());
        let number = picker(self.layout, self.sector, first, second, &mut taken, &mut record);
        Outcome { number, taken, record }
    }
}

/// Every sixth or so is no answer: a byte, any number, or one whose low byte is an answer's.
fn answer(rng: &mut Rng) -> u32 {
    let right = u32::from(ANSWERS[rng.below(ANSWERS.len())]);
    match rng.below(18) {
        0 => rng.byte().into(),
        1 => rng.bits() as u32,
        2 => right | 1 << (8 + rng.below(24)),
        _ => right,
    }
}

/// Most often a cell of an image, whatever the answer beside it.
fn place(rng: &mut Rng) -> u32 {
    match rng.below(6) {
        0 => NO_PLACE,
        1 => rng.bits() as u32,
        _ => rng.below(8 * LONGEST) as u32,
    }
}

/// Most often what a block can have, whatever the answer beside it.
fn clocks(rng: &mut Rng) -> u32 {
    match rng.below(6) {
        0 => rng.bits() as u32,
        _ => rng.below(8 * (1_024 + 2) + 1) as u32,
    }
}

/// Holds the library against the reference on one call, and hands back their outcome.
pub fn compare(tally: &mut Tally, rng: &mut Rng, call: &Call) -> Outcome {
    let Call { layout, sector, first, second, .. } = call;
    let expected = call.outcome(rng, taken);
    let lent = call.clone();
    let found = lent.outcome(rng, station::pick);
    let (lengths, records) = ((first.area.len(), second.area.len()), (first.records, second.records));
    assert_eq!(found, expected, "layout {layout}, sector {sector}, areas of {lengths:?} bytes, records {records:?}");
    assert!(lent.first == *first && lent.second == *second, "a pass changed");
    tally.input();
    tally.met(row(expected), expected.number);
    expected
}

/// Where an outcome counts: by the pass that is taken, or as a refusal.
fn row(Outcome { number, taken: [pass, ..], .. }: Outcome) -> Row {
    match pass {
        1 => Row::First,
        2 => Row::Second,
        _ if number > 20 => Row::Neither,
        _ => Row::Pick,
    }
}
