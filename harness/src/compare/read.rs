//! Calls of a reader, and how the two sides are held against each other on one of them.
use super::read_back;
use crate::reference::dump::Reader;
use crate::reference::read::read;
use crate::reference::records::{at, is_answer};
use crate::rng::Rng;
use crate::station::{self, Reading, Record, MOST_SECTORS, NO_PLACE};
use crate::tally::met::Row;
use crate::tally::Tally;
use crate::tracks::Track;
use std::fmt;

/// All that is handed to a reader but what it fills.
#[derive(Clone)]
pub struct Call {
    pub track: Track,
    pub image: Vec<u8>,
    /// The length of the lent area.
    pub area: usize,
}

impl Call {
    /// With an area of the right length.
    pub fn new(track: Track, image: Vec<u8>) -> Call {
        Call { track, image, area: track.layout().area_bytes() }
    }

    /// What a reader makes of it. Before the call everything lent is full of something else, and so is what stands
    /// around the area.
    pub fn outcome(&self, rng: &mut Rng, reader: Reader) -> Outcome {
        let Track { layout, cylinder, side } = self.track;
        // at any alignment
        let (before, after) = (rng.below(16), rng.below(16));
        let image = [&vec![0x44; before], &self.image[..]].concat();
        let lent = garbage(rng, before + self.area + after);
        let mut area = lent.clone();
        let mut reading =
            Reading { records: [0; MOST_SECTORS].map(|_| any_record(rng)), counts: [rng.bits() as u32 | 1; 2] };
        let slots = before..before + self.area;
        let number = reader(layout, cylinder, side, &image[before..], &mut area[slots.clone()], &mut reading);
        assert_eq!(area[..before], lent[..before], "bytes before the area: {self:?}");
        assert_eq!(area[slots.end..], lent[slots.end..], "bytes after the area: {self:?}");
        Outcome { number, reading, area: area[slots].to_vec() }
    }
}

/// Bytes of which none is 0.
pub(super) fn garbage(rng: &mut Rng, length: usize) -> Vec<u8> {
    let eight = rng.bits().to_le_bytes().map(|byte| byte | 1);
    let mut bytes = eight.repeat(length / 8 + 1);
    bytes.truncate(length);
    bytes
}

/// A record of any numbers but 0.
pub fn any_record(rng: &mut Rng) -> Record {
    let mut any = || rng.bits() as u32 | 1;
    Record { answer: any(), place: any(), clocks: any() }
}

/// What comes back from a reader.
#[derive(Clone, PartialEq, Eq)]
pub struct Outcome {
    pub number: u8,
    pub reading: Reading,
    pub area: Vec<u8>,
}

impl Outcome {
    /// That of a refused call.
    pub fn refused(number: u8, area: usize) -> Outcome {
        Outcome { number, reading: Reading::default(), area: vec![0; area] }
    }

    /// What the library reads from an image, which it has to accept.
    pub fn of_image(track: Track, image: &[u8]) -> Outcome {
        let Track { layout, cylinder, side } = track;
        // what is lent holds something else before
        let reading =
            Reading { records: [Record { answer: 99, place: 99, clocks: 99 }; MOST_SECTORS], counts: [99; 2] };
        let mut outcome = Outcome { number: 99, reading, area: vec![99; track.layout().area_bytes()] };
        outcome.number = station::read(layout, cylinder, side, image, &mut outcome.area, &mut outcome.reading);
        assert_eq!(outcome.number, 0, "refusal of the reader: {track:?}");
        outcome
    }

    /// The sectors that can be rewritten, if their marks stand on byte boundaries.
    pub fn whole(&self) -> Vec<usize> {
        let is_whole = |answer| is_answer(answer) && !(21..=24).contains(&answer);
        let records = (1..).zip(self.reading.records);
        records.filter(|(_, record)| is_whole(record.answer)).map(|(sector, _)| sector).collect()
    }

    /// That of a track with these contents, formatted.
    pub fn of_contents(track: Track, data: &[u8], marks: &[u8]) -> Outcome {
        let (mut reading, mut area) = (Reading::default(), Vec::new());
        for (sector, (bytes, &mark)) in (1..).zip(data.chunks(track.layout().size).zip(marks)) {
            let ((_, place), (answer, slot)) = (track.places(sector), read_back(track.cylinder, mark.into(), bytes));
            reading.records[sector - 1] = at(answer, 8 * place);
            area.extend(slot);
        }
        assert_eq!(marks.len(), track.layout().sectors);
        Outcome { number: 0, reading, area }
    }

    /// That of the same track where it begins some cells later.
    pub fn later(mut self, cells: usize) -> Outcome {
        let sectors = self.reading.records.iter_mut().filter(|record| record.answer > 0);
        sectors.filter(|record| record.place != NO_PLACE).for_each(|record| record.place += cells as u32);
        self
    }

    /// Counts one input with this outcome. Answers past the layout's count and those of a refused call are 0.
    pub fn count(&self, tally: &mut Tally) {
        tally.input();
        tally.met(Row::Read, self.number);
        for record in self.reading.records.iter().filter(|record| record.answer > 0) {
            tally.met(Row::Answer, record.answer);
            if record.clocks > 0 {
                tally.met(Row::Doubtful, record.answer);
            }
        }
        let [bad, foreign] = self.reading.counts.map(u64::from);
        tally.met_times(Row::Identifier, 0, bad);
        tally.met_times(Row::Identifier, 1, foreign);
    }
}

impl fmt::Debug for Outcome {
    fn fmt(&self, f: &mut fmt::Formatter) -> fmt::Result {
        let Reading { records, counts } = self.reading;
        let records = records.map(|Record { answer, place, clocks }| (answer, place, clocks));
        write!(f, "{}, answers, places and clocks {records:?}, counts {counts:?}", self.number)
    }
}

impl fmt::Debug for Call {
    fn fmt(&self, f: &mut fmt::Formatter) -> fmt::Result {
        let Call { track, image, area } = self;
        write!(f, "{track:?}, area of {area} bytes, image of {} bytes", image.len())?;
        if image.len() <= 4_096 {
            write!(f, ": ")?;
            image.iter().try_for_each(|octet| write!(f, "{octet:02X}"))?;
        }
        Ok(())
    }
}

/// Holds the library against the reference on one call, and hands back their outcome.
pub fn compare(tally: &mut Tally, rng: &mut Rng, call: &Call) -> Outcome {
    let expected = call.outcome(rng, read);
    agrees(call, &call.outcome(rng, station::read), &expected);
    expected.count(tally);
    expected
}

/// Says where two outcomes of a call differ, if they do.
pub fn agrees(call: &Call, found: &Outcome, expected: &Outcome) {
    let slots = |outcome: &Outcome| Outcome { area: vec![], ..outcome.clone() };
    assert_eq!(slots(found), slots(expected), "{call:?}");
    let mut bytes = found.area.iter().zip(&expected.area).enumerate();
    if let Some((at, (found, expected))) = bytes.find(|(_, (found, expected))| found != expected) {
        panic!("byte {at} of the area is {found:02X}, not {expected:02X}: {call:?}");
    }
}
