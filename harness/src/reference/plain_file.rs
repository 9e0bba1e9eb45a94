//! The reading of a file word for word after 02, requests 03 and 04: a cursor that takes one byte after the other. Slow,
//! to check the fast reading by, and the writing too.
use super::layouts::{of_track, Layout};
use super::records::{has_bytes, is_answer};
use crate::station::Sections;

/// Reads a file, as `file::read` does.
pub fn read(file: &[u8], sections: &mut Sections) -> u8 {
    let mut cursor = Cursor { file, at: 0 };
    let [label, tracks, answers, data] = match cursor.sections() {
        Ok(found) => found,
        // "a refused file gives zeros for all of them"
        Err(number) => {
            *sections = Sections::default();
            return number;
        }
    };
    *sections = Sections {
        label_place: label.place as u32,
        label_count: label.count as u32,
        tracks_place: tracks.place as u32,
        tracks_count: tracks.count as u32,
        answers_place: answers.place as u32,
        answers_count: answers.count as u32,
        data_place: data.place as u32,
        data_count: data.count as u32,
    };
    0
}

/// "each section's place (past its count) and count"
struct Section {
    place: u64,
    count: u64,
}

struct Cursor<'a> {
    file: &'a [u8],
    at: u64,
}

impl Cursor<'_> {
    /// "31 a count or section passes the end"
    fn byte(&mut self) -> Result<u8, u8> {
        let byte = *self.file.get(self.at as usize).ok_or(31)?;
        self.at += 1;
        Ok(byte)
    }

    fn bytes(&mut self, count: u64) -> Result<Vec<u8>, u8> {
        (0..count).map(|_| self.byte()).collect()
    }

    /// "its count of four bytes, most significant first"
    fn count(&mut self) -> Result<Section, u8> {
        let count = self.bytes(4)?.iter().fold(0, |count, &byte| 256 * count + u64::from(byte));
        Ok(Section { place: self.at, count })
    }

    /// "four sections in fixed order"; the refusal is the one "first met in file order, each count judged before the
    /// length of its section".
    fn sections(&mut self) -> Result<[Section; 4], u8> {
        // "label bytes (0 to 80)"
        let label = self.count()?;
        is(label.count <= 80, 32)?;
        self.bytes(label.count)?;

        // "tracks (0 to 150), three bytes each (cylinder, side, layout)"
        let tracks = self.count()?;
        is(tracks.count <= 150, 32)?;
        let layouts = layouts(&self.bytes(3 * tracks.count)?)?;

        // "sector answers, one byte each, by track, then sector number"
        let answers = self.count()?;
        is(answers.count == layouts.iter().map(|layout| layout.sectors as u64).sum(), 33)?;
        let numbers = self.bytes(answers.count)?;
        is(numbers.iter().all(|&number| is_answer(number.into())), 33)?;

        // "data of those answered 1 or 2, in that order, counted in bytes"; request 04: "3 joins 1 and 2 in the file"
        let data = self.count()?;
        let of_sectors = layouts.iter().flat_map(|layout| (0..layout.sectors).map(move |_| layout.size as u64));
        let answered = of_sectors.zip(numbers).filter(|&(_, number)| has_bytes(number.into()));
        is(data.count == answered.map(|(bytes, _)| bytes).sum(), 34)?;
        self.bytes(data.count)?;

        // "35 bytes left over"
        is(self.byte().is_err(), 35)?;
        Ok([label, tracks, answers, data])
    }
}

/// What has to be so, or else this is the refusal.
fn is(so: bool, refusal: u8) -> Result<(), u8> {
    so.then_some(()).ok_or(refusal)
}

/// The layouts of a right list: "rising by cylinder and then side, each pair at most once and each layout allowed on its
/// track". Every track is held against all before it.
fn layouts(tracks: &[u8]) -> Result<Vec<&'static Layout>, u8> {
    let pairs: Vec<(u8, u8)> = tracks.chunks(3).map(|track| (track[0], track[1])).collect();
    for (at, later) in pairs.iter().enumerate() {
        is(pairs[..at].iter().all(|earlier| earlier < later), 32)?;
    }
    let number = |track: &[u8], at: usize| u32::from(track[at]);
    let allowed = tracks.chunks(3).map(|track| of_track(number(track, 2), number(track, 0), number(track, 1)));
    allowed.map(|layout| layout.map_err(|_| 32)).collect()
}
