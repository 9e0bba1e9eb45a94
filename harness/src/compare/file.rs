//! Files that are written and read, and how the two sides are held against each other on one of them.
use super::read::garbage;
use super::{among_others, difference};
use crate::files::Contents;
use crate::reference::file::{self, Reader, Writer};
use crate::rng::Rng;
use crate::station::{self, Sections};
use crate::tally::met::Row;
use crate::tally::Tally;
use std::fmt;

/// What comes back from a writer.
struct Written {
    number: u8,
    length: u32,
    area: Vec<u8>,
}

impl Written {
    /// What a writer makes of contents and an area of some length. Before the call area and length are full of something
    /// else, and so is what stands around the area; nothing else may change.
    fn new(rng: &mut Rng, writer: Writer, contents: &Contents, area: usize) -> Written {
        let Contents { label, tracks, answers, data } = contents;
        let parts = [label, tracks, answers, data].map(|bytes| among_others(rng, bytes));
        let lent = parts.clone();
        let [label, tracks, answers, data] = &lent;
        let from = rng.below(16);
        let around = garbage(rng, from + area + 16);
        let (mut all, mut length) = (around.clone(), [rng.bits() as u32 | 1]);
        let number = writer(
            &label.0[label.1.clone()],
            &tracks.0[tracks.1.clone()],
            &answers.0[answers.1.clone()],
            &data.0[data.1.clone()],
            &mut all[from..from + area],
            &mut length,
        );
        assert!(lent == parts, "a section changed: {contents:?}");
        assert_eq!(all[..from], around[..from], "bytes before the area: {contents:?}");
        assert_eq!(all[from + area..], around[from + area..], "bytes after the area: {contents:?}");
        Written { number, length: length[0], area: all[from..from + area].to_vec() }
    }

    /// Whatever is said of the contents: an accepted file has them and zeros past them, and a refusal leaves zeros.
    fn holds(&self, contents: &Contents) {
        let mut file = if self.number == 0 { contents.file() } else { vec![] };
        assert_eq!(self.length as usize, file.len(), "length of the file after {}: {contents:?}", self.number);
        file.resize(self.area.len(), 0);
        assert!(self.area == file, "{}, after {}: {contents:?}", difference(&self.area, &file), self.number);
    }
}

/// Holds the two sides against each other on one writing, and hands back the number.
pub fn write(tally: &mut Tally, rng: &mut Rng, contents: &Contents, area: usize) -> u8 {
    let expected = Written::new(rng, file::write, contents, area);
    let found = Written::new(rng, station::file_write, contents, area);
    let numbers = |written: &Written| (written.number, written.length);
    assert_eq!(numbers(&found), numbers(&expected), "number and length, area of {area} bytes: {contents:?}");
    assert!(found.area == expected.area, "{}: {contents:?}", difference(&found.area, &expected.area));
    expected.holds(contents);
    tally.input();
    tally.met(Row::FileWrite, expected.number);
    if expected.number == 0 {
        contents.answers.iter().for_each(|&answer| tally.met(Row::FileAnswer, answer));
    }
    expected.number
}

/// What a reader makes of a file at any alignment. The sections held something else before.
pub fn sections(rng: &mut Rng, reader: Reader, file: &[u8]) -> (u8, Sections) {
    let (all, part) = among_others(rng, file);
    let lent = all.clone();
    let mut any = || rng.bits() as u32 | 1;
    let mut sections = Sections {
        label_place: any(),
        label_count: any(),
        tracks_place: any(),
        tracks_count: any(),
        answers_place: any(),
        answers_count: any(),
        data_place: any(),
        data_count: any(),
    };
    let number = reader(&lent[part], &mut sections);
    assert!(lent == all, "the file changed: {:?}", Shown(file));
    (number, sections)
}

/// Holds the two sides against each other on one reading, and hands back number and sections: zeros after a refusal. What
/// an accepted file holds, written again, has to be that file: there is one for each content.
pub fn read(tally: &mut Tally, rng: &mut Rng, file: &[u8]) -> (u8, Sections) {
    let (number, expected) = sections(rng, file::read, file);
    assert_eq!(sections(rng, station::file_read, file), (number, expected), "{:?}", Shown(file));
    tally.input();
    tally.met(Row::FileRead, number);
    if number == 0 {
        let contents = Contents::of_file(file, &expected);
        assert!(contents.file() == file, "another file with the contents of {:?}", Shown(file));
        assert_eq!(write(tally, rng, &contents, file.len()), 0, "an accepted file's contents: {contents:?}");
    } else {
        assert_eq!(expected, Sections::default(), "refused by {number}: {:?}", Shown(file));
    }
    (number, expected)
}

/// Contents that both sides have to accept, written into an area of some length and read back byte for byte. Hands back
/// the file.
pub fn round_trip(tally: &mut Tally, rng: &mut Rng, contents: &Contents, area: usize) -> Vec<u8> {
    assert_eq!(write(tally, rng, contents, area), 0, "area of {area} bytes: {contents:?}");
    let file = contents.file();
    let (number, sections) = read(tally, rng, &file);
    assert_eq!((number, sections), (0, contents.sections()), "{contents:?}");
    assert!(Contents::of_file(&file, &sections) == *contents, "not what was written: {contents:?}");
    file
}

/// A file in a message: as many of its bytes as one can look at.
pub struct Shown<'a>(pub &'a [u8]);

impl fmt::Debug for Shown<'_> {
    fn fmt(&self, f: &mut fmt::Formatter) -> fmt::Result {
        write!(f, "file of {} bytes: ", self.0.len())?;
        self.0.iter().take(4_096).try_for_each(|byte| write!(f, "{byte:02X}"))
    }
}
