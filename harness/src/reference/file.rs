//! The file for a read cartridge (02, requests 03 and 04): label, tracks, answers and data, each after its count of four
//! bytes.
use super::layouts::{of_track, LAYOUTS};
use super::records::{has_bytes, is_answer};
use crate::station::Sections;

const LONGEST_LABEL: usize = 80;
const MOST_TRACKS: usize = 150;

/// The bytes of a count, and those of a track: cylinder, side and layout.
const COUNT: usize = 4;
const TRACK: usize = 3;

/// A writer: label, tracks, answers, data, area, and the file's length.
pub type Writer = fn(&[u8], &[u8], &[u8], &[u8], &mut [u8], &mut [u32; 1]) -> u8;

/// A reader: the file, and where its sections are.
pub type Reader = fn(&[u8], &mut Sections) -> u8;

/// Writes the file to the front of the area. Answers 0, or the number of the refusal. Nothing is left of what the area
/// held: past the file it is zero, and all of it after a refusal, where the length is 0 too.
#[inline(never)]
pub fn write(label: &[u8], tracks: &[u8], answers: &[u8], data: &[u8], area: &mut [u8], length: &mut [u32; 1]) -> u8 {
    let (number, end) = match end(label, tracks, answers, data, area) {
        Ok(end) => (0, end),
        Err(number) => (number, 0),
    };
    let (file, others) = area.split_at_mut(end);
    if number == 0 {
        let counts = [label.len(), tracks.len() / TRACK, answers.len(), data.len()];
        put(file, counts, [label, tracks, answers, data]);
    }
    others.fill(0);
    *length = [end as u32];
    number
}

/// The file's length, if the call is not refused.
fn end(label: &[u8], tracks: &[u8], answers: &[u8], data: &[u8], area: &[u8]) -> Result<usize, u8> {
    let is_list = tracks.len() % TRACK == 0 && tracks.len() <= TRACK * MOST_TRACKS;
    if label.len() > LONGEST_LABEL || !is_list {
        return Err(32);
    }
    if answers.len() != sectors(tracks)? {
        return Err(33);
    }
    if data.len() != bytes(tracks, answers)? {
        return Err(34);
    }
    let end = 4 * COUNT + label.len() + tracks.len() + answers.len() + data.len();
    if area.len() < end {
        return Err(36);
    }
    Ok(end)
}

/// Fills the file: each section after its count.
fn put(file: &mut [u8], counts: [usize; 4], sections: [&[u8]; 4]) {
    let mut rest = file;
    for (count, section) in counts.into_iter().zip(sections) {
        let (head, others) = rest.split_at_mut(COUNT);
        head.copy_from_slice(&(count as u32).to_be_bytes());
        let (own, others) = others.split_at_mut(section.len());
        own.copy_from_slice(section);
        rest = others;
    }
}

/// Reads a file. Answers 0, or the number of the refusal, which leaves eight zeros.
#[inline(never)]
pub fn read(file: &[u8], sections: &mut Sections) -> u8 {
    let (number, found) = match found(file) {
        Ok(found) => (0, found),
        Err(number) => (number, Sections::default()),
    };
    *sections = found;
    number
}

/// Where the sections are, each count judged before the length of its section, and what it holds after that.
fn found(file: &[u8]) -> Result<Sections, u8> {
    let mut rest = Rest { file, place: 0 };
    let label_count = rest.count()?;
    if label_count > LONGEST_LABEL {
        return Err(32);
    }
    let (label_place, _) = rest.section(label_count)?;

    let tracks_count = rest.count()?;
    if tracks_count > MOST_TRACKS {
        return Err(32);
    }
    let (tracks_place, tracks) = rest.section(TRACK * tracks_count)?;
    let sectors = sectors(tracks)?;

    let answers_count = rest.count()?;
    if answers_count != sectors {
        return Err(33);
    }
    let (answers_place, answers) = rest.section(answers_count)?;
    let bytes = bytes(tracks, answers)?;

    let data_count = rest.count()?;
    if data_count != bytes {
        return Err(34);
    }
    let (data_place, _) = rest.section(data_count)?;
    if rest.place < file.len() {
        return Err(35);
    }
    Ok(Sections {
        label_place: label_place as u32,
        label_count: label_count as u32,
        tracks_place: tracks_place as u32,
        tracks_count: tracks_count as u32,
        answers_place: answers_place as u32,
        answers_count: answers_count as u32,
        data_place: data_place as u32,
        data_count: data_count as u32,
    })
}

/// The file from a place on.
struct Rest<'a> {
    file: &'a [u8],
    place: usize,
}

impl<'a> Rest<'a> {
    /// The next count, most significant byte first.
    fn count(&mut self) -> Result<usize, u8> {
        let (_, bytes) = self.section(COUNT)?;
        let bytes = bytes.try_into().expect("four bytes");
        Ok(u32::from_be_bytes(bytes) as usize)
    }

    /// The place of the next section, and its bytes. Any number of them may be asked for: nothing is added to the place
    /// before it is known that they are there.
    fn section(&mut self, length: usize) -> Result<(usize, &'a [u8]), u8> {
        let place = self.place;
        let section = self.file[place..].get(..length).ok_or(31)?;
        self.place += length;
        Ok((place, section))
    }
}

/// The sectors of all tracks, if the list is right: each track after the one before, with a layout that it takes.
fn sectors(tracks: &[u8]) -> Result<usize, u8> {
    let (mut sectors, mut least) = (0, 0);
    for track in tracks.chunks_exact(TRACK) {
        let (cylinder, side, layout) = (track[0].into(), track[1].into(), track[2].into());
        // two sides to a cylinder, where the numbers are right
        let at = 2 * cylinder + side;
        let layout = of_track(layout, cylinder, side).map_err(|_| 32)?;
        if at < least {
            return Err(32);
        }
        least = at + 1;
        sectors += layout.sectors;
    }
    Ok(sectors)
}

/// The bytes of all sectors that have some, if each answer is one. The list is right, and there is one for each sector.
fn bytes(tracks: &[u8], answers: &[u8]) -> Result<usize, u8> {
    let (mut bytes, mut are_answers, mut rest) = (0, true, answers);
    for track in tracks.chunks_exact(TRACK) {
        let layout = &LAYOUTS[usize::from(track[2])];
        let (own, others) = rest.split_at(layout.sectors);
        // no way out of the loop: that is faster, and a wrong answer is rare
        for &answer in own {
            bytes += if has_bytes(answer.into()) { layout.size } else { 0 };
            are_answers &= is_answer(answer.into());
        }
        rest = others;
    }
    are_answers.then_some(bytes).ok_or(33)
}
