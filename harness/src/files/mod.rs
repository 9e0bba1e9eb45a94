//! Files of read cartridges, right ones and wrong ones: for the tests, the long run, the benchmark and what is kept.
pub mod hostile;

use crate::reference::layouts::{of_track, LAYOUTS};
use crate::reference::records::has_bytes;
use crate::rng::Rng;
use crate::station::{Sections, LONGEST_LABEL};
use crate::tally::met::ANSWERS;
use crate::tracks::Track;
use std::fmt;

/// What a file is to hold, or holds: the bytes of its four sections.
#[derive(Clone, Default, PartialEq, Eq)]
pub struct Contents {
    pub label: Vec<u8>,
    /// Cylinder, side and layout of each.
    pub tracks: Vec<u8>,
    pub answers: Vec<u8>,
    pub data: Vec<u8>,
}

impl Contents {
    /// A random label, and random answers and data for these tracks.
    pub fn new(rng: &mut Rng, tracks: &[Track]) -> Contents {
        // most sectors of most cartridges can be read
        let share = [0, 1, 4, 20][rng.below(4)];
        let answers = (0..sectors(tracks)).map(|_| answer(rng, share)).collect();
        let length = rng.below(LONGEST_LABEL + 1);
        Contents { label: rng.bytes(length), ..Contents::answered(rng, tracks, answers) }
    }

    /// No label, and random data for these tracks with these answers. The list of tracks may be wrong.
    pub fn answered(rng: &mut Rng, tracks: &[Track], answers: Vec<u8>) -> Contents {
        let sizes = tracks.iter().flat_map(|&track| vec![sectors_of(track).1; sectors_of(track).0]);
        let bytes = sizes.zip(&answers).filter(|&(_, &answer)| has_bytes(answer.into())).map(|(size, _)| size).sum();
        let tracks = tracks.iter().flat_map(|&track| entry(track)).collect();
        Contents { label: vec![], tracks, answers, data: rng.bytes(bytes) }
    }

    /// The same answer for all sectors.
    pub fn all(rng: &mut Rng, tracks: &[Track], answer: u8) -> Contents {
        Contents::answered(rng, tracks, vec![answer; sectors(tracks)])
    }

    /// With another label.
    pub fn labelled(mut self, label: &[u8]) -> Contents {
        self.label = label.to_vec();
        self
    }

    /// The numbers of elements.
    pub fn counts(&self) -> [u32; 4] {
        [self.label.len(), self.tracks.len() / 3, self.answers.len(), self.data.len()].map(|count| count as u32)
    }

    /// The file as the papers lay it out, whatever the contents are.
    pub fn file(&self) -> Vec<u8> {
        joined(self.counts(), [&self.label, &self.tracks, &self.answers, &self.data])
    }

    /// Where the sections are in that file.
    pub fn sections(&self) -> Sections {
        let [label_count, tracks_count, answers_count, data_count] = self.counts();
        let label_place = 4;
        let tracks_place = label_place + label_count + 4;
        let answers_place = tracks_place + 3 * tracks_count + 4;
        let data_place = answers_place + answers_count + 4;
        Sections {
            label_place,
            label_count,
            tracks_place,
            tracks_count,
            answers_place,
            answers_count,
            data_place,
            data_count,
        }
    }

    /// What a file holds by its sections, which have to be in it.
    pub fn of_file(file: &[u8], sections: &Sections) -> Contents {
        let part = |place: u32, bytes: u32| file[place as usize..][..bytes as usize].to_vec();
        Contents {
            label: part(sections.label_place, sections.label_count),
            tracks: part(sections.tracks_place, 3 * sections.tracks_count),
            answers: part(sections.answers_place, sections.answers_count),
            data: part(sections.data_place, sections.data_count),
        }
    }
}

impl fmt::Debug for Contents {
    fn fmt(&self, f: &mut fmt::Formatter) -> fmt::Result {
        let tracks: Vec<&[u8]> = self.tracks.chunks(3).collect();
        write!(f, "label {:02X?}, tracks {tracks:?}, ", self.label)?;
        write!(f, "{} answers {:?}, {} data bytes", self.answers.len(), self.answers, self.data.len())
    }
}

/// Place and count of each section, in the order of the file.
pub fn numbers(sections: &Sections) -> [u32; 8] {
    let Sections { label_place, label_count, tracks_place, tracks_count, .. } = *sections;
    let Sections { answers_place, answers_count, data_place, data_count, .. } = *sections;
    [label_place, label_count, tracks_place, tracks_count, answers_place, answers_count, data_place, data_count]
}

/// Four sections, each after any count.
pub fn joined(counts: [u32; 4], sections: [&[u8]; 4]) -> Vec<u8> {
    let parts = counts.into_iter().zip(sections);
    parts.flat_map(|(count, section)| [&count.to_be_bytes(), section].concat()).collect()
}

/// A track's three bytes.
pub fn entry(track: Track) -> [u8; 3] {
    [track.cylinder, track.side, track.layout].map(|number| number as u8)
}

/// Sectors of a track and bytes of a sector; as in layout 0, where there is no such layout.
fn sectors_of(track: Track) -> (usize, usize) {
    let layout = LAYOUTS.get(track.layout as usize).unwrap_or(&LAYOUTS[0]);
    (layout.sectors, layout.size)
}

/// The sectors of all tracks.
fn sectors(tracks: &[Track]) -> usize {
    tracks.iter().map(|&track| sectors_of(track).0).sum()
}

/// An answer: any of them as many times in 20, else 1.
fn answer(rng: &mut Rng, share: usize) -> u8 {
    if rng.below(20) < share {
        ANSWERS[rng.below(ANSWERS.len())]
    } else {
        1
    }
}

/// Every cylinder and side, in the order of a file.
pub fn pairs() -> Vec<(u32, u32)> {
    (0..=74).flat_map(|cylinder| [(cylinder, 0), (cylinder, 1)]).collect()
}

/// The layouts that a track takes.
pub fn layouts(cylinder: u32, side: u32) -> Vec<u32> {
    (0..LAYOUTS.len() as u32).filter(|&layout| of_track(layout, cylinder, side).is_ok()).collect()
}

/// As many random tracks, rising, each with any layout that it takes.
pub fn tracks(rng: &mut Rng, count: usize) -> Vec<Track> {
    let (pairs, mut tracks) = (pairs(), Vec::new());
    for (at, &(cylinder, side)) in pairs.iter().enumerate() {
        // each of those left is as likely as the others
        if rng.below(pairs.len() - at) < count - tracks.len() {
            let layouts = layouts(cylinder, side);
            tracks.push(Track { layout: layouts[rng.below(layouts.len())], cylinder, side });
        }
    }
    tracks
}

/// Contents of a few tracks, often with few data.
pub fn small(rng: &mut Rng) -> Contents {
    let count = rng.below(5);
    let tracks = tracks(rng, count);
    match rng.below(3) {
        0 => Contents::new(rng, &tracks),
        // at most two sectors have bytes
        _ => {
            let (with, without): (Vec<u8>, Vec<u8>) = ANSWERS.into_iter().partition(|&answer| has_bytes(answer.into()));
            let mut answers: Vec<u8> = (0..sectors(&tracks)).map(|_| without[rng.below(without.len())]).collect();
            for _ in 0..rng.below(3).min(answers.len()) {
                let at = rng.below(answers.len());
                answers[at] = with[rng.below(with.len())];
            }
            let length = rng.below(10);
            Contents { label: rng.bytes(length), ..Contents::answered(rng, &tracks, answers) }
        }
    }
}
