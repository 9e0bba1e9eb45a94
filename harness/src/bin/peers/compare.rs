//! What the peer made of our disks, and we of its tracks.
use crate::disks::{self, Disk, Written};
use harness::compare::read_back;
use harness::reference::coding::Mode;
use harness::reference::layouts::of_track;
use harness::reference::marks;
use harness::reference::records::at;
use harness::station::{self, Reading};

/// The longest image that the library reads.
const LONGEST: usize = 24_576;

/// How many of how many were equal.
#[derive(Clone, Copy, Default)]
pub struct Count {
    pub equal: usize,
    pub all: usize,
}

impl Count {
    fn add(&mut self, is_equal: bool) {
        self.all += 1;
        self.equal += usize::from(is_equal);
    }

    pub fn is_full(self) -> bool {
        self.all > 0 && self.equal == self.all
    }
}

/// The sectors of a flat image that the peer took from our cells, against those that we wrote.
pub fn flat(disk: &Disk, written: &[Written], theirs: &[u8]) -> Count {
    let (ours, size) = (disks::flat(written), disk.layout().size);
    let mut count = Count::default();
    for (sector, bytes) in ours.chunks_exact(size).enumerate() {
        count.add(theirs.get(sector * size..(sector + 1) * size) == Some(bytes));
    }
    if theirs.len() != ours.len() {
        println!("the flat image has {} bytes, not {}", theirs.len(), ours.len());
        count.equal = 0;
    }
    count
}

/// What comparing the peer's tracks gave.
#[derive(Default)]
pub struct Tracks {
    /// Sectors of tracks that the library addresses: read as our mark and bytes are, at the place of their mark.
    pub read: Count,
    /// Stretches from the (00)-bytes before the identifier to the end of the data EDC, cell for cell.
    pub stretches: Count,
    /// On tracks that the library does not address: from the (00)-bytes before the data mark on.
    pub blocks: Count,
    /// Tracks that are ours from the index hole to the end of our image.
    pub whole: Count,
}

/// The peer's cells, a track for each of ours. Where `has_own_address` its identifiers name the place on the disk, and
/// not what ours do.
pub fn tracks(disk: &Disk, written: &[Written], cells: &[Vec<u8>], has_own_address: bool) -> Tracks {
    let mut sum = Tracks::default();
    for (number, ours) in written.iter().enumerate() {
        let theirs = cells.get(number).map_or(&[][..], |cells| cells);
        let (cylinder, side) = (ours.place.0 as u32, ours.place.1 as u32);
        let is_same = !has_own_address || of_track(disk.layout, cylinder, side).is_ok();
        if is_same {
            read(ours, theirs, &mut sum.read);
            sum.whole.add(theirs.starts_with(&unpacked(&ours.image)));
        }
        stretches(ours, theirs, is_same, &mut sum);
    }
    if cells.len() != written.len() {
        println!("{} tracks, not {}", cells.len(), written.len());
        sum.stretches.equal = 0;
    }
    sum
}

fn read(ours: &Written, cells: &[u8], count: &mut Count) {
    let (track, layout) = (ours.track, ours.track.layout());
    let image = &packed(cells);
    let image = &image[..image.len().min(LONGEST)];
    let mut area = vec![0; layout.area_bytes()];
    let mut reading = Reading::default();
    let refusal = station::read(track.layout, track.cylinder, track.side, image, &mut area, &mut reading);
    let found = places(cells, track.mode());
    for sector in 0..layout.sectors {
        let slot = sector * layout.size..(sector + 1) * layout.size;
        let (answer, bytes) = read_back(track.cylinder, ours.marks[sector].into(), &ours.data[slot.clone()]);
        let record = only(&found, sector as u8 + 1).map(|theirs| at(answer, theirs.block));
        let is_right = refusal == 0 && record == Some(reading.records[sector]) && reading.counts == [0, 0];
        count.add(is_right && area[slot] == bytes);
    }
}

fn stretches(ours: &Written, cells: &[u8], is_same: bool, sum: &mut Tracks) {
    let mode = ours.track.mode();
    let (own, found) = (unpacked(&ours.image), places(cells, mode));
    for sector in 1..=ours.track.layout().sectors {
        let (identifier, block) = ours.track.places(sector);
        let place = Place { sector: sector as u8, identifier: 8 * identifier, block: 8 * block };
        let theirs = only(&found, place.sector).and_then(|theirs| theirs.stretch(cells, ours, is_same));
        let is_equal = theirs.is_some() && theirs == place.stretch(&own, ours, is_same);
        let count = if is_same { &mut sum.stretches } else { &mut sum.blocks };
        count.add(is_equal);
    }
}

/// The cells of a mark.
fn mark_cells(mode: Mode) -> usize {
    match mode {
        Mode::Fm => 16,
        Mode::Mfm => 64,
    }
}

/// Where a sector's marks begin.
struct Place {
    sector: u8,
    identifier: usize,
    block: usize,
}

impl Place {
    /// The sector's cells, or only its block's: from the (00)-bytes before the mark to the end of the data EDC.
    fn stretch<'a>(&self, cells: &'a [u8], ours: &Written, is_whole: bool) -> Option<&'a [u8]> {
        let mode = ours.track.mode();
        let zeros = if mode == Mode::Fm { 6 } else { 12 };
        let mark = if is_whole { self.identifier } else { self.block };
        let end = self.block + mark_cells(mode) + 16 * (ours.track.layout().size + 2);
        cells.get(mark.checked_sub(16 * zeros)?..end)
    }
}

/// The sector of a number, which is equal to nothing where it is not there, or there twice.
fn only(found: &[Place], sector: u8) -> Option<&Place> {
    let mut named = found.iter().filter(|place| place.sector == sector);
    named.next().filter(|_| named.next().is_none())
}

/// The sectors of a track by their marks alone: each identifier mark with the data or control mark after it.
fn places(cells: &[u8], mode: Mode) -> Vec<Place> {
    let length = mark_cells(mode);
    let [identifier_mark, data, control] = match mode {
        Mode::Fm => [&marks::FM.identifier, &marks::FM.data, &marks::FM.control].map(|mark| number(&mark.image)),
        Mode::Mfm => [&marks::MFM.identifier, &marks::MFM.data, &marks::MFM.control].map(|mark| number(&mark.image)),
    };
    let mut found = Vec::new();
    let mut identifier = None;
    let mut last = 0_u64;
    for (end, &cell) in (1..).zip(cells) {
        last = last << 1 | u64::from(cell);
        if end < length {
            continue;
        }
        let cells_of_mark = last & u64::MAX >> (64 - length);
        if cells_of_mark == identifier_mark {
            identifier = Some(end - length);
        } else if cells_of_mark == data || cells_of_mark == control {
            if let Some(identifier) = identifier.take() {
                // the third address byte
                let sector = station::data_byte(&packed(&cells[identifier..end]), length + 32);
                found.push(Place { sector, identifier, block: end - length });
            }
        }
    }
    found
}

/// A mark's cells as a number.
fn number(image: &[u8]) -> u64 {
    image.iter().fold(0, |cells, &byte| cells << 8 | u64::from(byte))
}

/// Cells as image bytes. What does not fill a byte is left out.
fn packed(cells: &[u8]) -> Vec<u8> {
    cells.chunks_exact(8).map(|eight| eight.iter().fold(0, |byte, cell| byte << 1 | cell)).collect()
}

/// The cells of image bytes.
pub fn unpacked(image: &[u8]) -> Vec<u8> {
    image.iter().flat_map(|byte| (0..8).rev().map(move |place| byte >> place & 1)).collect()
}
