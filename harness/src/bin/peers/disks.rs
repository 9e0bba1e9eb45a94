//! The disks that go to the peer: one for each layout, in the geometry of a flat image format that it knows.
use harness::reference::layouts::{of_track, Layout, LAYOUTS};
use harness::reference::marks::{CONTROL, DATA, LETTER_D};
use harness::rng::Rng;
use harness::station;
use harness::tracks::{Track, FM};

/// A disk of tracks of one layout.
pub struct Disk {
    pub layout: u32,
    /// The peer's name for a flat image of this geometry: the sectors' bytes, one track after the other.
    pub format: &'static str,
    pub cylinders: usize,
    pub sides: usize,
    /// Whether the peer lays such a disk's tracks with the standard's gaps, so that whole tracks are alike.
    pub has_our_gaps: bool,
}

/// An mdos disk with two sides has sectors 27 to 52 on its second, so one side it is.
pub const DISKS: [Disk; 4] = [
    Disk { layout: 0, format: "mdos", cylinders: 77, sides: 1, has_our_gaps: false },
    Disk { layout: 1, format: "c8280", cylinders: 77, sides: 2, has_our_gaps: false },
    Disk { layout: 2, format: "pc", cylinders: 80, sides: 2, has_our_gaps: true },
    Disk { layout: 3, format: "pc98", cylinders: 77, sides: 2, has_our_gaps: false },
];

/// The sectors' bytes in order: the flat image.
pub fn flat(tracks: &[Written]) -> Vec<u8> {
    tracks.iter().flat_map(|written| written.data.clone()).collect()
}

/// A track as the Rattle library formats it, and what was handed to it.
pub struct Written {
    /// Where on the disk it lies.
    pub place: (usize, usize),
    /// What its identifiers say.
    pub track: Track,
    pub data: Vec<u8>,
    pub marks: Vec<u8>,
    pub image: Vec<u8>,
}

impl Disk {
    /// The disk's tracks in order, each with other random bytes and marks.
    pub fn tracks(&self) -> Vec<Written> {
        let mut rng = Rng::new(0x9EE5 + u64::from(self.layout));
        let places = (0..self.cylinders).flat_map(|cylinder| (0..self.sides).map(move |side| (cylinder, side)));
        places.map(|place| self.written(place, &mut rng)).collect()
    }

    /// What all its tracks have in common.
    pub fn layout(&self) -> &'static Layout {
        &LAYOUTS[self.layout as usize]
    }

    fn written(&self, place: (usize, usize), rng: &mut Rng) -> Written {
        let track = addressed(self.layout, place);
        let mut data = rng.bytes(self.layout().area_bytes());
        let mut marks: Vec<u8> = (0..self.layout().sectors).map(|_| [DATA, CONTROL][rng.below(2)]).collect();
        if self.format == "mdos" && place == (0, 0) {
            label(&mut data);
            marks[..3].fill(DATA);
        }
        for (bytes, &mark) in data.chunks_exact_mut(self.layout().size).zip(&marks) {
            // on cylinder 0 a control mark may stand only before the letter D
            if track.cylinder == 0 && mark == CONTROL {
                bytes[0] = LETTER_D;
            }
        }
        Written::new(place, track, data, marks)
    }
}

impl Written {
    fn new(place: (usize, usize), track: Track, data: Vec<u8>, marks: Vec<u8>) -> Written {
        let mut image = vec![0; track.layout().image_bytes()];
        let number = station::format(track.layout, track.cylinder, track.side, &data, &marks, &mut image);
        assert_eq!(number, 0, "refusal of the formatter: {track:?}");
        Written { place, track, data, marks, image }
    }

    /// The same bytes, all behind data marks.
    pub fn with_data_marks(&self) -> Written {
        Written::new(self.place, self.track, self.data.clone(), vec![DATA; self.marks.len()])
    }
}

/// The track that the library formats for a place: its own, or where the layout is not allowed there a near one's. The
/// peer's flat formats have one layout on the whole disk and more cylinders than 75; they don't ask for the address.
fn addressed(layout: u32, (cylinder, side): (usize, usize)) -> Track {
    let own = Track { layout, cylinder: cylinder as u32, side: side as u32 };
    if layout == 0 {
        FM
    } else if of_track(layout, own.cylinder, own.side).is_ok() {
        own
    } else {
        Track { cylinder: own.cylinder.clamp(1, 74), ..own }
    }
}

/// The peer knows an mdos image by its first three sectors only: a label in letters with a date, the rest of that
/// sector zero; then two maps of the disk, here full.
fn label(data: &mut [u8]) {
    let text = b"STATION 0100111526NEASSADOON          ";
    data[..128].fill(0);
    data[..text.len()].copy_from_slice(text);
    data[128..384].fill(0xFF);
}
