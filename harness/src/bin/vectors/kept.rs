//! The kept vectors. They are the same whenever they are written.
use crate::{clocks, letters, Vector};
use harness::rng::Rng;
use harness::tracks::damage::{damage, false_beginnings, image_of, shifted};
use harness::tracks::sketch::*;
use harness::tracks::traps::{self, Trap};
use harness::tracks::{random, Track, FM, MFM};

/// A track of each layout.
const TRACKS: [Track; 4] =
    [FM, MFM, Track { layout: 2, cylinder: 40, side: 0 }, Track { layout: 3, cylinder: 74, side: 1 }];

pub fn all() -> Vec<Vector> {
    let rng = &mut Rng::new(2026);
    let groups = [
        refusals(),
        lengths(rng),
        clean(rng),
        traps(),
        shifts(rng),
        worn(rng),
        cuts(rng),
        others(rng),
        noise(rng),
        // what came later stands behind all that was there, which so keeps its numbers
        letters::all(),
        clocks::all(),
    ];
    groups.into_iter().flatten().collect()
}

fn vector(shows: &str, input: &[u8]) -> Vector {
    Vector { shows: shows.to_string(), input: input.to_vec() }
}

/// The track's three bytes before an image.
pub fn read(shows: &str, track: Track, image: &[u8]) -> Vector {
    vector(&format!("{shows} ({track:?})"), &track.input(image))
}

fn refusals() -> Vec<Vector> {
    vec![
        vector("no byte at all: refused 1", &[]),
        vector("one byte: refused 1", &[3]),
        vector("two bytes, the second above 74: refused 1 all the same", &[3, 200]),
        vector("three bytes, nothing else wrong: refused 1", &[3, 5, 1]),
        vector("three bytes, cylinder 75: 2 before 1", &[3, 75, 1]),
        vector("three bytes, side 2: 3 before 1", &[3, 5, 2]),
        vector("three bytes, layout 4: 4 before 1", &[4, 5, 1]),
        vector("cylinder, side and layout wrong: 2 first", &[9, 75, 2, 0x4E]),
        vector("side and layout wrong: 3 first", &[9, 5, 2, 0x4E]),
        vector("layout 3 on cylinder 0: refused 4", &[3, 0, 1, 0x4E]),
        vector("the four bytes of the papers' example", &[3, 5, 1, 0xFF]),
    ]
}

fn lengths(rng: &mut Rng) -> Vec<Vector> {
    let (track, (fm, ..)) = (TRACKS[3], FM.plain(rng));
    let longest = [track.plain(rng).0, vec![0x92; 24_576 - 20_832]].concat();
    let longer = [&longest[..], &[0x92]].concat();
    vec![
        read("24,576 bytes are read", track, &longest),
        read("24,577 bytes are refused by 1", track, &longer),
        read("24,577 bytes and cylinder 75: 2 before 1", Track { cylinder: 75, ..track }, &longer),
        read("B16: a track of layout 0 on cylinder 5 is refused by 4", Track { cylinder: 5, ..FM }, &fm),
    ]
}

fn clean(rng: &mut Rng) -> Vec<Vector> {
    let tracks = TRACKS.into_iter().chain([Track { layout: 1, cylinder: 0, side: 1 }]);
    tracks.map(|track| read("as formatted, data and control marks", track, &track.plain(rng).0)).collect()
}

/// The traps: some in both modes, the others in one and the other by turns.
fn traps() -> Vec<Vector> {
    let (mut both, mut others) = (Vec::new(), Vec::new());
    for trap in traps::of_01() {
        if ["A3", "B1", "B2"].contains(&trap.name) { &mut both } else { &mut others }.push(trap);
    }
    let by_turns = others.chunks(2).zip([0, 1].into_iter().cycle()).map(|(modes, turn)| &modes[turn]);
    both.iter().chain(by_turns).map(trap).collect()
}

pub fn trap(trap: &Trap) -> Vector {
    read(&format!("{}: {}", trap.name, trap.shows), trap.track, &trap.image)
}

fn shifts(rng: &mut Rng) -> Vec<Vector> {
    let tracks = [MFM, FM, TRACKS[2], FM, TRACKS[3], FM, MFM];
    let shift = |(by, track): (usize, Track)| {
        let (image, ..) = track.plain(rng);
        read(&format!("the whole track shifted by {by} of 8 cells"), track, &shifted(rng, &image, by))
    };
    (1..).zip(tracks).map(shift).collect()
}

fn worn(rng: &mut Rng) -> Vec<Vector> {
    let wear = |track: Track| {
        let mut cells = cells_of(&track.plain(rng).0);
        (0..10).for_each(|_| damage(rng, &mut cells));
        cells.truncate(8 * 24_576);
        read("cells turned over, lost, put in and doubled", track, &image_of(&cells))
    };
    [FM, MFM, TRACKS[3]].map(wear).into()
}

fn cuts(rng: &mut Rng) -> Vec<Vector> {
    let mut cut = |shows: &str, track: Track, end: fn((usize, usize)) -> usize| {
        let image = track.plain(rng).0;
        read(shows, track, &image[..end(track.places(5))])
    };
    vec![
        cut("cut in the address of sector 5", FM, |(identifier, _)| identifier + 7),
        cut("cut in the data mark of sector 5", MFM, |(_, data)| data + 5),
        cut("cut in the block of sector 5", TRACKS[2], |(_, data)| data + 500),
        cut("cut in the identifier mark of sector 5", TRACKS[3], |(identifier, _)| identifier + 7),
    ]
}

fn others(rng: &mut Rng) -> Vec<Vector> {
    let (track, (fm, ..)) = (TRACKS[2], FM.plain(rng));
    let (image, ..) = track.plain(rng);
    let mut open = MFM.plain(rng).0;
    // the first steps of a rewrite: the open mark, and some new bytes
    let (_, mark) = MFM.places(9);
    open[mark + 7] = 0x49;
    open[mark + 8..mark + 108].fill(0x55);
    vec![
        read("the track of cylinder 40: all foreign", Track { cylinder: 41, ..track }, &image),
        read("a track with fourth address byte 02: all foreign", Track { layout: 1, ..track }, &image),
        read("MFM cells read in FM", FM, &image[..4_000]),
        read("two turns in one capture: all 22", FM, &fm.repeat(2)),
        read("a rewrite of sector 9 cut off: 25", MFM, &open),
        read("random fields", FM, &random::plain_fields(rng, FM)),
        read("random fields", MFM, &random::plain_fields(rng, MFM)),
    ]
}

fn noise(rng: &mut Rng) -> Vec<Vector> {
    vec![
        read("noise", FM, &rng.bytes(5_000)),
        read("noise", MFM, &rng.bytes(5_000)),
        read("noise dense in beginnings of marks", FM, &false_beginnings(rng, FM.mode(), 2_000)),
        read("noise dense in beginnings of marks", MFM, &false_beginnings(rng, MFM.mode(), 2_000)),
        read("nothing but identifier marks", FM, &[0xF5, 0x7E].repeat(500)),
        read("nothing but identifier marks", MFM, &Identifier.image(MFM.mode()).repeat(100)),
    ]
}
