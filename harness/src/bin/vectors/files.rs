//! The kept files: right ones, and each refusal of a reading. They are the same whenever they are written.
use crate::Vector;
use harness::files::{joined, pairs, Contents};
use harness::rng::Rng;
use harness::tally::met::ANSWERS;
use harness::tracks::{Track, FM, MFM};

/// The other side of cylinder 0.
const SECOND: Track = Track { layout: 1, cylinder: 0, side: 1 };

/// A track of each of the other layouts.
const LONGER: Track = Track { layout: 2, cylinder: 40, side: 0 };
const LONGEST: Track = Track { layout: 3, cylinder: 74, side: 1 };

pub fn all() -> Vec<Vector> {
    let rng = &mut Rng::new(2027);
    let groups = [right(rng), cut(rng), counts(rng), lists(rng), answers(rng), data(rng), left_over(rng)];
    // what came later stands behind all that was there, which so keeps its numbers
    groups.into_iter().flatten().chain(letters(rng)).collect()
}

fn vector(shows: &str, input: &[u8]) -> Vector {
    Vector { shows: shows.to_string(), input: input.to_vec() }
}

fn file(shows: &str, contents: &Contents) -> Vector {
    vector(shows, &contents.file())
}

/// Every track in the layout, where it takes that one.
fn whole(layout: u32) -> Vec<Track> {
    let takes = |cylinder, side| if cylinder == 0 { side } else { layout };
    pairs().into_iter().map(|(cylinder, side)| Track { layout: takes(cylinder, side), cylinder, side }).collect()
}

fn right(rng: &mut Rng) -> Vec<Vector> {
    let each = vec![1, 2, 21, 22, 23, 24, 25, 26];
    let neighbours = [FM, SECOND, Track { layout: 3, ..MFM }];
    let [first, second, third] = [vec![1; 26], vec![2; 26], [vec![26; 14], vec![1]].concat()];
    let mixed = [vec![26; 25], vec![1, 21], vec![22; 24], vec![2], vec![23; 3], vec![1], vec![24; 4]].concat();
    let mut last = vec![21; 3_900];
    last[3_899] = 2;
    vec![
        file("nothing but counts", &Contents::default()),
        file("a label alone", &Contents::default().labelled(b"LATHE 3, AXIS TABLE")),
        file("a label of 80 bytes", &Contents::default().labelled(&rng.bytes(80))),
        file("layout 0, no sector read", &Contents::all(rng, &[FM], 26)),
        file("layout 0, data records", &Contents::answered(rng, &[FM], first).labelled(b"FM")),
        file("layout 1 on cylinder 0, control records", &Contents::answered(rng, &[SECOND], second)),
        file("layout 1 on cylinder 5, three sectors read", &few(rng, MFM).labelled(b"FEW")),
        file("layout 2, the last sector read", &Contents::answered(rng, &[LONGER], third)),
        file("layout 3, each answer of 01 once", &Contents::answered(rng, &[LONGEST], each)),
        file("layouts 0, 1 and 3", &Contents::answered(rng, &neighbours, mixed).labelled(b"THREE TRACKS")),
        file("150 tracks, no sector read", &Contents::all(rng, &whole(3), 21).labelled(b"ALL TRACKS")),
        file("150 tracks with the most answers, the last sector read", &Contents::answered(rng, &whole(1), last)),
    ]
}

/// A track of which the sectors 1, 2 and 26 were read.
fn few(rng: &mut Rng, track: Track) -> Contents {
    Contents::answered(rng, &[track], [vec![1, 2], vec![26; 23], vec![1]].concat())
}

fn cut(rng: &mut Rng) -> Vec<Vector> {
    let contents = few(rng, FM).labelled(b"CUT");
    let (file, sections) = (contents.file(), contents.sections());
    let [tracks, answers, data] =
        [sections.tracks_place, sections.answers_place, sections.data_place].map(|place| place as usize);
    let (mut wrong_track, mut wrong_answer) = (file.clone(), file.clone());
    wrong_track[tracks] = 75;
    wrong_answer[answers] = 0;
    vec![
        vector("no byte at all", &[]),
        vector("cut in the label's count", &file[..3]),
        vector("cut in the label", &file[..6]),
        vector("cut in the tracks' count", &file[..tracks - 1]),
        vector("cut in the tracks", &file[..tracks + 2]),
        vector("cut in the tracks, cylinder 75: 31 before 32", &wrong_track[..tracks + 2]),
        vector("cut in the answers' count", &file[..answers - 4]),
        vector("cut in the answers", &file[..data - 5]),
        vector("cut in the answers, the first of them 0: 31 before 33", &wrong_answer[..data - 5]),
        vector("cut in the data's count", &file[..data - 2]),
        vector("cut before the data", &file[..data]),
        vector("cut before the last byte", &file[..file.len() - 1]),
    ]
}

fn counts(rng: &mut Rng) -> Vec<Vector> {
    let none: [&[u8]; 4] = [&[]; 4];
    let again = Contents::all(rng, &[&whole(3)[..], &[LONGEST]].concat(), 21);
    vec![
        file("a label of 81 bytes", &Contents::default().labelled(&rng.bytes(81))),
        vector("81 label bytes that are not there: 32 before 31", &[0, 0, 0, 81]),
        vector("4,294,967,295 label bytes", &joined([u32::MAX, 0, 0, 0], none)),
        file("151 tracks", &again),
        vector("151 tracks that are not there: 32 before 31", &joined([0, 151, 0, 0], none)[..8]),
        vector("tracks whose bytes in 32 bits would be 2", &joined([0, 0x5555_5556, 0, 0], none)),
    ]
}

fn lists(rng: &mut Rng) -> Vec<Vector> {
    let mut list = |shows: &str, tracks: &[Track]| file(shows, &Contents::all(rng, tracks, 21));
    let other = Track { layout: 2, ..MFM };
    vec![
        list("a track twice", &[MFM, other]),
        list("side 0 after side 1", &[MFM, Track { side: 0, ..MFM }]),
        list("cylinder 5 after cylinder 40", &[LONGER, MFM]),
        list("cylinder 75", &[FM, Track { cylinder: 75, ..MFM }]),
        list("side 2", &[FM, Track { side: 2, ..MFM }]),
        list("layout 1 on the first track", &[Track { layout: 1, ..FM }]),
        list("layout 2 on the other side of cylinder 0", &[FM, Track { layout: 2, ..SECOND }]),
        list("layout 0 on side 1 of cylinder 5", &[Track { layout: 0, ..MFM }]),
        list("layout 5", &[FM, Track { layout: 5, ..MFM }]),
    ]
}

fn answers(rng: &mut Rng) -> Vec<Vector> {
    let right = few(rng, FM);
    let with = |change: fn(&mut Vec<u8>)| {
        let mut contents = right.clone();
        change(&mut contents.answers);
        contents
    };
    let more = with(|answers| answers.push(21)).file();
    vec![
        file("an answer too few", &with(|answers| answers.truncate(25))),
        file("an answer too many", &with(|answers| answers.push(21))),
        vector("an answer too many, and cut: 33 before 31", &more[..20]),
        file("answers without tracks", &Contents { tracks: vec![], ..right.clone() }),
        file("an answer 0", &with(|answers| answers[25] = 0)),
        file("an answer 20", &with(|answers| answers[2] = 20)),
        file("an answer 255", &with(|answers| answers[3] = 255)),
    ]
}

fn data(rng: &mut Rng) -> Vec<Vector> {
    let right = few(rng, FM);
    let mut bytes = |count: usize| Contents { data: rng.bytes(count), ..right.clone() };
    let cut = bytes(4 * 128).file();
    let mut answered = right.clone();
    answered.answers[2] = 1;
    vec![
        file("no data", &bytes(0)),
        file("a data byte too few", &bytes(3 * 128 - 1)),
        file("the data of a layout with longer sectors", &bytes(3 * 256)),
        file("sectors counted, and not bytes", &bytes(3)),
        file("one more sector is answered 1", &answered),
        vector("a sector's data too many, and cut: 34 before 31", &cut[..60]),
    ]
}

fn left_over(rng: &mut Rng) -> Vec<Vector> {
    let (one, other) = (few(rng, FM).file(), Contents::all(rng, &[LONGEST], 25).file());
    vec![
        vector("a byte left over", &[&one[..], &[0]].concat()),
        vector("nothing but counts, and a byte", &[0; 17]),
        vector("two files", &[&other[..], &one].concat()),
    ]
}

/// 02, request 04: a 3 comes with bytes and a 27 without; on which cylinder they stand nobody asks, nor what the bytes are.
fn letters(rng: &mut Rng) -> Vec<Vector> {
    let tracks = [FM, LONGEST];
    let on_both = |first, last| [vec![26; 25], vec![first, last], vec![21; 7]].concat();
    let mut as_read = Contents::answered(rng, &tracks, on_both(27, 3));
    as_read.data.fill(0);
    as_read.data[0] = b'F';
    let each = [&ANSWERS[..], &[3; 5]].concat();
    let mut last = vec![27; 3_900];
    last[3_899] = 3;
    let without = |answer| Contents { data: vec![], answers: on_both(26, answer), ..as_read.clone() };
    vec![
        file("27 on cylinder 0 and 3 on cylinder 74, which is F and zeros", &as_read),
        file("3 on cylinder 0, any bytes, and 27 on cylinder 74", &Contents::answered(rng, &tracks, on_both(3, 27))),
        file("layout 2, each answer", &Contents::answered(rng, &[LONGER], each)),
        file("layout 1, all sectors 3", &Contents::all(rng, &[MFM], 3).labelled(b"PLANNED DEFECTS")),
        file("150 tracks with the most answers, all 27 but the last, 3", &Contents::answered(rng, &whole(1), last)),
        file("a 3 without its data", &without(3)),
        file("a 27 with data", &Contents { answers: on_both(26, 27), ..as_read.clone() }),
        file("an answer 4", &without(4)),
        file("an answer 4, with data", &Contents { answers: on_both(26, 4), ..as_read.clone() }),
        file("an answer 28", &without(28)),
    ]
}
