//! Right files with one byte changed, or a few.
use harness::compare::file::read;
use harness::files::{small, tracks, Contents};
use harness::rng::Rng;
use harness::tally::met::Row;
use harness::tally::Tally;
use harness::tracks::{EACH, MFM};

/// What has to come of a file in which one byte is another: nothing but counts, tracks and answers is looked at.
fn is_as_expected(tally: &mut Tally, rng: &mut Rng, contents: &Contents, file: &[u8], at: usize) {
    let sections = contents.sections();
    let [label, tracks, answers, data] =
        [sections.label_place, sections.tracks_place, sections.answers_place, sections.data_place]
            .map(|place| place as usize);
    let (number, found) = read(tally, rng, file);
    let is_contents = (label..tracks - 4).contains(&at) || at >= data;
    if is_contents {
        assert_eq!((number, found), (0, sections), "byte {at} is {:02X}: {contents:?}", file[at]);
    } else if (answers..data - 4).contains(&at) {
        // those with bytes, those without, and none
        let expected = match (file[at], contents.answers[at - answers]) {
            (1..=3, 1..=3) | (21..=27, 21..=27) => 0,
            (1..=3 | 21..=27, _) => 34,
            _ => 33,
        };
        assert_eq!(number, expected, "byte {at} is {:02X}: {contents:?}", file[at]);
    } else if (answers - 4..answers).contains(&at) || (data - 4..data).contains(&at) {
        assert_eq!(number, if at < answers { 33 } else { 34 }, "byte {at} is {:02X}: {contents:?}", file[at]);
    } else if at >= tracks {
        // another cylinder, side or layout may do as well, but the answers are still there
        assert!([0, 32, 33, 34].contains(&number), "{number}, byte {at} is {:02X}: {contents:?}", file[at]);
    }
}

fn every_value(tally: &mut Tally, rng: &mut Rng, contents: &Contents) {
    let file = contents.file();
    let head = contents.sections().data_place as usize;
    for at in 0..file.len() {
        // data bytes are not looked at: a few values will do
        let values = if at < head { 0..=0xFF } else { 0xFD..=0xFF };
        for byte in values.filter(|&byte| byte != file[at]) {
            let mut file = file.clone();
            file[at] = byte;
            is_as_expected(tally, rng, contents, &file, at);
        }
    }
}

#[test]
fn every_byte_of_small_files() {
    let mut rng = Rng::new(60);
    let mut tally = Tally::new("file", "small files with any one byte changed");
    let some = tracks(&mut rng, 6);
    let each = [vec![1, 2, 3, 21, 22, 23, 24, 25, 26, 27], vec![26; 5]].concat();
    let cases = [
        Contents::default(),
        Contents::default().labelled(b"NO TRACKS"),
        Contents::all(&mut rng, &EACH[..1], 26),
        Contents::all(&mut rng, &EACH[..2], 21).labelled(b"ABC"),
        Contents::answered(&mut rng, &EACH[2..3], each).labelled(b"EACH ANSWER"),
        Contents::answered(&mut rng, &[MFM], [vec![24; 25], vec![2]].concat()).labelled(&[0; 80]),
        Contents::all(&mut rng, &some, 23),
    ];
    for contents in cases {
        every_value(&mut tally, &mut rng, &contents);
    }
    tally.has_met(Row::FileRead, &[0, 31, 32, 33, 34]);
    tally.report();
}

#[test]
fn some_bytes_of_any_files() {
    const INPUTS: usize = 4_000;
    let mut rng = Rng::new(61);
    let mut tally = Tally::new("file", "files with any one byte changed");
    let long: Vec<Contents> = [20, 75, 150]
        .into_iter()
        .map(|count| {
            let tracks = tracks(&mut rng, count);
            Contents::all(&mut rng, &tracks, 26).labelled(b"LONG")
        })
        .collect();
    for input in 0..INPUTS {
        let contents = if input % 4 == 0 { long[rng.below(3)].clone() } else { small(&mut rng) };
        let mut file = contents.file();
        let head = contents.sections().data_place as usize;
        let at = if rng.below(10) == 0 { rng.below(file.len()) } else { rng.below(head) };
        file[at] ^= 1 << rng.below(8);
        is_as_expected(&mut tally, &mut rng, &contents, &file, at);
    }
    tally.report();
}
