//! The reference against the papers' sentence word for word: is the fast one right? The library is not asked.
use harness::compare::file::{sections, Shown};
use harness::files::hostile::{contents, FILES};
use harness::files::{small, tracks, Contents};
use harness::reference::{file, plain_file};
use harness::rng::Rng;
use harness::tally::met::Row;
use harness::tally::Tally;

/// Reads a file in both ways.
fn compare(tally: &mut Tally, rng: &mut Rng, file: &[u8]) -> u8 {
    let expected = sections(rng, plain_file::read, file);
    assert_eq!(sections(rng, file::read, file), expected, "{:?}", Shown(file));
    tally.input();
    tally.met(Row::FileRead, expected.0);
    expected.0
}

#[test]
fn literal_reading_of_hostile_files() {
    const INPUTS: usize = 2_000;
    let mut rng = Rng::new(10);
    let mut tally = Tally::of_reference("file", "hostile files read");
    for (_, file) in FILES {
        for _ in 0..INPUTS {
            let file = file(&mut rng);
            compare(&mut tally, &mut rng, &file);
        }
    }
    tally.has_met(Row::FileRead, &[0, 31, 32, 33, 34, 35]);
    tally.report();
}

#[test]
fn literal_reading_of_right_files() {
    const INPUTS: usize = 500;
    let mut rng = Rng::new(11);
    let mut tally = Tally::of_reference("file", "right files read");
    for input in 0..INPUTS {
        let contents = if input % 20 == 0 {
            let count = rng.below(151);
            let tracks = tracks(&mut rng, count);
            Contents::new(&mut rng, &tracks)
        } else {
            small(&mut rng)
        };
        assert_eq!(compare(&mut tally, &mut rng, &contents.file()), 0, "{contents:?}");
    }
    tally.report();
}

/// A writing is refused by the number that the file would be refused by, laid out as it is, where the list of tracks is
/// made of threes: its counts and lengths agree, so that it is not 31, and nothing is left over.
#[test]
fn writing_and_the_literal_reading() {
    const INPUTS: usize = 10_000;
    let mut rng = Rng::new(12);
    let mut tally = Tally::of_reference("file", "hostile contents written");
    for _ in 0..INPUTS {
        let contents = contents(&mut rng);
        let Contents { label, tracks, answers, data } = &contents;
        let laid_out = contents.file();
        let (mut area, mut length) = (vec![0xFF; laid_out.len() + rng.below(9)], [1]);
        let number = file::write(label, tracks, answers, data, &mut area, &mut length);
        let (expected, _) = match tracks.len() % 3 {
            0 => sections(&mut rng, plain_file::read, &laid_out),
            _ => (32, Default::default()),
        };
        assert_eq!(number, expected, "{contents:?}");
        let mut file = if number == 0 { laid_out } else { vec![] };
        assert_eq!(length, [file.len() as u32], "{contents:?}");
        file.resize(area.len(), 0);
        assert!(area == file, "after {number}: {contents:?}");
        tally.input();
        tally.met(Row::FileWrite, number);
    }
    tally.has_met(Row::FileWrite, &[0, 32, 33, 34]);
    tally.report();
}
