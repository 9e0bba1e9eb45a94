//! The area that is lent for the writing: what fits, what does not, and what is left in it.
use harness::compare::file::write;
use harness::files::{small, Contents};
use harness::rng::Rng;
use harness::tally::Tally;
use harness::tracks::EACH;

/// Every length up to some more than the file's: 36 as long as one byte lacks.
#[test]
fn areas_of_every_length() {
    let mut rng = Rng::new(40);
    let mut tally = Tally::new("file", "areas of every length");
    let one_block = [vec![27; 7], vec![3]].concat();
    let cases = [
        Contents::default(),
        Contents::default().labelled(b"A LABEL"),
        Contents::all(&mut rng, &EACH[..1], 26),
        Contents::all(&mut rng, &EACH[..2], 22).labelled(b"LATHE"),
        Contents::answered(&mut rng, &EACH[3..], one_block).labelled(&[0xFF; 80]),
    ];
    for contents in cases {
        let file = contents.file().len();
        for area in 0..=file + 40 {
            let number = write(&mut tally, &mut rng, &contents, area);
            assert_eq!(number, if area < file { 36 } else { 0 }, "area of {area} bytes for {file}");
        }
    }
    tally.report();
}

#[test]
fn areas_around_longer_files() {
    const INPUTS: usize = 60;
    let mut rng = Rng::new(41);
    let mut tally = Tally::new("file", "areas around the file's length");
    for _ in 0..INPUTS {
        let contents = small(&mut rng);
        let file = contents.file().len();
        // also where the sections would fit without their counts
        for area in [0, 1, 4, file / 2, file - 16, file - 4, file - 1, file, file + 1, file + 4, file + 5_000] {
            let number = write(&mut tally, &mut rng, &contents, area);
            assert_eq!(number, if area < file { 36 } else { 0 }, "area of {area} bytes for {file}");
        }
    }
    tally.report();
}

/// A refused writing sets an area of any length to zero, also one that the file would have fitted.
#[test]
fn areas_of_refused_contents() {
    let mut rng = Rng::new(42);
    let mut tally = Tally::new("file", "areas of refused contents");
    let right = Contents::all(&mut rng, &EACH[..2], 21).labelled(b"A LABEL");
    let wrong = |change: fn(&mut Contents)| {
        let mut contents = right.clone();
        change(&mut contents);
        contents
    };
    let cases = [
        (32, wrong(|contents| contents.label.resize(81, 0))),
        (32, wrong(|contents| contents.tracks[2] = 2)),
        (32, wrong(|contents| contents.tracks.push(0))),
        (33, wrong(|contents| contents.answers.push(21))),
        (33, wrong(|contents| contents.answers[51] = 20)),
        (34, wrong(|contents| contents.data.push(0))),
        (34, wrong(|contents| contents.answers[0] = 1)),
    ];
    for (number, contents) in cases {
        let file = contents.file().len();
        for area in (0..=64).chain([file - 1, file, file + 1, 5_000]) {
            assert_eq!(write(&mut tally, &mut rng, &contents, area), number, "area of {area} bytes: {contents:?}");
        }
    }
    tally.report();
}
