//! Files that end too early or too late: 31 and 35.
use harness::compare::file::read;
use harness::files::{small, tracks, Contents};
use harness::rng::Rng;
use harness::tally::Tally;
use harness::tracks::EACH;

/// Everything is right as far as it goes, so whatever is cut passes the end.
#[test]
fn files_cut_after_every_byte() {
    let mut rng = Rng::new(50);
    let mut tally = Tally::new("file", "files cut after every byte");
    let some = tracks(&mut rng, 12);
    let cases = [
        Contents::default(),
        Contents::default().labelled(b"NO TRACKS"),
        Contents::all(&mut rng, &EACH[..1], 26).labelled(b"NO DATA"),
        Contents::all(&mut rng, &some, 24),
        Contents::all(&mut rng, &EACH[..2], 1).labelled(&[0; 80]),
        Contents::answered(&mut rng, &EACH[3..], vec![3, 2, 26, 27, 26, 26, 26, 21]).labelled(b"TWO BLOCKS"),
    ];
    for contents in cases {
        let file = contents.file();
        for end in 0..file.len() {
            assert_eq!(read(&mut tally, &mut rng, &file[..end]).0, 31, "cut after {end} bytes: {contents:?}");
        }
        assert_eq!(read(&mut tally, &mut rng, &file).0, 0, "{contents:?}");
    }
    tally.report();
}

#[test]
fn bytes_left_over() {
    const INPUTS: usize = 150;
    let mut rng = Rng::new(51);
    let mut tally = Tally::new("file", "files with bytes left over");
    for _ in 0..INPUTS {
        let file = small(&mut rng).file();
        for more in [1, 2, 3, 4, 5, 16, 17, 300] {
            let behind = if rng.below(2) == 0 { vec![0; more] } else { rng.bytes(more) };
            assert_eq!(read(&mut tally, &mut rng, &[&file[..], &behind].concat()).0, 35, "{more} more");
        }
    }
    tally.report();
}

/// One file is read, not the first of several.
#[test]
fn joined_files() {
    const INPUTS: usize = 150;
    let mut rng = Rng::new(52);
    let mut tally = Tally::new("file", "files joined");
    for _ in 0..INPUTS {
        let (one, other) = (small(&mut rng).file(), small(&mut rng).file());
        for joined in [[&one[..], &other[..]], [&one, &one], [&one, &[0; 16]], [&[0; 16], &one]] {
            assert_eq!(read(&mut tally, &mut rng, &joined.concat()).0, 35);
        }
    }
    tally.report();
}
