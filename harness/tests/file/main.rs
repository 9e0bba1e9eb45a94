//! The file for a read cartridge: the reference against the papers' sentence, and `station_file_write` and
//! `station_file_read` against the reference.
mod answers;
mod areas;
mod changed;
mod counts;
mod cuts;
mod hostile;
mod lengths;
mod lists;
mod literal;
mod orders;

use harness::compare::file::{read, round_trip, write};
use harness::files::{self, layouts, pairs, Contents};
use harness::rng::Rng;
use harness::station::{Sections, LONGEST_FILE, LONGEST_HEAD, LONGEST_LABEL, MOST_ANSWERS, MOST_TRACKS};
use harness::tally::met::{Row, ANSWERS};
use harness::tally::Tally;
use harness::tracks::{Track, EACH};

/// No label, no tracks: the papers' places all the same.
#[test]
fn a_file_of_nothing() {
    let mut rng = Rng::new(1);
    let mut tally = Tally::new("file", "nothing but counts");
    let nothing = Contents::default();
    assert_eq!(round_trip(&mut tally, &mut rng, &nothing, 16), [0; 16]);
    let expected =
        Sections { label_place: 4, tracks_place: 8, answers_place: 12, data_place: 16, ..Default::default() };
    assert_eq!(read(&mut tally, &mut rng, &[0; 16]), (0, expected));
    tally.report();
}

/// A file byte for byte, as the papers have it.
#[test]
fn a_file_in_numbers() {
    let mut rng = Rng::new(2);
    let mut tally = Tally::new("file", "a file in numbers");
    // layout 3 on cylinder 5, side 1: of eight sectors the second and the seventh have 1,024 bytes each
    let answers = vec![26, 1, 27, 22, 23, 24, 3, 26];
    let (label, tracks, data) = (b"NO 47".to_vec(), vec![5, 1, 3], rng.bytes(2_048));
    let contents = Contents { label, tracks, answers, data };
    let file = round_trip(&mut tally, &mut rng, &contents, 2_100);
    let head = b"\0\0\0\x05NO 47\0\0\0\x01\x05\x01\x03\0\0\0\x08\x1A\x01\x1B\x16\x17\x18\x03\x1A\0\0\x08\0";
    assert_eq!(file, [&head[..], &contents.data].concat());
    let expected = Sections {
        label_place: 4,
        label_count: 5,
        tracks_place: 13,
        tracks_count: 1,
        answers_place: 20,
        answers_count: 8,
        data_place: 32,
        data_count: 2_048,
    };
    assert_eq!(read(&mut tally, &mut rng, &file), (0, expected));
    tally.report();
}

#[test]
fn every_number_of_tracks() {
    let mut rng = Rng::new(3);
    let mut tally = Tally::new("file", "0 to 150 tracks");
    for count in 0..=MOST_TRACKS {
        let tracks = files::tracks(&mut rng, count);
        assert_eq!(tracks.len(), count);
        let contents = Contents::new(&mut rng, &tracks);
        let area = contents.file().len() + rng.below(100);
        round_trip(&mut tally, &mut rng, &contents, area);
    }
    tally.report();
}

#[test]
fn every_track_by_itself() {
    let mut rng = Rng::new(4);
    let mut tally = Tally::new("file", "each track in each of its layouts");
    for (cylinder, side) in pairs() {
        for layout in layouts(cylinder, side) {
            let contents = Contents::new(&mut rng, &[Track { layout, cylinder, side }]);
            round_trip(&mut tally, &mut rng, &contents, contents.file().len());
        }
    }
    tally.report();
}

#[test]
fn the_same_answer_everywhere() {
    let mut rng = Rng::new(5);
    let mut tally = Tally::new("file", "the same answer for all sectors");
    let any_layouts = files::tracks(&mut rng, 20);
    for answer in ANSWERS {
        for tracks in EACH.map(|track| vec![track]).into_iter().chain([EACH[..2].to_vec(), any_layouts.clone()]) {
            let contents = Contents::all(&mut rng, &tracks, answer).labelled(b"ONE ANSWER");
            round_trip(&mut tally, &mut rng, &contents, contents.file().len());
        }
    }
    tally.has_met(Row::FileAnswer, &ANSWERS);
    tally.report();
}

#[test]
fn labels_of_every_length() {
    let mut rng = Rng::new(6);
    let mut tally = Tally::new("file", "labels of every length");
    for tracks in [&[][..], &EACH[1..2]] {
        let contents = Contents::all(&mut rng, tracks, 21);
        for length in 0..=LONGEST_LABEL {
            let contents = contents.clone().labelled(&rng.bytes(length));
            round_trip(&mut tally, &mut rng, &contents, contents.file().len() + 3);
        }
        for length in (LONGEST_LABEL + 1..=300).chain([1_000, 65_536, 65_616]) {
            let contents = contents.clone().labelled(&rng.bytes(length));
            let file = contents.file();
            assert_eq!(write(&mut tally, &mut rng, &contents, file.len()), 32, "label of {length} bytes");
            assert_eq!(read(&mut tally, &mut rng, &file).0, 32, "label of {length} bytes");
        }
    }
    tally.report();
}

/// The most of everything, and that the numbers in station.rs are those.
#[test]
fn the_longest_files() {
    let mut rng = Rng::new(7);
    let mut tally = Tally::new("file", "as long as can be");
    let whole = |layout: u32| -> Vec<Track> {
        let takes = |(cylinder, side)| if cylinder == 0 { side } else { layout };
        pairs().into_iter().map(|(cylinder, side)| Track { layout: takes((cylinder, side)), cylinder, side }).collect()
    };
    let label = rng.bytes(LONGEST_LABEL);
    let longest = Contents::all(&mut rng, &whole(3), 1).labelled(&label);
    assert_eq!(round_trip(&mut tally, &mut rng, &longest, LONGEST_FILE + 1).len(), LONGEST_FILE);
    let most = Contents::all(&mut rng, &whole(1), 2).labelled(&label);
    round_trip(&mut tally, &mut rng, &most, LONGEST_FILE);
    let Sections { answers_count, data_place, .. } = most.sections();
    assert_eq!([answers_count as usize, data_place as usize], [MOST_ANSWERS, LONGEST_HEAD]);
    tally.report();
}

#[test]
fn random_contents() {
    const INPUTS: usize = 1_000;
    let mut rng = Rng::new(8);
    let mut tally = Tally::new("file", "random contents of a few tracks");
    for _ in 0..INPUTS {
        let contents = files::small(&mut rng);
        let area = contents.file().len() + rng.below(3) * rng.below(300);
        round_trip(&mut tally, &mut rng, &contents, area);
    }
    tally.report();
}
