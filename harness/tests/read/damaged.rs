//! Worn, cut and random tracks.
use harness::compare::read::{compare, Call};
use harness::rng::Rng;
use harness::tally::met::{Row, ANSWERS};
use harness::tally::Tally;
use harness::tracks::damage::{image_of, turn};
use harness::tracks::sketch::cells_of;
use harness::tracks::worn::{self, LONGEST};
use harness::tracks::{self, any, random, Track};

/// As many inputs of one kind.
fn compare_many(seed: u64, inputs: usize, kind: &str, image: fn(&mut Rng, Track) -> Vec<u8>) -> Tally {
    let mut rng = Rng::new(seed);
    let mut tally = Tally::new("read", kind);
    for _ in 0..inputs {
        let track = any(&mut rng);
        let call = Call::new(track, image(&mut rng, track));
        compare(&mut tally, &mut rng, &call);
    }
    tally.report();
    tally
}

#[test]
fn random_fields() {
    let tally = compare_many(30, 20_000, "random fields at any cell", random::fields);
    tally.has_met(Row::Answer, &ANSWERS);
    tally.has_met(Row::Identifier, &[0, 1]);
}

#[test]
fn turned_cells() {
    compare_many(31, 1_000, "tracks with cells turned over", worn::turned);
}

#[test]
fn each_cell_of_a_sector() {
    let mut rng = Rng::new(32);
    let mut tally = Tally::new("read", "each cell of a sector turned over");
    for track in [tracks::FM, tracks::MFM] {
        let (image, ..) = track.random(&mut rng);
        // the second sector alone
        let ((from, _), (end, _)) = (track.places(2), track.places(3));
        let image = &image[from - 20..end];
        for cell in 0..8 * image.len() {
            let mut worn = image.to_vec();
            turn(&mut worn, cell);
            compare(&mut tally, &mut rng, &Call::new(track, worn));
        }
    }
    tally.report();
}

#[test]
fn spoilt_tracks() {
    compare_many(33, 2_000, "tracks with cells turned and lost and put in and doubled", worn::spoilt);
}

#[test]
fn cut_tracks() {
    compare_many(34, 1_500, "tracks cut at both ends", worn::cut);
}

#[test]
fn every_end_of_a_sector() {
    let mut rng = Rng::new(35);
    let mut tally = Tally::new("read", "a sector cut at every byte");
    for track in [tracks::FM, tracks::MFM] {
        let (image, ..) = track.random(&mut rng);
        let ((from, _), (end, _)) = (track.places(1), track.places(2));
        for length in 1..end - from {
            // the same end at another cell
            let mut image = image[from..from + length].to_vec();
            compare(&mut tally, &mut rng, &Call::new(track, image.clone()));
            image.insert(0, rng.byte());
            let cells = cells_of(&image)[1 + rng.below(7)..].to_vec();
            compare(&mut tally, &mut rng, &Call::new(track, image_of(&cells)));
        }
    }
    tally.report();
}

#[test]
fn noise() {
    compare_many(36, 1_500, "noise", worn::noise);
}

#[test]
fn dense_false_beginnings() {
    compare_many(37, 2_000, "noise dense in beginnings of marks", worn::dense);
}

#[test]
fn nothing_but_marks() {
    let mut rng = Rng::new(38);
    let mut tally = Tally::new("read", "identifier marks without end");
    for (track, mark) in
        [(tracks::FM, &[0xF5, 0x7E][..]), (tracks::MFM, &[0x44, 0x89, 0x44, 0x89, 0x44, 0x89, 0x55, 0x54])]
    {
        for length in (1..64).chain([LONGEST - 1, LONGEST]) {
            let image: Vec<u8> = mark.iter().copied().cycle().take(length).collect();
            compare(&mut tally, &mut rng, &Call::new(track, image));
        }
    }
    tally.report();
}

#[test]
fn short_images() {
    let mut rng = Rng::new(39);
    let mut tally = Tally::new("read", "short images");
    for track in tracks::all() {
        for length in 1..=40 {
            for octet in [0x00, 0xFF, rng.byte()] {
                compare(&mut tally, &mut rng, &Call::new(track, vec![octet; length]));
            }
        }
    }
    tally.report();
}
