//! Damaged tracks: whatever stands in an image, both sides agree, and a rewrite touches nothing but its sector.
use crate::rewrite;
use harness::compare::read::Outcome;
use harness::compare::rewrite::Call;
use harness::rng::Rng;
use harness::tally::met::Row;
use harness::tally::Tally;
use harness::tracks::damage::{false_beginnings, shifted};
use harness::tracks::{any, random, traps, worn, Track};

/// Asks for every sector up to a number, and rewrites some of those that can be. Those that cannot have to be the ones
/// that the library reads so.
fn ask(tally: &mut Tally, rng: &mut Rng, track: Track, image: &[u8], sectors: usize, most: usize) {
    let (whole, mut rewrites) = (Outcome::of_image(track, image).whole(), 0);
    for sector in 1..=sectors {
        let call = Call::new(rng, track, sector, image);
        let (number, _) = call.request(tally, rng);
        assert_eq!(number == 10, !whole.contains(&sector), "{number}, where {whole:?} are whole: {call:?}");
        if number == 0 && rewrites < most {
            rewrite(tally, rng, &call);
            rewrites += 1;
        }
    }
    tally.input();
}

#[test]
fn random_fields() {
    const INPUTS: usize = 250;
    let mut rng = Rng::new(30);
    let mut tally = Tally::new("rewrite", "random fields at any cell");
    for _ in 0..INPUTS {
        let track = any(&mut rng);
        let image = [random::fields(&mut rng, track), vec![0]].concat();
        // one of these brings each mark to a byte boundary
        for by in 0..8 {
            let image = shifted(&mut rng, &image, by);
            ask(&mut tally, &mut rng, track, &image, 6, 6);
        }
    }
    tally.has_met(Row::Request, &[0, 10, 11]);
    tally.report();
}

#[test]
fn spoilt_tracks() {
    const INPUTS: usize = 80;
    let mut rng = Rng::new(31);
    let mut tally = Tally::new("rewrite", "tracks with cells turned and lost and put in and doubled");
    for _ in 0..INPUTS {
        let track = any(&mut rng);
        let image = worn::spoilt(&mut rng, track);
        ask(&mut tally, &mut rng, track, &image, track.layout().sectors, 1);
    }
    tally.has_met(Row::Request, &[0, 10, 11]);
    tally.report();
}

#[test]
fn cut_tracks() {
    const INPUTS: usize = 100;
    let mut rng = Rng::new(32);
    let mut tally = Tally::new("rewrite", "tracks cut at both ends");
    for _ in 0..INPUTS {
        let track = any(&mut rng);
        let image = worn::cut(&mut rng, track);
        ask(&mut tally, &mut rng, track, &image, track.layout().sectors, 1);
    }
    tally.has_met(Row::Request, &[0, 10]);
    tally.report();
}

#[test]
fn traps_of_the_reader() {
    let mut rng = Rng::new(33);
    let mut tally = Tally::new("rewrite", "traps that the papers lay for a reader");
    for trap in traps::all() {
        let longer = [&trap.image[..], &[0; 2]].concat();
        for image in [trap.image, shifted(&mut rng, &longer, 8), shifted(&mut rng, &longer, 4)] {
            ask(&mut tally, &mut rng, trap.track, &image, 4, 4);
        }
    }
    tally.has_met(Row::Request, &[0, 10, 11]);
    tally.report();
}

#[test]
fn noise() {
    const INPUTS: usize = 100;
    let mut rng = Rng::new(34);
    let mut tally = Tally::new("rewrite", "noise");
    for _ in 0..INPUTS {
        let track = any(&mut rng);
        let length = 1 + rng.below(4_000);
        let image = rng.bytes(length);
        ask(&mut tally, &mut rng, track, &image, 2, 0);
        let image = false_beginnings(&mut rng, track.mode(), length);
        ask(&mut tally, &mut rng, track, &image, 2, 0);
    }
    tally.has_met(Row::Request, &[10]);
    tally.report();
}
