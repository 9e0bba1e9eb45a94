//! The supply cut after every number of stores: what the library reads then, and what a restart makes of it.
use crate::facts::{block_end, mark_bytes};
use crate::some_sectors;
use harness::compare::difference;
use harness::compare::read::Outcome;
use harness::compare::rewrite::Call;
use harness::rng::Rng;
use harness::station::Reading;
use harness::tally::Tally;
use harness::tracks::damage::{shifted, turn};
use harness::tracks::sketch::{Control, Identifier, Sketch};
use harness::tracks::{self, Track};

/// Cuts the rewrite after every number of stores: nothing but the named sector reads otherwise, and that one as the
/// papers want it, at its old place. The doubtful clocks of every other sector stay.
pub fn every_cut(tally: &mut Tally, rng: &mut Rng, call: &Call) {
    let plan = call.plan(tally, rng);
    let all = plan[3] as usize;
    let before = call.before(plan);
    call.rewritten(tally, rng, plan, |made, image| {
        let expected = call.expected(&before, made, all, image);
        assert_eq!(Outcome::of_image(call.track, image), expected, "read after {made} of {all} stores: {call:?}");
    });
    tally.inputs(all + 1);
}

#[test]
fn formatted_tracks() {
    let mut rng = Rng::new(20);
    let mut tally = Tally::new("rewrite", "cut after every number of stores");
    for track in tracks::EACH {
        let (image, ..) = track.random(&mut rng);
        for sector in some_sectors(track) {
            let call = Call::new(&mut rng, track, sector, &image);
            every_cut(&mut tally, &mut rng, &call);
        }
    }
    tally.report();
}

/// A worn track with bad and foreign identifiers, on which sector 3 can be rewritten.
fn worn(rng: &mut Rng, track: Track) -> Vec<u8> {
    let (mut image, ..) = track.random(rng);
    // sector 2 becomes a foreign one, and sector 4 a bad one
    let foreign = Sketch::new(track).field(Identifier, &track.address(200)).image();
    image[track.places(2).0..][..foreign.len()].copy_from_slice(&foreign);
    turn(&mut image, 8 * (track.places(4).0 + mark_bytes(track)) + 5);
    // noise right behind sector 3, and cells turned over in all sectors behind it
    let gap = block_end(track, 3);
    image[gap..gap + 6].copy_from_slice(&rng.bytes(6));
    let from = 8 * track.places(5).0;
    for _ in 0..40 {
        let cell = from + rng.below(8 * image.len() - from);
        turn(&mut image, cell);
    }
    image
}

#[test]
fn worn_tracks() {
    let mut rng = Rng::new(22);
    let mut tally = Tally::new("rewrite", "worn tracks cut after every number of stores");
    for track in tracks::EACH {
        let image = worn(&mut rng, track);
        let by = 8 * (1 + rng.below(9));
        let image = shifted(&mut rng, &image, by);
        let Reading { records, counts } = Outcome::of_image(track, &image).reading;
        assert!(counts[0] > 0 && counts[1] > 0, "bad and foreign identifiers: {counts:?}, {track:?}");
        assert!(records[4..].iter().any(|record| record.clocks > 0), "doubtful clocks behind sector 4: {track:?}");
        let call = Call::new(&mut rng, track, 3, &image);
        every_cut(&mut tally, &mut rng, &call);
    }
    tally.report();
}

/// Restarts the rewrite after every cut, with other contents: what the cut left makes no difference.
fn every_restart(tally: &mut Tally, rng: &mut Rng, call: &Call) {
    let other = call.other(rng);
    let uncut = other.done();
    let plan = call.plan(tally, rng);
    call.rewritten(tally, rng, plan, |made, image| {
        let restarted = Call { image: image.to_vec(), ..other.clone() }.done();
        assert!(restarted == uncut, "{}, restarted after {made} stores: {call:?}", difference(&restarted, &uncut));
    });
    tally.inputs(plan[3] as usize + 1);
}

#[test]
fn restarts() {
    let mut rng = Rng::new(24);
    let mut tally = Tally::new("rewrite", "restarted after every number of stores");
    for track in tracks::EACH {
        let (image, ..) = track.random(&mut rng);
        let worn = worn(&mut rng, track);
        for (sector, image) in [(track.layout().sectors, image), (3, worn)] {
            let call = Call::new(&mut rng, track, sector, &image);
            every_restart(&mut tally, &mut rng, &call);
        }
    }
    tally.report();
}

/// The image after some steps of the library.
fn cut(call: &Call, plan: [u32; 4], stores: usize) -> Vec<u8> {
    let (mut image, mut plan) = (call.image.clone(), plan);
    for made in 0..stores {
        let number = harness::station::step(&mut plan, call.mark, &call.contents, &mut image);
        assert_eq!(number, 0, "after {made} stores: {call:?}");
    }
    image
}

#[test]
fn cut_again_and_again() {
    const INPUTS: usize = 200;
    let mut rng = Rng::new(25);
    let mut tally = Tally::new("rewrite", "cut up to four times");
    for _ in 0..INPUTS {
        let track = tracks::any(&mut rng);
        let (image, ..) = track.random(&mut rng);
        let sector = 1 + rng.below(track.layout().sectors);
        let mut call = Call::new(&mut rng, track, sector, &image);
        let last = call.other(&mut rng);
        for _ in 0..1 + rng.below(4) {
            let plan = call.plan(&mut tally, &mut rng);
            let stores = rng.below(plan[3] as usize + 1);
            call.image = cut(&call, plan, stores);
            call = call.other(&mut rng);
        }
        let restarted = Call { image: call.image, ..last.clone() }.done();
        assert!(restarted == last.done(), "{}, cut again and again: {last:?}", difference(&restarted, &last.done()));
        tally.input();
    }
    tally.report();
}

#[test]
fn blocks_at_the_end() {
    let mut rng = Rng::new(26);
    let mut tally = Tally::new("rewrite", "blocks at the image's end cut and restarted");
    for track in &tracks::EACH[..2] {
        let sketch = Sketch::new(*track).gap(4).sector(2).identifier(1).gap(11).block(Control, 1);
        for behind in 0..2 {
            let image = sketch.clone().octets(&[0x12, 0x34][..behind]).image();
            let call = Call::new(&mut rng, *track, 1, &image);
            every_cut(&mut tally, &mut rng, &call);
            every_restart(&mut tally, &mut rng, &call);
        }
    }
    tally.report();
}
