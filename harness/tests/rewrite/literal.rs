//! The reference against the literal rewrite: is the fast one right? The library is not asked.
use crate::facts::block_end;
use harness::compare::difference;
use harness::compare::rewrite::Call;
use harness::reference::rewrite::{self, Plan};
use harness::reference::stores;
use harness::rng::Rng;
use harness::tally::met::Row;
use harness::tally::Tally;
use harness::tracks::damage::shifted;
use harness::tracks::{self, random, Track};

/// Holds the two against each other on one request.
fn request(rng: &mut Rng, call: &Call) -> (u8, Plan) {
    let expected = call.asked(rng, stores::request);
    assert_eq!(call.asked(rng, rewrite::request), expected, "the reference's request: {call:?}");
    expected
}

/// Holds the two against each other on one step.
fn step(plan: &mut Plan, mark: u32, contents: &[u8], image: &mut [u8]) -> u8 {
    let (before, mut expected, mut other) = (*plan, *plan, image.to_vec());
    let number = stores::step(&mut expected, mark, contents, &mut other);
    assert_eq!(rewrite::step(plan, mark, contents, image), number, "the reference's step from {before:?}");
    assert_eq!(*plan, expected, "the reference's plan after a step from {before:?}");
    assert!(image == other, "the reference's step from {before:?}: {}", difference(image, &other));
    number
}

/// All steps of an accepted request, and one more.
fn all_steps(call: &Call, plan: Plan) {
    let (mut image, mut plan) = (call.image.clone(), plan);
    for _ in 0..plan[3] {
        assert_eq!(step(&mut plan, call.mark, &call.contents, &mut image), 0, "{call:?}");
    }
    assert_eq!(step(&mut plan, call.mark, &call.contents, &mut image), 12, "{call:?}");
}

/// Some of them in any order: the list is long, and each step makes it anew.
fn some_steps(rng: &mut Rng, call: &Call, plan: Plan) {
    let (mut image, all) = (call.image.clone(), plan[3] as usize);
    let random: Vec<usize> = (0..60).map(|_| rng.below(all)).collect();
    for made in (0..6).chain(random).chain(all - 10..all + 4) {
        let mut plan = [plan[0], plan[1], made as u32, 0];
        let number = step(&mut plan, call.mark, &call.contents, &mut image);
        assert_eq!(number, if made < all { 0 } else { 12 }, "after {made} stores: {call:?}");
    }
}

#[test]
fn formatted_sectors() {
    let mut rng = Rng::new(80);
    let mut tally = Tally::of_reference("rewrite", "formatted sectors");
    for track in tracks::EACH {
        for behind in [0, 1, 9] {
            // two sectors, a whole number of bytes later
            let (image, ..) = track.random(&mut rng);
            let image = [&rng.bytes(behind), &image[..block_end(track, 2) + behind]].concat();
            let call = Call::new(&mut rng, track, 2, &image);
            let (number, plan) = request(&mut rng, &call);
            assert_eq!(number, 0, "{call:?}");
            if track == tracks::FM {
                all_steps(&call, plan);
            }
            some_steps(&mut rng, &call, plan);
            tally.input();
        }
    }
    tally.report();
}

#[test]
fn random_fields() {
    const INPUTS: usize = 250;
    let mut rng = Rng::new(81);
    let mut tally = Tally::of_reference("rewrite", "random fields");
    for _ in 0..INPUTS {
        let track = tracks::any(&mut rng);
        let (image, by) = (random::fields(&mut rng, track), rng.below(16));
        let image = shifted(&mut rng, &[&image[..], &[0; 2]].concat(), by);
        for sector in 1..=5 {
            let call = Call::new(&mut rng, track, sector, &image);
            let (number, plan) = request(&mut rng, &call);
            tally.met(Row::Request, number);
            if number == 0 {
                some_steps(&mut rng, &call, plan);
            }
        }
        tally.input();
    }
    tally.has_met(Row::Request, &[0, 10, 11]);
    tally.report();
}

#[test]
fn any_numbers() {
    const INPUTS: usize = 2_500;
    let mut rng = Rng::new(82);
    let mut tally = Tally::of_reference("step", "any numbers");
    let track = tracks::MFM;
    for track in [tracks::FM, track, Track { layout: 2, ..track }] {
        let (image, ..) = track.random(&mut rng);
        let (size, mark) = (track.layout().size, track.places(1).1);
        let mut image = image[..block_end(track, 1) + 1].to_vec();
        for _ in 0..INPUTS {
            let length = image.len() - rng.below(3) / 2;
            let mut any = |right: usize| match rng.below(20) {
                0 => rng.bits() as u32,
                1 => [0, 1, 4, 8, 1 << 31, u32::MAX][rng.below(6)],
                2 => right as u32 + 1,
                _ => right as u32,
            };
            let (layout, place, length) = (any(track.layout as usize), any(8 * mark), length.min(any(length) as usize));
            let (size, mark) = (any(size) as usize % 2_000, any(0xFB));
            let mut plan = [layout, place, rng.below(2 * size + 12) as u32, rng.bits() as u32];
            let contents = rng.bytes(size);
            tally.met(Row::Step, step(&mut plan, mark, &contents, &mut image[..length]));
            tally.input();
        }
    }
    tally.has_met(Row::Step, &[0, 1, 4, 5, 6, 12, 13]);
    tally.report();
}
