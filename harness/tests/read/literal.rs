//! The reference against the literal reader: is the fast one right? The library is not asked.
use harness::compare::read::{agrees, Call};
use harness::reference::{plain, read};
use harness::rng::Rng;
use harness::tally::met::{Row, ANSWERS};
use harness::tally::Tally;
use harness::tracks::damage::false_beginnings;
use harness::tracks::{any, random, worn};

fn compare(tally: &mut Tally, rng: &mut Rng, call: &Call) {
    let expected = call.outcome(rng, plain::read);
    agrees(call, &call.outcome(rng, read::read), &expected);
    expected.count(tally);
}

#[test]
fn random_fields() {
    const INPUTS: usize = 4_000;
    let mut rng = Rng::new(10);
    let mut tally = Tally::of_reference("read", "random fields");
    for _ in 0..INPUTS {
        let track = any(&mut rng);
        let image = random::fields(&mut rng, track);
        compare(&mut tally, &mut rng, &Call::new(track, image));
    }
    tally.has_met(Row::Answer, &ANSWERS);
    tally.has_met(Row::Identifier, &[0, 1]);
    tally.report();
}

#[test]
fn damaged_tracks() {
    const INPUTS: usize = 200;
    let mut rng = Rng::new(11);
    let mut tally = Tally::of_reference("read", "damaged tracks");
    for _ in 0..INPUTS {
        let track = any(&mut rng);
        let image = worn::spoilt(&mut rng, track);
        compare(&mut tally, &mut rng, &Call::new(track, image));
    }
    tally.report();
}

#[test]
fn noise() {
    const INPUTS: usize = 600;
    let mut rng = Rng::new(12);
    let mut tally = Tally::of_reference("read", "noise");
    for input in 0..INPUTS {
        let track = any(&mut rng);
        let length = 1 + rng.below(2_000);
        let image = match input % 2 {
            0 => rng.bytes(length),
            _ => false_beginnings(&mut rng, track.mode(), length),
        };
        compare(&mut tally, &mut rng, &Call::new(track, image));
    }
    tally.report();
}
