//! Captures of every hostile kind; and on more of them the reference against the papers' sentence word for word.
use harness::captures::hostile::{room, KINDS};
use harness::captures::Capture;
use harness::compare::flux::{compare, references, Call};
use harness::rng::Rng;
use harness::tally::met::Row;
use harness::tally::Tally;

/// An image for the capture, or for as many cells as it might have.
fn call(rng: &mut Rng, capture: &Capture) -> Call {
    let length = room(rng, capture.cells().unwrap_or(3 * capture.stamps.len()));
    Call::new(rng, capture, length)
}

#[test]
fn hostile_captures() {
    const INPUTS: usize = 3_000;
    let mut rng = Rng::new(80);
    for (kind, capture) in KINDS {
        let mut tally = Tally::new("flux", kind);
        for _ in 0..INPUTS {
            let capture = capture(&mut rng);
            let call = call(&mut rng, &capture);
            compare(&mut tally, &mut rng, &call);
        }
        tally.report();
    }
}

#[test]
fn literal_version_of_hostile_captures() {
    const INPUTS: usize = 3_000;
    let mut rng = Rng::new(81);
    let mut tally = Tally::of_reference("flux", "hostile captures");
    for (_, capture) in KINDS {
        for _ in 0..INPUTS {
            let capture = capture(&mut rng);
            let call = call(&mut rng, &capture);
            tally.met(Row::Flux, references(&mut rng, &call).number);
            tally.input();
        }
    }
    tally.has_met(Row::Flux, &[0, 41, 42, 43, 44]);
    tally.report();
}
