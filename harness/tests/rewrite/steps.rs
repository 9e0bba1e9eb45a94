//! Refused steps: each fault by itself, and which of several counts.
use crate::facts::{block_end, mark_bytes};
use harness::compare::rewrite::{Call, Sides};
use harness::reference::rewrite::Plan;
use harness::rng::Rng;
use harness::tally::met::Row;
use harness::tally::Tally;
use harness::tracks;
use harness::tracks::damage::turn;
use harness::tracks::sketch::{Identifier, Index, Kind};
use harness::tracks::worn::LONGEST;
use std::collections::BTreeSet;

/// The order in which a step is refused.
const ORDER: [u8; 6] = [4, 1, 5, 6, 13, 12];

/// A step that is right: one of a rewrite's, which need not have made those before it.
#[derive(Clone, Debug)]
struct Step {
    call: Call,
    plan: Plan,
}

impl Step {
    /// What comes of it on both sides. A refusal has to leave the image as it was.
    fn number(&self, tally: &mut Tally, rng: &mut Rng) -> u8 {
        let (mut sides, mut plan) = (Sides::new(rng, &self.call.image), self.plan);
        let number = sides.step(tally, &mut plan, self.call.mark, &self.call.contents);
        if number != 0 {
            sides.agree(&self.call.image);
        }
        number
    }

    /// The image byte at which the block's mark begins.
    fn mark(&self) -> usize {
        self.call.track.places(self.call.sector as usize).1
    }
}

/// One thing that is wrong with a step.
#[derive(Clone, Copy, Debug)]
enum Fault {
    Layout(u32),
    ImageLength(usize),
    ContentsLength(usize),
    Mark(u32),
    /// Another noted place.
    Place(u32),
    /// A cell of the block's mark is another.
    Turned(usize),
    /// Another mark stands there.
    Other(Kind),
    /// As much of the block passes the end, in image bytes.
    Cut(usize),
    /// As many stores are made.
    Made(u32),
}

impl Fault {
    fn number(self) -> u8 {
        match self {
            Fault::ImageLength(_) => 1,
            Fault::Layout(_) => 4,
            Fault::ContentsLength(_) => 5,
            Fault::Mark(_) => 6,
            Fault::Made(_) => 12,
            _ => 13,
        }
    }

    /// Where its number stands in the order.
    fn rank(self) -> usize {
        ORDER.iter().position(|&number| number == self.number()).expect("the order has every number")
    }

    /// Puts the fault into a step that was right but for faults before this one.
    fn spoil(self, step: &mut Step) {
        let (mark, image) = (step.mark(), &mut step.call.image);
        // what has the wrong length already stays as long as it is
        let is_readable = (1..=LONGEST).contains(&image.len());
        match self {
            Fault::Layout(layout) => step.plan[0] = layout,
            Fault::ImageLength(length) => image.resize(length, 0xC5),
            Fault::ContentsLength(length) => step.call.contents.resize(length, 0x44),
            Fault::Mark(mark) => step.call.mark = mark,
            Fault::Place(place) => step.plan[1] = place,
            Fault::Turned(cell) if is_readable => turn(image, 8 * mark + cell),
            Fault::Other(kind) if is_readable => {
                let octets = kind.image(step.call.track.mode());
                image[mark..mark + octets.len()].copy_from_slice(octets);
            }
            Fault::Cut(octets) if is_readable => {
                image.truncate(block_end(step.call.track, step.call.sector as usize) - octets);
            }
            Fault::Made(made) => step.plan[2] = made,
            _ => (),
        }
    }
}

/// What can be wrong: numbers next to the right ones, and right ones with a high bit that might get lost.
fn faults(right: &Step) -> Vec<Fault> {
    let Step { call, plan: [layout, place, made, all] } = right;
    let (size, mark) = (call.contents.len(), mark_bytes(call.track));
    let (layout, place, end) = (*layout, *place, 8 * call.image.len() as u32);
    // no cell of an image has so high a number
    let high = |right: u32| [1 << 18 | right, 1 << 31 | right, u32::MAX];
    let mut faults = Vec::new();
    faults.extend([4, 5, 255, 1 << 8 | layout].into_iter().chain(high(layout)).map(Fault::Layout));
    faults.extend([0, LONGEST + 1, 45_056].map(Fault::ImageLength));
    faults.extend([0, 1, size / 2, size - 1, size + 1, 2 * size].map(Fault::ContentsLength));
    faults.extend([0, 0xF9, 0xFE, 0xFF, 1 << 8 | 0xFB].into_iter().chain(high(0xF8)).map(Fault::Mark));
    // on no byte boundary, and where no mark stands, in the image and past its end
    faults.extend((1..8).map(|cells| Fault::Place(place + cells)));
    faults.extend([0, 8, place - 8, place + 8, end - 64, end - 8, end, end + 8].map(Fault::Place));
    faults.extend(high(place).into_iter().chain([u32::MAX - 7]).map(Fault::Place));
    // turned over, the last cell in FM can make another of the three marks
    faults.extend((0..8 * mark - 1).step_by(5).map(Fault::Turned));
    faults.extend([Fault::Other(Index), Fault::Other(Identifier)]);
    faults.extend([1, 2, 4, 2 * size, 2 * size + 4].map(Fault::Cut));
    faults.extend([*all, all + 1, 2 * all].into_iter().chain(high(*made)).map(Fault::Made));
    faults
}

/// Steps that are right: the first and the last, and some in between.
fn right_steps(tally: &mut Tally, rng: &mut Rng) -> Vec<Step> {
    let mut steps = Vec::new();
    for track in tracks::EACH {
        let (image, ..) = track.random(rng);
        let sector = 1 + rng.below(track.layout().sectors);
        let call = Call::new(rng, track, sector, &image);
        let plan = call.plan(tally, rng);
        let between = rng.below(plan[3] as usize) as u32;
        for made in [0, 1, between, plan[3] - 2, plan[3] - 1] {
            let step = Step { call: call.clone(), plan: [plan[0], plan[1], made, plan[3]] };
            assert_eq!(step.number(tally, rng), 0, "{step:?}");
            steps.push(step);
        }
    }
    steps
}

#[test]
fn each_refusal_alone() {
    let mut rng = Rng::new(50);
    let mut tally = Tally::new("step", "each refusal alone");
    for right in right_steps(&mut tally, &mut rng) {
        for fault in faults(&right) {
            let mut step = right.clone();
            fault.spoil(&mut step);
            assert_eq!(step.number(&mut tally, &mut rng), fault.number(), "{fault:?}: {step:?}");
            tally.input();
        }
    }
    tally.has_met(Row::Step, &ORDER);
    tally.report();
}

#[test]
fn two_faults_at_once() {
    let mut rng = Rng::new(51);
    let mut tally = Tally::new("step", "two faults at once");
    let mut pairs = BTreeSet::new();
    // of each layout one step, which is enough where two things are wrong
    for right in right_steps(&mut tally, &mut rng).into_iter().step_by(5) {
        let faults = faults(&right);
        for &first in &faults {
            for &second in faults.iter().filter(|second| second.rank() > first.rank()) {
                let mut step = right.clone();
                first.spoil(&mut step);
                second.spoil(&mut step);
                assert_eq!(step.number(&mut tally, &mut rng), first.number(), "{first:?} and {second:?}: {step:?}");
                pairs.insert((first.rank(), second.rank()));
                tally.input();
            }
        }
    }
    assert_eq!(pairs.len(), 6 * 5 / 2, "pairs of numbers");
    tally.report();
}

#[test]
fn images_of_any_length() {
    let mut rng = Rng::new(52);
    let mut tally = Tally::new("step", "images of any length for any store");
    for right in right_steps(&mut tally, &mut rng) {
        for length in (0..=3).chain(LONGEST - 2..=LONGEST + 3) {
            let mut step = right.clone();
            step.call.image.resize(length, 0x92);
            // so short an image holds no block
            let number = match length {
                1..=3 => 13,
                4..=LONGEST => 0,
                _ => 1,
            };
            assert_eq!(step.number(&mut tally, &mut rng), number, "{step:?}");
            tally.input();
        }
    }
    tally.report();
}
