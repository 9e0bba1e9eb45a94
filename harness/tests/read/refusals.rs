//! Refused calls: each fault by itself, and which of several counts.
use harness::compare::read::{agrees, compare, Call, Outcome};
use harness::rng::Rng;
use harness::tally::met::Row;
use harness::tally::Tally;
use harness::tracks::{self, Track};
use std::collections::BTreeSet;

/// The order in which read refuses.
const ORDER: [u8; 5] = [2, 3, 4, 1, 5];

/// One thing that is wrong with a call.
#[derive(Clone, Copy, Debug)]
enum Fault {
    Cylinder(u32),
    Side(u32),
    Layout(u32),
    ImageLength(usize),
    AreaLength(usize),
}

impl Fault {
    fn number(self) -> u8 {
        match self {
            Fault::ImageLength(_) => 1,
            Fault::Cylinder(_) => 2,
            Fault::Side(_) => 3,
            Fault::Layout(_) => 4,
            Fault::AreaLength(_) => 5,
        }
    }

    /// Where its number stands in the order.
    fn rank(self) -> usize {
        ORDER.iter().position(|&number| number == self.number()).expect("the order has every number")
    }

    /// Puts the fault into a call.
    fn spoil(self, call: &mut Call) {
        match self {
            Fault::Cylinder(cylinder) => call.track.cylinder = cylinder,
            Fault::Side(side) => call.track.side = side,
            Fault::Layout(layout) => {
                call.track.layout = layout;
                // the area follows, so that it is not wrong too
                if layout <= 3 {
                    call.area = call.track.layout().area_bytes();
                }
            }
            Fault::ImageLength(length) => call.image.resize(length, 0xC5),
            Fault::AreaLength(length) => call.area = length,
        }
    }
}

/// What can be wrong on a track: numbers next to the right ones, and right ones with a high bit that might get lost.
fn faults(track: Track) -> Vec<Fault> {
    let area = track.layout().area_bytes();
    let high = |right: u32| [1 << 8 | right, 1 << 16 | right, 1 << 31 | right, u32::MAX];
    let mut faults = Vec::new();
    faults.extend([75, 76, 127, 255].into_iter().chain(high(track.cylinder)).map(Fault::Cylinder));
    faults.extend([2, 3, 255].into_iter().chain(high(track.side)).map(Fault::Side));
    let allowed = match (track.cylinder, track.side) {
        (0, 0) => 0..=0,
        (0, _) => 1..=1,
        _ => 1..=3,
    };
    let others = (0..=5).filter(|layout| !allowed.contains(layout));
    faults.extend(others.chain(high(track.layout)).map(Fault::Layout));
    faults.extend([0, 24_577, 45_056].map(Fault::ImageLength));
    faults.extend([0, 1, area / 2, area - 1, area + 1, 2 * area].map(Fault::AreaLength));
    faults
}

/// Whatever was lent is zero then.
fn is_refused(tally: &mut Tally, rng: &mut Rng, call: &Call, number: u8) {
    agrees(call, &compare(tally, rng, call), &Outcome::refused(number, call.area));
}

#[test]
fn each_refusal_alone() {
    let mut rng = Rng::new(40);
    let mut tally = Tally::new("read", "each refusal alone");
    for track in tracks::all() {
        let right = Call::new(track, track.random(&mut rng).0);
        for fault in faults(track) {
            let mut call = right.clone();
            fault.spoil(&mut call);
            is_refused(&mut tally, &mut rng, &call, fault.number());
        }
    }
    tally.has_met(Row::Read, &ORDER);
    tally.report();
}

#[test]
fn two_faults_at_once() {
    let mut rng = Rng::new(41);
    let mut tally = Tally::new("read", "two faults at once");
    let mut pairs = BTreeSet::new();
    for track in tracks::all() {
        let right = Call::new(track, vec![0x4E; 100]);
        let faults = faults(track);
        for &first in &faults {
            for &second in faults.iter().filter(|second| second.rank() > first.rank()) {
                let mut call = right.clone();
                first.spoil(&mut call);
                second.spoil(&mut call);
                is_refused(&mut tally, &mut rng, &call, first.number());
                pairs.insert((first.rank(), second.rank()));
            }
        }
    }
    assert_eq!(pairs.len(), 5 * 4 / 2, "pairs of numbers");
    tally.report();
}

#[test]
fn images_of_any_length() {
    let mut rng = Rng::new(42);
    let mut tally = Tally::new("read", "images of any length");
    for track in tracks::all() {
        for length in (0..=3).chain(24_574..=24_579) {
            let call = Call::new(track, rng.bytes(length));
            let outcome = compare(&mut tally, &mut rng, &call);
            assert_eq!(outcome.number, u8::from(!(1..=24_576).contains(&length)), "{call:?}");
        }
    }
    tally.report();
}

#[test]
fn layouts_and_tracks() {
    let mut rng = Rng::new(43);
    let mut tally = Tally::new("read", "any layout on any cylinder and side");
    for layout in 0..=5 {
        for cylinder in 0..=76 {
            for side in 0..=2 {
                let mut call = Call::new(Track { layout: layout.min(3), cylinder, side }, vec![0x4E; 100]);
                call.track.layout = layout;
                compare(&mut tally, &mut rng, &call);
            }
        }
    }
    // one layout on each side of cylinder 0, three on each side of the others
    assert_eq!(tally.times(Row::Read, 0), 2 + 74 * 2 * 3, "accepted tracks");
    tally.report();
}

#[test]
fn b15_areas_of_any_length_become_zero() {
    let mut rng = Rng::new(44);
    let mut tally = Tally::new("read", "areas of any length");
    for track in tracks::all() {
        let right = Call::new(track, track.random(&mut rng).0);
        let near = right.area - 20..right.area + 20;
        for area in (0..=64).chain(near).chain([50_000]).filter(|&area| area != right.area) {
            is_refused(&mut tally, &mut rng, &Call { area, ..right.clone() }, 5);
        }
    }
    tally.report();
}

#[test]
fn b16_layout_0_has_one_track() {
    let mut rng = Rng::new(45);
    let mut tally = Tally::new("read", "layout 0 on other tracks");
    let image = tracks::FM.random(&mut rng).0;
    for (cylinder, side) in [(0, 1), (1, 0), (5, 0), (74, 1)] {
        let call = Call::new(Track { layout: 0, cylinder, side }, image.clone());
        is_refused(&mut tally, &mut rng, &call, 4);
    }
    tally.report();
}
