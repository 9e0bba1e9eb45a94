//! Refused calls: each fault by itself, and which of several counts.
use harness::compare::format::{compare, Call};
use harness::reference::layouts::LAYOUTS;
use harness::rng::Rng;
use harness::station;
use harness::tally::met::Row;
use harness::tally::Tally;
use harness::tracks::{self, Track};
use std::collections::BTreeSet;

/// The order in which format refuses. No call can get 8, since every layout adds up to its image.
const ORDER: [u8; 7] = [2, 3, 4, 1, 5, 6, 7];

/// One thing that is wrong with a call.
#[derive(Clone, Copy, Debug)]
enum Fault {
    Cylinder(u32),
    Side(u32),
    Layout(u32),
    ImageLength(usize),
    DataLength(usize),
    MarksLength(usize),
    /// Another mark in the slot of this index.
    Mark(usize, u8),
    /// A control mark on cylinder 0, before another byte than the letter D.
    Control(usize, u8),
}

impl Fault {
    fn number(self) -> u8 {
        match self {
            Fault::ImageLength(_) => 1,
            Fault::Cylinder(_) => 2,
            Fault::Side(_) => 3,
            Fault::Layout(_) => 4,
            Fault::DataLength(_) => 5,
            Fault::MarksLength(_) | Fault::Mark(..) => 6,
            Fault::Control(..) => 7,
        }
    }

    /// Where its number stands in the order.
    fn rank(self) -> usize {
        ORDER.iter().position(|&number| number == self.number()).expect("the order has every number")
    }

    /// Puts the fault into a call.
    fn spoil(self, call: &mut Call) {
        match self {
            Fault::Cylinder(cylinder) => call.track.cylinder = cylinder,
            Fault::Side(side) => call.track.side = side,
            Fault::Layout(layout) => {
                call.track.layout = layout;
                // the lengths follow, so that they are not wrong too
                if let Some(layout) = LAYOUTS.get(layout as usize) {
                    call.data.resize(layout.area_bytes(), 0x44);
                    call.marks.resize(layout.sectors, 0xFB);
                    call.image.resize(layout.image_bytes(), 0xC5);
                }
            }
            Fault::ImageLength(length) => call.image.resize(length, 0xC5),
            Fault::DataLength(length) => call.data.resize(length, 0x44),
            Fault::MarksLength(length) => call.marks.resize(length, 0xFB),
            Fault::Mark(slot, mark) => set(&mut call.marks, slot, mark),
            Fault::Control(slot, first) => {
                let size = LAYOUTS.get(call.track.layout as usize).map_or(256, |layout| layout.size);
                set(&mut call.marks, slot, 0xF8);
                set(&mut call.data, slot * size, first);
            }
        }
    }
}

/// Sets a byte, if an earlier fault left it there.
fn set(bytes: &mut [u8], at: usize, byte: u8) {
    if let Some(place) = bytes.get_mut(at) {
        *place = byte;
    }
}

/// What can be wrong on a track: numbers next to the right ones, and right ones with a high bit that might get lost.
fn faults(track: Track) -> Vec<Fault> {
    let layout = track.layout();
    let high = |right: u32| [1 << 8 | right, 1 << 16 | right, 1 << 31 | right, u32::MAX];
    let lengths = |right: usize| [0, 1, right / 2, right - 1, right + 1, 2 * right];
    let mut faults = Vec::new();
    faults.extend([75, 76, 127, 255].into_iter().chain(high(track.cylinder)).map(Fault::Cylinder));
    faults.extend([2, 3, 255].into_iter().chain(high(track.side)).map(Fault::Side));
    let allowed = match (track.cylinder, track.side) {
        (0, 0) => 0..=0,
        (0, _) => 1..=1,
        _ => 1..=3,
    };
    let others = (0..=5).filter(|layout| !allowed.contains(layout));
    faults.extend(others.chain(high(track.layout)).map(Fault::Layout));
    faults.extend(lengths(layout.image_bytes()).into_iter().chain([24_576]).map(Fault::ImageLength));
    faults.extend(lengths(layout.area_bytes()).map(Fault::DataLength));
    faults.extend(lengths(layout.sectors).map(Fault::MarksLength));
    for slot in some_slots(track) {
        faults.extend([0x00, 0xF9, 0xFA, 0xFC, 0xFE, 0xFF].map(|mark| Fault::Mark(slot, mark)));
        if track.cylinder == 0 {
            faults.extend([0x00, 0x43, 0x45, 0x46, 0xC4, 0xFF].map(|first| Fault::Control(slot, first)));
        }
    }
    faults
}

/// The first, a middle and the last.
fn some_slots(track: Track) -> [usize; 3] {
    let sectors = track.layout().sectors;
    [0, sectors / 2, sectors - 1]
}

#[test]
fn each_refusal_alone() {
    let mut rng = Rng::new(5);
    let mut tally = Tally::new("format", "each refusal alone");
    for track in tracks::all() {
        let right = Call::new(&mut rng, track);
        for fault in faults(track) {
            let mut call = right.clone();
            fault.spoil(&mut call);
            assert_eq!(compare(&mut tally, &mut rng, &call), fault.number(), "{fault:?}: {call:?}");
        }
    }
    tally.has_met(Row::Format, &ORDER);
    tally.report();
}

#[test]
fn two_faults_at_once() {
    let mut rng = Rng::new(6);
    let mut tally = Tally::new("format", "two faults at once");
    let mut pairs = BTreeSet::new();
    let first_cylinder = tracks::all().into_iter().filter(|track| track.cylinder == 0);
    for track in first_cylinder.chain([Track { layout: 2, cylinder: 37, side: 1 }]) {
        let right = Call::new(&mut rng, track);
        let faults = faults(track);
        for &first in &faults {
            for &second in faults.iter().filter(|second| second.rank() > first.rank()) {
                // one slot cannot have both
                if matches!((first, second), (Fault::Mark(slot, _), Fault::Control(other, _)) if slot == other) {
                    continue;
                }
                let mut call = right.clone();
                first.spoil(&mut call);
                second.spoil(&mut call);
                assert_eq!(compare(&mut tally, &mut rng, &call), first.number(), "{first:?} and {second:?}: {call:?}");
                pairs.insert((first.rank(), second.rank()));
            }
        }
    }
    assert_eq!(pairs.len(), 7 * 6 / 2, "pairs of numbers");
    tally.report();
}

#[test]
fn letter_d() {
    let mut rng = Rng::new(7);
    let mut tally = Tally::new("format", "first bytes after either mark");
    for track in tracks::all() {
        let size = track.layout().size;
        let right = Call::new(&mut rng, track);
        for slot in some_slots(track) {
            for mark in [0xFB, 0xF8] {
                let counts = track.cylinder == 0 && mark == 0xF8;
                // every byte where it counts, elsewhere some, D and F among them
                let some = (0..=0xFF).step_by(if counts { 1 } else { 0x22 });
                for first in some.chain([0x46]) {
                    let mut call = right.clone();
                    call.marks[slot] = mark;
                    call.data[slot * size] = first;
                    let number = if counts && first != 0x44 { 7 } else { 0 };
                    assert_eq!(compare(&mut tally, &mut rng, &call), number, "{first:02X}: {call:?}");
                }
            }
        }
    }
    tally.report();
}

#[test]
fn images_of_any_length() {
    let mut rng = Rng::new(8);
    let mut tally = Tally::new("format", "refused images of any length");
    let near = [10_416, 20_832, 24_576].into_iter().flat_map(|length| length - 2..=length + 2);
    let lengths: Vec<usize> = (0..=32).chain(near).chain([65_536]).collect();
    for track in tracks::all() {
        let right = Call::new(&mut rng, track);
        for &length in lengths.iter().filter(|&&length| length != right.image.len()) {
            for fault in [Fault::Cylinder(75), Fault::Side(2), Fault::Layout(4), Fault::ImageLength(length)] {
                let mut call = right.clone();
                fault.spoil(&mut call);
                call.image = rng.bytes(length);
                assert_eq!(compare(&mut tally, &mut rng, &call), fault.number(), "{fault:?}: {call:?}");
            }
        }
        let Track { layout, cylinder, side } = track;
        assert_eq!(station::format(layout, cylinder, side, &[], &[], &mut []), 1, "nothing lent: {right:?}");
        tally.input();
    }
    tally.report();
}

#[test]
fn random_faults() {
    const INPUTS: usize = 2_000;
    let mut rng = Rng::new(9);
    let mut tally = Tally::new("format", "up to three random faults");
    for _ in 0..INPUTS {
        let track = tracks::any(&mut rng);
        let mut call = Call::new(&mut rng, track);
        let faults = faults(track);
        for _ in 0..rng.below(4) {
            faults[rng.below(faults.len())].spoil(&mut call);
        }
        compare(&mut tally, &mut rng, &call);
    }
    tally.report();
}
