//! Refused requests: each fault by itself, and which of several counts.
use crate::facts::{block_end, mark_bytes};
use harness::compare::read::Outcome;
use harness::compare::rewrite::Call;
use harness::reference::records::{at, nowhere};
use harness::rng::Rng;
use harness::tally::met::Row;
use harness::tally::Tally;
use harness::tracks::damage::{shifted, turn};
use harness::tracks::worn::LONGEST;
use harness::tracks::{self, Track};
use std::collections::BTreeSet;

/// The order in which a request is refused.
const ORDER: [u8; 10] = [2, 3, 4, 1, 9, 5, 6, 7, 10, 11];

/// One thing that is wrong with a request.
#[derive(Clone, Copy, Debug)]
enum Fault {
    Cylinder(u32),
    Side(u32),
    Layout(u32),
    ImageLength(usize),
    Sector(u32),
    ContentsLength(usize),
    Mark(u32),
    /// A control mark on cylinder 0, before another byte than the letter D.
    Control(u8),
    /// The sector reads by this number.
    Read(u8),
    /// The whole track some cells later.
    Shifted(usize),
}

impl Fault {
    fn number(self) -> u8 {
        match self {
            Fault::ImageLength(_) => 1,
            Fault::Cylinder(_) => 2,
            Fault::Side(_) => 3,
            Fault::Layout(_) => 4,
            Fault::ContentsLength(_) => 5,
            Fault::Mark(_) => 6,
            Fault::Control(_) => 7,
            Fault::Sector(_) => 9,
            Fault::Read(_) => 10,
            Fault::Shifted(_) => 11,
        }
    }

    /// Where its number stands in the order.
    fn rank(self) -> usize {
        ORDER.iter().position(|&number| number == self.number()).expect("the order has every number")
    }

    /// Puts the fault into a call that was right but for faults before this one.
    fn spoil(self, rng: &mut Rng, right: &Call, call: &mut Call) {
        match self {
            Fault::Cylinder(cylinder) => call.track.cylinder = cylinder,
            Fault::Side(side) => call.track.side = side,
            Fault::Layout(layout) => {
                call.track.layout = layout;
                // the contents follow, so that they are not wrong too
                if layout <= 3 {
                    call.contents.resize(call.track.layout().size, 0x44);
                }
            }
            Fault::ImageLength(length) => call.image.resize(length, 0xC5),
            Fault::Sector(sector) => call.sector = sector,
            Fault::ContentsLength(length) => call.contents.resize(length, 0x44),
            Fault::Mark(mark) => call.mark = mark,
            Fault::Control(first) => {
                if call.mark == right.mark {
                    call.mark = 0xF8;
                }
                call.contents.iter_mut().take(1).for_each(|byte| *byte = first);
            }
            // what has the wrong length already stays as long as it is
            Fault::Read(answer) if (1..=LONGEST).contains(&call.image.len()) => {
                unread(answer, right, &mut call.image);
            }
            Fault::Read(_) => (),
            Fault::Shifted(by) => call.image = shifted(rng, &call.image, by),
        }
    }
}

/// Changes a formatted image so that a sector reads by a number.
fn unread(answer: u8, right: &Call, image: &mut Vec<u8>) {
    let (track, sector) = (right.track, right.sector as usize);
    let (identifier, mark) = track.places(sector);
    match answer {
        21 => turn(image, 8 * identifier + 5),
        22 => {
            // the neighbour takes the same number
            let (neighbour, _) = track.places(if sector == 1 { 2 } else { sector - 1 });
            image.copy_within(identifier..identifier + mark_bytes(track) + 12, neighbour);
        }
        23 => turn(image, 8 * mark + 5),
        _ => image.truncate(block_end(track, sector) - 1),
    }
}

/// What can be wrong: numbers next to the right ones, and right ones with a high bit that might get lost.
fn faults(right: &Call) -> Vec<Fault> {
    let Track { layout, cylinder, side } = right.track;
    let (size, sectors) = (right.contents.len(), right.track.layout().sectors as u32);
    let high = |right: u32| [1 << 8 | right, 1 << 16 | right, 1 << 31 | right, u32::MAX];
    let mut faults = Vec::new();
    faults.extend([75, 76, 255].into_iter().chain(high(cylinder)).map(Fault::Cylinder));
    faults.extend([2, 3, 255].into_iter().chain(high(side)).map(Fault::Side));
    let allowed = match (cylinder, side) {
        (0, 0) => 0..=0,
        (0, _) => 1..=1,
        _ => 1..=3,
    };
    let others = (0..=5).filter(|layout| !allowed.contains(layout));
    faults.extend(others.chain(high(layout)).map(Fault::Layout));
    faults.extend([0, LONGEST + 1, 45_056].map(Fault::ImageLength));
    faults.extend([0, sectors + 1, 27, 255].into_iter().chain(high(right.sector)).map(Fault::Sector));
    faults.extend([0, 1, size / 2, size - 1, size + 1, 2 * size].map(Fault::ContentsLength));
    faults.extend([0, 0xF9, 0xFA, 0xFC, 0xFE, 0xFF].into_iter().chain(high(0xFB)).chain(high(0xF8)).map(Fault::Mark));
    if cylinder == 0 {
        faults.extend([0x00, 0x43, 0x45, 0x46, 0xC4, 0xFF].map(Fault::Control));
    }
    faults.extend([21, 22, 23, 24].map(Fault::Read));
    faults.extend([1, 4, 15].map(Fault::Shifted));
    faults
}

/// Calls that are right, on every kind of track, of which three sectors are there.
fn right_calls(tally: &mut Tally, rng: &mut Rng) -> Vec<Call> {
    let tracks = [Track { layout: 1, cylinder: 0, side: 1 }].into_iter().chain(tracks::EACH);
    let mut calls = Vec::new();
    for track in tracks {
        let (image, ..) = track.random(rng);
        let sector = 1 + rng.below(3);
        let call = Call::new(rng, track, sector, &image[..track.places(4).0]);
        assert_eq!(call.request(tally, rng).0, 0, "{call:?}");
        calls.push(call);
    }
    calls
}

#[test]
fn each_refusal_alone() {
    let mut rng = Rng::new(40);
    let mut tally = Tally::new("request", "each refusal alone");
    for right in right_calls(&mut tally, &mut rng) {
        for fault in faults(&right) {
            let mut call = right.clone();
            fault.spoil(&mut rng, &right, &mut call);
            if let Fault::Read(answer) = fault {
                let sector = call.sector as usize;
                let found = Outcome::of_image(call.track, &call.image).reading.records[sector - 1];
                let (_, mark) = call.track.places(sector);
                let expected = if answer == 24 { at(24, 8 * mark) } else { nowhere(answer.into()) };
                assert_eq!(found, expected, "read: {call:?}");
            }
            assert_eq!(call.request(&mut tally, &mut rng), (fault.number(), [0; 4]), "{fault:?}: {call:?}");
            tally.input();
        }
    }
    tally.has_met(Row::Request, &ORDER);
    tally.report();
}

#[test]
fn two_faults_at_once() {
    let mut rng = Rng::new(41);
    let mut tally = Tally::new("request", "two faults at once");
    let mut pairs = BTreeSet::new();
    for right in right_calls(&mut tally, &mut rng) {
        let faults = faults(&right);
        for &first in &faults {
            for &second in faults.iter().filter(|second| second.rank() > first.rank()) {
                let mut call = right.clone();
                first.spoil(&mut rng, &right, &mut call);
                second.spoil(&mut rng, &right, &mut call);
                let answer = (first.number(), [0; 4]);
                assert_eq!(call.request(&mut tally, &mut rng), answer, "{first:?} and {second:?}: {call:?}");
                pairs.insert((first.rank(), second.rank()));
                tally.input();
            }
        }
    }
    assert_eq!(pairs.len(), 10 * 9 / 2, "pairs of numbers");
    tally.report();
}

#[test]
fn letter_d() {
    let mut rng = Rng::new(42);
    let mut tally = Tally::new("request", "first bytes after either mark");
    for mut call in right_calls(&mut tally, &mut rng) {
        for mark in [0xFB, 0xF8] {
            for first in 0..=0xFF {
                (call.mark, call.contents[0]) = (mark, first);
                let is_wrong = call.track.cylinder == 0 && mark == 0xF8 && first != 0x44;
                let number = call.request(&mut tally, &mut rng).0;
                assert_eq!(number, if is_wrong { 7 } else { 0 }, "{first:02X}: {call:?}");
                tally.input();
            }
        }
    }
    tally.report();
}

#[test]
fn images_of_any_length() {
    let mut rng = Rng::new(43);
    let mut tally = Tally::new("request", "images of any length");
    for right in right_calls(&mut tally, &mut rng) {
        for length in (0..=3).chain(LONGEST - 2..=LONGEST + 3) {
            let mut call = right.clone();
            call.image.resize(length, 0x92);
            // so short an image holds no sector
            let number = match length {
                1..=3 => 10,
                4..=LONGEST => 0,
                _ => 1,
            };
            assert_eq!(call.request(&mut tally, &mut rng).0, number, "{call:?}");
            tally.input();
        }
    }
    tally.report();
}

#[test]
fn layouts_tracks_and_sectors() {
    let mut rng = Rng::new(44);
    let mut tally = Tally::new("request", "any layout on any cylinder and side");
    let mut accepted = 0;
    for layout in 0..=5 {
        for cylinder in 0..=76 {
            for side in 0..=2 {
                let track = Track { layout: layout.min(3), cylinder, side };
                let sector = [0, 1, 8, 9, 15, 16, 26, 27][rng.below(8)];
                let mut call = Call::new(&mut rng, track, sector, &[0x4E; 100]);
                call.track.layout = layout;
                // 9 or 10 once the track is accepted
                accepted += usize::from(call.request(&mut tally, &mut rng).0 >= 9);
                tally.input();
            }
        }
    }
    // one layout on each side of cylinder 0, three on each side of the others
    assert_eq!(accepted, 2 + 74 * 2 * 3, "accepted tracks");
    tally.report();
}
