//! Calls with wrong numbers and lengths. Most of their arguments are right, so that the later ones are looked at too.
use harness::compare::rewrite::Sides;
use harness::compare::{format, pick, read, rewrite};
use harness::reference::rewrite::Plan;
use harness::rng::Rng;
use harness::tally::Tally;
use harness::tracks::{self, letters, Track};

/// One call of each kind.
pub fn calls(rng: &mut Rng) -> Vec<Tally> {
    let subjects = ["format", "read", "pick", "request", "step"];
    let mut tallies = subjects.map(|subject| Tally::new(subject, "any numbers and lengths"));
    // cylinder 0 has a refusal of its own
    let track = if rng.below(3) == 0 { tracks::all()[rng.below(2)] } else { tracks::any(rng) };
    formats(&mut tallies[0], rng, track);
    let (image, ..) = track.random(rng);
    reads(&mut tallies[1], rng, track, &image);
    picks(&mut tallies[2], rng, track);
    let sector = 1 + rng.below(track.layout().sectors);
    let right = rewrite::Call::new(rng, track, sector, &image);
    requests(&mut tallies[3], rng, &right);
    steps(&mut tallies[4], rng, &right);
    tallies.into()
}

/// A number: most often the right one.
fn number(rng: &mut Rng, right: u32) -> u32 {
    match rng.below(24) {
        0 => [0, 1, 2, 3, 4, 26, 27, 75, 255, 1 << 31, u32::MAX][rng.below(11)],
        1 => right.wrapping_add(1),
        2 => 1 << (8 + rng.below(24)) | right,
        3 => rng.bits() as u32,
        _ => right,
    }
}

/// Bytes: most often as many as there are.
fn resize(rng: &mut Rng, bytes: &mut Vec<u8>) {
    let length = match rng.below(24) {
        0 => 0,
        1 => bytes.len() + 1,
        2 => bytes.len().saturating_sub(1),
        3 => rng.below(30_000),
        _ => bytes.len(),
    };
    bytes.resize(length, rng.byte());
}

/// A first byte: often one of the papers' letters.
fn letter(rng: &mut Rng) -> u8 {
    let other = rng.byte();
    letters::letter(rng, other)
}

fn numbers(rng: &mut Rng, track: Track) -> Track {
    let Track { layout, cylinder, side } = track;
    Track { layout: number(rng, layout), cylinder: number(rng, cylinder), side: number(rng, side) }
}

fn formats(tally: &mut Tally, rng: &mut Rng, track: Track) {
    let mut call = format::Call::new(rng, track);
    call.track = numbers(rng, track);
    if rng.below(2) == 0 {
        // another mark, or another first byte behind it
        let slot = rng.below(call.marks.len());
        call.marks[slot] = [rng.byte(), 0xF8][rng.below(2)];
        call.data[slot * track.layout().size] = letter(rng);
    }
    for bytes in [&mut call.data, &mut call.marks, &mut call.image] {
        resize(rng, bytes);
    }
    format::compare(tally, rng, &call);
}

fn reads(tally: &mut Tally, rng: &mut Rng, track: Track, image: &[u8]) {
    let (mut image, mut area) = (image.to_vec(), vec![0; track.layout().area_bytes()]);
    resize(rng, &mut image);
    resize(rng, &mut area);
    let track = numbers(rng, track);
    read::compare(tally, rng, &read::Call { track, image, area: area.len() });
}

fn picks(tally: &mut Tally, rng: &mut Rng, track: Track) {
    let mut call = pick::Call::new(rng, track);
    (call.layout, call.sector) = (number(rng, call.layout), number(rng, call.sector));
    resize(rng, &mut call.first.area);
    resize(rng, &mut call.second.area);
    pick::compare(tally, rng, &call);
}

fn requests(tally: &mut Tally, rng: &mut Rng, right: &rewrite::Call) {
    let mut call = right.clone();
    call.track = numbers(rng, call.track);
    (call.sector, call.mark) = (number(rng, call.sector), number(rng, call.mark));
    if rng.below(2) == 0 {
        (call.mark, call.contents[0]) = (0xF8, letter(rng));
    }
    resize(rng, &mut call.contents);
    resize(rng, &mut call.image);
    call.request(tally, rng);
    tally.input();
}

/// Some steps in a row on one image, each with a plan of its own.
fn steps(tally: &mut Tally, rng: &mut Rng, right: &rewrite::Call) {
    let mut image = right.image.clone();
    resize(rng, &mut image);
    let plan = right.plan(tally, rng);
    let mut sides = Sides::new(rng, &image);
    for _ in 0..10 {
        let made = rng.below(plan[3] as usize + 1) as u32;
        let [layout, place, _, all] = plan;
        let mut plan: Plan = [layout, place, made, all].map(|right| number(rng, right));
        let mut contents = right.contents.clone();
        resize(rng, &mut contents);
        sides.step(tally, &mut plan, number(rng, right.mark), &contents);
        tally.input();
    }
}
