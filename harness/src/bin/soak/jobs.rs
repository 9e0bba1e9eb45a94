//! The jobs of which each round does one.
use crate::hostile;
use harness::captures::{hostile as hostile_captures, Turn};
use harness::compare::read::Outcome;
use harness::compare::{difference, file, flux, format, pick, read, rewrite};
use harness::files::{self, hostile as hostile_files, Contents};
use harness::reference::rewrite::{request, Plan};
use harness::rng::Rng;
use harness::station::MOST_TRACKS;
use harness::tally::Tally;
use harness::tracks::sketch::Data;
use harness::tracks::worn::{self, LONGEST};
use harness::tracks::{self, letters, random, Track};

/// Images, each by the kind of its track.
type Image = fn(&mut Rng, Track) -> Vec<u8>;

const IMAGES: [(&str, Image); 11] = [
    ("clean tracks", |rng, track| track.random(rng).0),
    ("tracks with records of other stations", letters::mixed),
    ("tracks with cells turned over", worn::turned),
    ("spoilt tracks", worn::spoilt),
    ("shifted tracks", worn::shifted),
    ("tracks of more than a turn", worn::two_turns),
    ("cut tracks", worn::cut),
    ("another track", |rng, _| tracks::any(rng).random(rng).0),
    ("random fields", fields),
    ("noise", worn::noise),
    ("dense noise", worn::dense),
];

/// The few that are too long to be read are cut.
fn fields(rng: &mut Rng, track: Track) -> Vec<u8> {
    let mut image = random::fields(rng, track);
    image.truncate(LONGEST);
    image
}

/// The work of one round.
pub fn any(rng: &mut Rng) -> Vec<Tally> {
    match rng.below(12) {
        0 => formatted(rng),
        1..=4 => vec![captured(rng)],
        5 | 6 => rewritten(rng),
        7 => two_passes(rng),
        8 | 9 => hostile::calls(rng),
        10 => sent(rng),
        _ => stamped(rng),
    }
}

/// Contents are formatted, and read back.
fn formatted(rng: &mut Rng) -> Vec<Tally> {
    let mut tallies = [("format", "random contents"), ("read", "tracks just formatted")].map(|(a, b)| Tally::new(a, b));
    let track = tracks::any(rng);
    let call = format::Call::new(rng, track);
    assert_eq!(format::compare(&mut tallies[0], rng, &call), 0, "{call:?}");
    let image = track.formatted(&call.data, &call.marks);
    let outcome = read::compare(&mut tallies[1], rng, &read::Call::new(track, image));
    let expected = Outcome::of_contents(track, &call.data, &call.marks);
    assert!(outcome == expected, "{outcome:?} does not hold the contents: {call:?}");
    tallies.into()
}

/// Some image is read.
fn captured(rng: &mut Rng) -> Tally {
    let (kind, image) = IMAGES[rng.below(IMAGES.len())];
    let mut tally = Tally::new("read", kind);
    let track = tracks::any(rng);
    let call = read::Call::new(track, image(rng, track));
    read::compare(&mut tally, rng, &call);
    tally
}

/// A sector of some image is rewritten, cut after any store, read, and begun anew with other contents.
fn rewritten(rng: &mut Rng) -> Vec<Tally> {
    let (kind, image) = IMAGES[rng.below(IMAGES.len())];
    let mut tallies = [Tally::new("rewrite", kind), Tally::new("read", "rewrites cut after any store")];
    let track = tracks::any(rng);
    let image = image(rng, track);
    // most often one that can be found
    let whole = Outcome::of_image(track, &image).whole();
    let sector = match whole.len() {
        found if found > 0 && rng.below(4) > 0 => whole[rng.below(found)],
        _ => 1 + rng.below(track.layout().sectors),
    };
    let mut call = rewrite::Call::new(rng, track, sector, &image);
    noise_behind(rng, &mut call);
    let whole = Outcome::of_image(track, &call.image).whole();
    let (number, plan) = call.request(&mut tallies[0], rng);
    assert_eq!(number == 10, !whole.contains(&sector), "{number}, where {whole:?} are whole: {call:?}");
    tallies[0].input();
    if number == 0 {
        cut_and_begun_anew(&mut tallies, rng, &call, plan);
    }
    tallies.into()
}

/// Puts a random byte right behind the block, if that is found: all gaps begin with the same cells.
fn noise_behind(rng: &mut Rng, call: &mut rewrite::Call) {
    let (number, [_, place, ..]) = call.asked(rng, request);
    let mark = Data.image(call.track.mode()).len();
    let end = place as usize / 8 + mark + 2 * (call.contents.len() + 2);
    if number == 0 && end < call.image.len() {
        call.image[end] = rng.byte();
    }
}

fn cut_and_begun_anew([rewrites, reads]: &mut [Tally; 2], rng: &mut Rng, call: &rewrite::Call, plan: Plan) {
    let all = plan[3] as usize;
    let (cut, mut left) = (rng.below(all + 1), Vec::new());
    call.rewritten(rewrites, rng, plan, |made, image| {
        if made == cut {
            left = image.to_vec();
        }
    });
    read::compare(reads, rng, &read::Call::new(call.track, left.clone()));
    let expected = call.expected(&call.before(plan), cut, all, &left);
    assert_eq!(Outcome::of_image(call.track, &left), expected, "read after {cut} of {all} stores: {call:?}");
    let other = call.other(rng);
    let (uncut, anew) = (other.done(), rewrite::Call { image: left, ..other }.done());
    assert!(anew == uncut, "{}, begun anew after {cut} stores: {call:?}", difference(&anew, &uncut));
}

/// A track is captured twice, and each sector is picked.
fn two_passes(rng: &mut Rng) -> Vec<Tally> {
    let mut tallies = [("read", "worn tracks captured twice"), ("pick", "sectors of worn tracks captured twice")]
        .map(|(subject, kind)| Tally::new(subject, kind));
    let track = tracks::any(rng);
    let image = letters::mixed(rng, track);
    let mut pass = || {
        let call = read::Call::new(track, worn::wear(rng, &image));
        read::compare(&mut tallies[0], rng, &call)
    };
    let [first, second] =
        [pass(), pass()].map(|Outcome { area, reading, .. }| pick::Pass { area, records: reading.records });
    let mut call = pick::Call { layout: track.layout, sector: 0, first, second };
    for sector in 1..=track.layout().sectors {
        call.sector = sector as u32;
        pick::compare(&mut tallies[1], rng, &call);
    }
    tallies.into()
}

/// Files are sent from bench to bench: one is written and read back, others are not what they should be.
fn sent(rng: &mut Rng) -> Vec<Tally> {
    const HOSTILE: usize = 20;
    let (kind, hostile_file) = hostile_files::FILES[rng.below(hostile_files::FILES.len())];
    let mut tallies = ["contents written and read back", "contents with any sections wrong", kind]
        .map(|kind| Tally::new("file", kind));
    let contents = match rng.below(10) {
        0 => {
            let count = rng.below(MOST_TRACKS + 1);
            let tracks = files::tracks(rng, count);
            Contents::new(rng, &tracks)
        }
        _ => files::small(rng),
    };
    let area = contents.file().len() + rng.below(3) * rng.below(500);
    file::round_trip(&mut tallies[0], rng, &contents, area);
    for _ in 0..HOSTILE {
        let contents = hostile_files::contents(rng);
        let area = hostile_files::area(rng, contents.file().len());
        file::write(&mut tallies[1], rng, &contents, area);
        let file = hostile_file(rng);
        file::read(&mut tallies[2], rng, &file);
    }
    tallies.into()
}

/// Flux transitions come from the board: a track that is turned into cells and read, and captures that are not what they
/// should be.
fn stamped(rng: &mut Rng) -> Vec<Tally> {
    const HOSTILE: usize = 20;
    let (kind, hostile_capture) = hostile_captures::KINDS[rng.below(hostile_captures::KINDS.len())];
    let mut tallies = ["tracks with jitter and drift", kind].map(|kind| Tally::new("flux", kind));
    let track = tracks::EACH_MFM[rng.below(tracks::EACH_MFM.len())];
    let (image, data, marks) = track.random(rng);
    // where a cell has so many ticks, no interval leaves its band
    let ticks = 100 + rng.below(925) as u32;
    let (jitter, drift) = (rng.below(41) as u32, rng.below(1_001) as i32 - 400);
    let turn = Turn { ticks, first: hostile_captures::first(rng), jitter, drift };
    let capture = turn.capture(rng, &image);
    let call = flux::Call::new(rng, &capture, image.len());
    let outcome = flux::compare(&mut tallies[0], rng, &call);
    assert!(outcome.image == image, "{}, not the track's cells: {turn:?}", outcome.number);
    let expected = Outcome::of_contents(track, &data, &marks);
    assert_eq!(Outcome::of_image(track, &outcome.image), expected, "what is read: {turn:?}");
    for _ in 0..HOSTILE {
        let capture = hostile_capture(rng);
        let length = hostile_captures::room(rng, capture.cells().unwrap_or(3 * capture.stamps.len()));
        let call = flux::Call::new(rng, &capture, length);
        flux::compare(&mut tallies[1], rng, &call);
    }
    tallies.into()
}
