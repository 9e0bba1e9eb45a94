//! Doubtful clocks and rewrites (02, request 06): those of every other sector stay, whatever is cut; those of the sector that
//! is rewritten are gone after the last store.
use crate::cuts::every_cut;
use crate::facts::{block_end, mark_bytes};
use harness::compare::read::Outcome;
use harness::compare::rewrite::Call;
use harness::reference::coding::Mode;
use harness::rng::Rng;
use harness::tally::Tally;
use harness::tracks::damage::turn;
use harness::tracks::sketch::{Data, Identifier, Sketch};
use harness::tracks::{self, Track};

/// A formatted track with as many doubtful clocks in each sector as its number says: the first ones, the last ones, and one
/// in the middle.
fn doubtful(rng: &mut Rng, track: Track) -> Vec<u8> {
    let (mut image, ..) = track.random(rng);
    let clocks = 8 * (track.layout().size + 2);
    for sector in 1..=track.layout().sectors {
        let first = 8 * (track.places(sector).1 + mark_bytes(track));
        let from_both_ends = [0, clocks - 1, clocks / 2].into_iter().chain((1..).flat_map(|at| [at, clocks - 1 - at]));
        from_both_ends.take(sector).for_each(|clock| turn(&mut image, first + 2 * clock));
    }
    image
}

/// The sums in the records.
fn sums(track: Track, image: &[u8]) -> Vec<u32> {
    let records = Outcome::of_image(track, image).reading.records;
    records[..track.layout().sectors].iter().map(|record| record.clocks).collect()
}

/// A call for a sector with this mark and this first byte.
fn call(rng: &mut Rng, track: Track, sector: usize, mark: u32, first: u8, image: &[u8]) -> Call {
    let mut call = Call { mark, ..Call::new(rng, track, sector, image) };
    call.contents[0] = first;
    call
}

/// Marks and first bytes, which begin with ZERO and with ONE. Cylinder 0 takes no other than D, hex 44, behind F8.
const RECORDS: [(u32, u8); 4] = [(0xFB, 0x00), (0xFB, 0xFF), (0xF8, 0x44), (0xF8, 0xC4)];

/// `every_cut` compares whole records, and looks at the sector under way by the literal count.
#[test]
fn cut_after_every_store() {
    let mut rng = Rng::new(110);
    let mut tally =
        Tally::new("rewrite", "tracks with doubtful clocks in all sectors, cut after every number of stores");
    for track in tracks::EACH {
        let image = doubtful(&mut rng, track);
        let mut expected: Vec<u32> = (1..=track.layout().sectors as u32).collect();
        assert_eq!(sums(track, &image), expected, "{track:?}");
        // those that cylinder 0 takes, all, and of the longer sectors one each
        let records = [&RECORDS[..3], &RECORDS, &RECORDS[2..3], &RECORDS[3..]][track.layout as usize];
        for &(mark, first) in records {
            let call = call(&mut rng, track, 3, mark, first, &image);
            every_cut(&mut tally, &mut rng, &call);
            // in numbers, without what the harness expects
            expected[2] = 0;
            assert_eq!(sums(track, &call.done()), expected, "{call:?}");
        }
    }
    tally.report();
}

/// J4: before the last store all bytes are new, but the open mark stands before them, which ends with ONE as FB does. Where
/// the new mark is F8, which ends with ZERO, and the first bit is ZERO, the first clock is doubtful, in MFM.
#[test]
fn j4_before_the_last_store() {
    let mut rng = Rng::new(111);
    let mut tally = Tally::new("rewrite", "before the last store");
    for track in tracks::all() {
        let image = doubtful(&mut rng, track);
        for &(mark, first) in if track.cylinder == 0 { &RECORDS[..3] } else { &RECORDS[..] } {
            let call = call(&mut rng, track, 2, mark, first, &image);
            let plan = call.plan(&mut tally, &mut rng);
            let is_seen = track.mode() == Mode::Mfm && (mark, first) == (0xF8, 0x44);
            call.rewritten(&mut tally, &mut rng, plan, |made, image| {
                if made + 1 == plan[3] as usize {
                    assert_eq!(sums(track, image)[1], u32::from(is_seen), "{call:?}");
                }
            });
            tally.input();
        }
    }
    tally.report();
}

/// D7: the byte behind the block has its first clock set or cleared. Whatever stands there, no other sector's sum sees it:
/// not where the next sector follows at once, and not where it ends with the image.
#[test]
fn d7_the_byte_behind_the_block() {
    let mut rng = Rng::new(112);
    let mut tally = Tally::new("rewrite", "any byte behind the block");
    for track in [tracks::FM, tracks::MFM] {
        let image = doubtful(&mut rng, track);
        let end = block_end(track, 4);
        for octet in 0..=0xFF {
            let mut image = image[..block_end(track, 6)].to_vec();
            image[end] = octet;
            last_stores(&mut tally, &mut rng, track, 4, &image);
        }
        for clock in 0..8 * (track.layout().size + 2) {
            last_stores(&mut tally, &mut rng, track, 1, &next_at_once(track, clock));
        }
    }
    tally.report();
}

/// Two sectors, the second of which begins right behind the block of the first, with this clock doubtful. Its identifier mark
/// begins with the cell that a rewrite of the first may set.
fn next_at_once(track: Track, clock: usize) -> Vec<u8> {
    let first = Sketch::new(track).gap(4).identifier(1).gap(11).block(Data, 1);
    let second = first.field(Identifier, &track.address(2)).gap(11).block(Data, 2);
    second.turned(16 * (track.layout().size + 2) - 2 * clock).image()
}

/// A rewrite of the sector, which is read before the last five stores, between them and after.
fn last_stores(tally: &mut Tally, rng: &mut Rng, track: Track, sector: usize, image: &[u8]) {
    let call = call(rng, track, sector, 0xFB, 0x00, image);
    let plan = call.plan(tally, rng);
    let (before, all) = (call.before(plan), plan[3] as usize);
    call.rewritten(tally, rng, plan, |made, image| {
        if made + 5 >= all {
            let expected = call.expected(&before, made, all, image);
            assert_eq!(Outcome::of_image(track, image), expected, "read after {made} of {all} stores: {call:?}");
        }
    });
    tally.input();
}
