//! Doubtful clocks in the records of a read (02, request 06): clocks turned over in every position, in every layout and
//! behind every mark, and that nothing else in an answer goes by them.
use harness::compare::read::{agrees, compare, Call, Outcome};
use harness::reference::coding::Mode;
use harness::rng::Rng;
use harness::tally::met::{Row, OF_WHOLE};
use harness::tally::Tally;
use harness::tracks::damage::{shifted, turn};
use harness::tracks::letters::mixed;
use harness::tracks::sketch::{contents, Control, Data, Kind, Open, Sketch};
use harness::tracks::{self, worn, Track};

/// The cells of a mark.
fn mark_cells(track: Track) -> usize {
    match track.mode() {
        Mode::Fm => 16,
        Mode::Mfm => 64,
    }
}

/// A track of two sectors, the first with this mark, a number of cells later: and the first cell behind that mark.
fn two_sectors(track: Track, kind: Kind, later: usize) -> (Sketch, usize) {
    let sketch = Sketch::new(track).blank(later).gap(2).identifier(1).gap(11).block(kind, 1).gap(4).sector(2);
    let first = sketch.blocks[0] + mark_cells(track);
    (sketch, first)
}

/// What is read of it, with so many doubtful clocks in the first sector and none in the second.
fn reads_as(tally: &mut Tally, rng: &mut Rng, call: &Call, before: &Outcome, clocks: u32) {
    let mut expected = before.clone();
    expected.reading.records[0].clocks = clocks;
    agrees(call, &compare(tally, rng, call), &expected);
}

/// Each clock of the block by itself: it is counted once, and the answer is the same.
#[test]
fn each_clock_of_a_block() {
    let mut rng = Rng::new(70);
    let mut tally = Tally::new("read", "each clock of a block turned over");
    for track in tracks::EACH {
        for (kind, later) in [(Data, 0), (Control, 3), (Open, 13)] {
            let (sketch, first) = two_sectors(track, kind, later);
            let mut call = Call::new(track, sketch.image());
            let before = compare(&mut tally, &mut rng, &call);
            reads_as(&mut tally, &mut rng, &call, &before, 0);
            for clock in 0..8 * (track.layout().size + 2) {
                turn(&mut call.image, first + 2 * clock);
                reads_as(&mut tally, &mut rng, &call, &before, 1);
                turn(&mut call.image, first + 2 * clock);
            }
        }
    }
    tally.report();
}

/// Every set of the first byte's clocks, with every first byte: the bit before it is the mark's last.
#[test]
fn every_set_of_clocks_behind_each_mark() {
    let mut rng = Rng::new(71);
    let mut tally = Tally::new("read", "every set of the clocks behind each mark");
    for (track, kind) in
        [tracks::FM, tracks::MFM].into_iter().flat_map(|track| [Data, Control, Open].map(|k| (track, k)))
    {
        for first_byte in [0x00, 0x7F, 0x80, 0xFF, 0x5A] {
            let bytes = [&[first_byte], &contents(track, 1)[1..]].concat();
            let sketch = Sketch::new(track).gap(2).identifier(1).gap(11).zeros().field(kind, &bytes).gap(4).sector(2);
            let first = sketch.blocks[0] + mark_cells(track);
            let before = compare(&mut tally, &mut rng, &Call::new(track, sketch.image()));
            for set in 0..=0xFF_u8 {
                let mut call = Call::new(track, sketch.image());
                (0..8).filter(|clock| set >> clock & 1 == 1).for_each(|clock| turn(&mut call.image, first + 2 * clock));
                reads_as(&mut tally, &mut rng, &call, &before, set.count_ones());
            }
        }
    }
    tally.report();
}

/// The clocks outside: of the address, of the gap and the (00)-bytes, and right behind the block. None is counted.
#[test]
fn each_clock_outside_a_block() {
    let mut rng = Rng::new(72);
    let mut tally = Tally::new("read", "each clock outside a block turned over");
    for track in tracks::EACH {
        let (sketch, first) = two_sectors(track, Data, 5);
        let (mark, zeros) = (mark_cells(track), if track.mode() == Mode::Fm { 6 } else { 12 });
        let mut call = Call::new(track, sketch.image());
        let before = compare(&mut tally, &mut rng, &call);
        // six bytes of the address, eleven of the gap, the (00)-bytes
        let (address, end) = (first - mark - 16 * (6 + 11 + zeros), first + 16 * (track.layout().size + 2));
        for cell in (address..first - mark).chain(end..end + 16 * 4).step_by(2) {
            turn(&mut call.image, cell);
            reads_as(&mut tally, &mut rng, &call, &before, 0);
            turn(&mut call.image, cell);
        }
        // a clock of the mark, and there is no block
        turn(&mut call.image, first - mark);
        let outcome = compare(&mut tally, &mut rng, &call);
        assert_eq!((outcome.reading.records[0].answer, outcome.reading.records[0].clocks), (23, 0), "{track:?}");
    }
    tally.report();
}

/// Turns some clocks of every block of a formatted track over, and says how many, by sector.
fn turned(rng: &mut Rng, track: Track, image: &mut [u8]) -> Vec<u32> {
    let layout = track.layout();
    let sums = (1..=layout.sectors).map(|sector| {
        let first = 8 * track.places(sector).1 + mark_cells(track);
        let mut clocks: Vec<usize> = (0..rng.below(30)).map(|_| rng.below(8 * (layout.size + 2))).collect();
        clocks.sort_unstable();
        clocks.dedup();
        clocks.iter().for_each(|clock| turn(image, first + 2 * clock));
        clocks.len() as u32
    });
    sums.collect()
}

/// On a whole track, some cells later: the sums are as many as were turned, and all else is as before.
#[test]
fn clocks_of_every_sector() {
    let mut rng = Rng::new(73);
    let mut tally = Tally::new("read", "formatted tracks with clocks turned over, shifted by 0 to 15 cells");
    for track in tracks::all() {
        for by in 0..16 {
            let (mut image, data, marks) = track.random(&mut rng);
            let sums = turned(&mut rng, track, &mut image);
            let call = Call::new(track, shifted(&mut rng, &image, by));
            let mut expected = Outcome::of_contents(track, &data, &marks).later(by);
            expected.reading.records.iter_mut().zip(&sums).for_each(|(record, &clocks)| record.clocks = clocks);
            agrees(&call, &compare(&mut tally, &mut rng, &call), &expected);
        }
    }
    tally.has_met(Row::Doubtful, &[1, 2, 3]);
    tally.report();
}

/// Whatever the other cells are: a clock turned over in a block changes its sum by one, and nothing else. (In random fields
/// it could: there a mark can stand among them.)
#[test]
fn one_clock_of_worn_tracks() {
    const INPUTS: usize = 1_500;
    let mut rng = Rng::new(74);
    let mut tally = Tally::new("read", "worn tracks with a clock of a block turned over");
    for input in 0..INPUTS {
        let track = tracks::any(&mut rng);
        let image = mixed(&mut rng, track);
        let image = if input % 2 == 0 { worn::wear(&mut rng, &image) } else { image };
        let mut call = Call::new(track, image);
        let before = compare(&mut tally, &mut rng, &call);
        let sectors = before.whole();
        let sector = match sectors[..] {
            [] => continue,
            _ => sectors[rng.below(sectors.len())],
        };
        let first = before.reading.records[sector - 1].place as usize + mark_cells(track);
        turn(&mut call.image, first + 2 * rng.below(8 * (track.layout().size + 2)));
        let mut after = compare(&mut tally, &mut rng, &call);
        let [old, new] = [&before, &after].map(|outcome| outcome.reading.records[sector - 1].clocks);
        assert_eq!(old.abs_diff(new), 1, "sector {sector}, {old} and then {new}: {call:?}");
        after.reading.records[sector - 1].clocks = old;
        agrees(&call, &after, &before);
    }
    tally.has_met(Row::Doubtful, &OF_WHOLE);
    tally.report();
}
