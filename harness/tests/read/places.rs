//! Where on the track a sector's mark begins (02, request 01), and what the clocks behind it sum to (02, request 06).
use harness::compare::read::{compare, Call, Outcome};
use harness::reference::plain_clocks::of_block;
use harness::reference::records::{at, nowhere};
use harness::rng::Rng;
use harness::station::{Record, NO_PLACE};
use harness::tally::met::{Row, ANSWERS, OF_WHOLE};
use harness::tally::Tally;
use harness::tracks::damage::{shifted, turn};
use harness::tracks::letters::{lay, lettered};
use harness::tracks::sketch::{cells_of, contents, Control, Data, Kind, Open};
use harness::tracks::{self, random, worn, Track};

/// The first data mark of each layout and the stretch from one to the next, in image bytes: 01, "Small facts" and "Order
/// on the track".
const MARKS: [(usize, usize); 4] = [(206, 376), (404, 744), (404, 1_316), (404, 2_404)];

/// The cell at which the data or control mark of a sector begins on a formatted track.
fn formatted(track: Track, sector: usize) -> usize {
    let (first, each) = MARKS[track.layout as usize];
    8 * (first + (sector - 1) * each)
}

/// Which marks can stand at the place of a sector with this answer; none where it has no place.
fn marks_of(answer: u32) -> &'static [Kind] {
    match answer {
        1 => &[Data],
        2 | 3 | 27 => &[Control],
        24 => &[Data, Control, Open],
        25 => &[Open],
        26 => &[Data, Control],
        _ => &[],
    }
}

/// Looks at the cells themselves: one of the marks stands at each place that is given, and a place is given just where the
/// answer says so; behind it as many clocks are doubtful as are given, and some are given only where the answer says a
/// whole block. Past the layout's count all is zero.
fn stand(call: &Call, outcome: &Outcome) {
    let (cells, mode) = (cells_of(&call.image), call.track.mode());
    let (sectors, past) = outcome.reading.records.split_at(call.track.layout().sectors);
    for (sector, &Record { answer, place, clocks }) in (1..).zip(sectors) {
        let (marks, from) = (marks_of(answer), cells.get(place as usize..));
        let stands = |mark: &Kind| from.map_or(false, |cells| cells.starts_with(&cells_of(mark.image(mode))));
        let is_right = if marks.is_empty() { place == NO_PLACE } else { marks.iter().any(stands) };
        assert!(is_right, "sector {sector} answers {answer} at cell {place}: {call:?}");
        let is_whole = OF_WHOLE.map(u32::from).contains(&answer);
        let sum = if is_whole { of_block(call.track.layout(), &call.image, place as usize) } else { 0 };
        assert_eq!(clocks, sum, "sector {sector} answers {answer} at cell {place}: {call:?}");
    }
    assert!(past.iter().all(|record| *record == Record::default()), "records past the last sector's: {outcome:?}");
}

#[test]
fn every_sector_of_a_formatted_track() {
    let mut rng = Rng::new(50);
    let mut tally = Tally::new("read", "places on formatted tracks");
    for track in tracks::all() {
        let (image, data, marks) = track.random(&mut rng);
        let call = Call::new(track, image);
        let outcome = compare(&mut tally, &mut rng, &call);
        let firsts = data.iter().step_by(track.layout().size);
        for (sector, (mark, first)) in (1..).zip(marks.into_iter().zip(firsts)) {
            // on cylinder 0 nothing but D is formatted behind a control mark
            let answer = match (mark, first) {
                (0xFB, _) => 1,
                (_, 0x46) => 3,
                _ => 2,
            };
            let expected = at(answer, formatted(track, sector));
            assert_eq!(outcome.reading.records[sector - 1], expected, "sector {sector}: {track:?}");
        }
        stand(&call, &outcome);
    }
    tally.report();
}

/// A formatted track some cells later, on which the first sectors and the last read by every number but 1 and 2, and of 3
/// and 27 by the one that the cylinder has: the image, and their records.
fn with_every_other(rng: &mut Rng, track: Track, by: usize) -> (Vec<u8>, [Record; 7]) {
    let (mode, last) = (track.mode(), track.layout().sectors);
    let (mut image, length) = (track.random(rng).0, Data.image(mode).len());
    let (identifier, mark) = (|sector| track.places(sector).0, |sector| formatted(track, sector) / 8);
    // sector 2 takes the number of sector 1, so that nobody has its own
    image.copy_within(identifier(1)..identifier(1) + length + 12, identifier(2));
    // the mark of 3 is spoilt, that of 4 is open, the EDC of 5 is wrong, 6 is a control record with F, and the capture ends
    // in the last block
    turn(&mut image, 8 * mark(3) + 1);
    lay(&mut image, track, 4, Open, &contents(track, 4), true);
    lay(&mut image, track, 5, Data, &contents(track, 5), false);
    lay(&mut image, track, 6, Control, &lettered(track, 6, b'F'), true);
    image.truncate(mark(last) + length + 9);
    let image = shifted(rng, &[&image[..], &[0; 2]].concat(), by);
    let found = |answer, sector| at(answer, formatted(track, sector) + by);
    let with_f = if track.cylinder == 0 { 27 } else { 3 };
    let records =
        [nowhere(22), nowhere(21), nowhere(23), found(25, 4), found(26, 5), found(with_f, 6), found(24, last)];
    (image, records)
}

#[test]
fn every_other_answer_at_any_cell() {
    let mut rng = Rng::new(51);
    let mut tally = Tally::new("read", "places of sectors that are not read, shifted by 0 to 15 cells");
    for track in tracks::EACH {
        for by in 0..16 {
            let (image, expected) = with_every_other(&mut rng, track, by);
            let call = Call::new(track, image);
            let outcome = compare(&mut tally, &mut rng, &call);
            let (records, last) = (outcome.reading.records, track.layout().sectors);
            let found = [&records[..6], &[records[last - 1]]].concat();
            assert_eq!(found, expected, "{by} cells later: {track:?}");
            stand(&call, &outcome);
        }
    }
    tally.has_met(Row::Answer, &ANSWERS);
    tally.report();
}

#[test]
fn marks_stand_at_all_places() {
    const INPUTS: usize = 2_000;
    let mut rng = Rng::new(52);
    let mut tally = Tally::new("read", "marks looked for at the places of any track");
    let mut offsets = [0; 8];
    for input in 0..INPUTS {
        let track = tracks::any(&mut rng);
        let image = [random::fields, worn::spoilt, worn::shifted, worn::cut, worn::dense][input % 5];
        let call = Call::new(track, image(&mut rng, track));
        let outcome = compare(&mut tally, &mut rng, &call);
        stand(&call, &outcome);
        let others = outcome.reading.records.iter().filter(|record| [3, 24, 25, 26, 27].contains(&record.answer));
        others.for_each(|record| offsets[record.place as usize % 8] += 1);
    }
    assert!(offsets.iter().all(|&met| met > 0), "places of such sectors by the cell of a byte: {offsets:?}");
    tally.has_met(Row::Answer, &ANSWERS);
    tally.has_met(Row::Doubtful, &OF_WHOLE);
    tally.report();
}
