//! The pick from two passes: the reference against the papers (01, "Two passes"; 02, requests 01 and 04), and
//! `station_pick` against the reference.
use harness::compare::pick::{compare, Call, Outcome, Pass};
use harness::compare::read::any_record;
use harness::reference::pick::{pick, Pick};
use harness::reference::records::{at, doubtful, nowhere};
use harness::rng::Rng;
use harness::station::{Record, MOST_SECTORS, NO_PLACE};
use harness::tally::met::{Row, ANSWERS};
use harness::tally::Tally;
use harness::tracks;

#[test]
fn first_before_second_before_neither() {
    let mut rng = Rng::new(1);
    let mut tally = Tally::new("pick", "every pair of answers");
    for track in tracks::all() {
        let layout = track.layout();
        let size = layout.size;
        let (first, second) = (Pass::all(track, 0x11, nowhere(22)), Pass::all(track, 0x22, nowhere(22)));
        let mut call = Call { layout: track.layout, sector: 1, first, second };
        for sector in 1..=layout.sectors {
            for (one, other) in ANSWERS.into_iter().flat_map(|one| ANSWERS.map(|other| (one, other))) {
                // the passes' own places and clocks, so that one is not taken for the other
                let one = doubtful(one.into(), 1_000 + sector, 3_000 + sector as u32);
                let other = doubtful(other.into(), 2_000 + sector, 4_000 + sector as u32);
                call.first.records = [nowhere(22); MOST_SECTORS];
                call.second.records = [nowhere(22); MOST_SECTORS];
                (call.first.records[sector - 1], call.second.records[sector - 1]) = (one, other);
                call.sector = sector as u32;
                let Call { layout, sector: number, first, second } = &call;
                let picked = pick(*layout, *number, first.lent(), second.lent());
                let slot = (sector - 1) * size..sector * size;
                let [start, length] = [slot.start as u32, size as u32];
                let [has_one, has_other] = [one, other].map(|record| [1, 2, 3].contains(&record.answer));
                let (expected, numbers) = match (has_one, has_other) {
                    (true, _) => (Pick::First(one, &first.area[slot]), Outcome::new([1, start, length], one)),
                    (false, true) => (Pick::Second(other, &second.area[slot]), Outcome::new([2, start, length], other)),
                    (false, false) => (Pick::Neither(one), Outcome::new([0; 3], one)),
                };
                assert_eq!(picked, expected, "sector {sector}, records {one:?} and {other:?}: {track:?}");
                let found = compare(&mut tally, &mut rng, &call);
                assert_eq!(found, numbers, "sector {sector}, {one:?} and {other:?}: {track:?}");
            }
        }
    }
    tally.report();
}

/// The record that is handed on, in numbers: that of the pass taken, of the first pass where neither answered 1, 2 or 3,
/// and none of a refused call.
#[test]
fn the_record_that_is_handed_on() {
    // the passes' own places and clocks
    const ONE: [u32; 2] = [8 * 404, 5];
    const TWO: [u32; 2] = [8 * 404 + 1, 7];
    const NONE: [u32; 2] = [NO_PLACE, 0];
    let mut rng = Rng::new(5);
    let mut tally = Tally::new("pick", "the record that is handed on");
    let (right, short) = (26 * 256, 26 * 256 - 1);
    // both passes' records and the length of the second area; number, what is taken, the record
    let cases = [
        ([(1, ONE), (2, TWO)], right, 1, [1, 512, 256], (1, ONE)),
        ([(2, [0; 2]), (26, TWO)], right, 2, [1, 512, 256], (2, [0; 2])),
        ([(26, ONE), (2, TWO)], right, 2, [2, 512, 256], (2, TWO)),
        ([(24, ONE), (23, NONE)], right, 24, [0, 0, 0], (24, ONE)),
        ([(21, NONE), (25, TWO)], right, 21, [0, 0, 0], (21, NONE)),
        // H8: a defective area of the first pass goes before what the second has, and 27 has nothing
        ([(3, ONE), (1, TWO)], right, 3, [1, 512, 256], (3, ONE)),
        ([(3, ONE), (2, TWO)], right, 3, [1, 512, 256], (3, ONE)),
        ([(1, ONE), (3, TWO)], right, 1, [1, 512, 256], (1, ONE)),
        ([(26, ONE), (3, TWO)], right, 3, [2, 512, 256], (3, TWO)),
        ([(27, ONE), (3, TWO)], right, 3, [2, 512, 256], (3, TWO)),
        ([(27, ONE), (2, TWO)], right, 2, [2, 512, 256], (2, TWO)),
        ([(27, ONE), (26, TWO)], right, 27, [0, 0, 0], (27, ONE)),
        ([(26, ONE), (27, TWO)], right, 26, [0, 0, 0], (26, ONE)),
        // no answer's number is handed on as 21, and the other two as they are
        ([(257, ONE), (258, TWO)], right, 21, [0, 0, 0], (21, ONE)),
        ([(4, ONE), (259, TWO)], right, 21, [0, 0, 0], (21, ONE)),
        ([(28, ONE), (27, TWO)], right, 21, [0, 0, 0], (21, ONE)),
        ([(0, [0; 2]), (26, TWO)], right, 21, [0, 0, 0], (21, [0; 2])),
        ([(u32::MAX, ONE), (1, NONE)], right, 1, [2, 512, 256], (1, NONE)),
        ([(1, ONE), (1, TWO)], short, 5, [0, 0, 0], (0, [0; 2])),
        ([(26, ONE), (23, NONE)], short, 5, [0, 0, 0], (0, [0; 2])),
    ];
    for ([one, other], length, number, taken, handed_on) in cases {
        let record = |(answer, [place, clocks]): (u32, [u32; 2])| Record { answer, place, clocks };
        let [one, other, handed_on] = [one, other, handed_on].map(record);
        let (mut first, mut second) = (Pass::all(tracks::MFM, 1, at(1, 1)), Pass::all(tracks::MFM, 2, at(2, 2)));
        (first.records[2], second.records[2]) = (one, other);
        second.area.resize(length, 2);
        let found = compare(&mut tally, &mut rng, &Call { layout: 1, sector: 3, first, second });
        assert_eq!(found, Outcome { number, taken, record: handed_on }, "{one:?} and {other:?}");
    }
    tally.report();
}

#[test]
fn every_pair_of_numbers() {
    let mut rng = Rng::new(2);
    let mut tally = Tally::new("pick", "every pair of numbers in the answers");
    let mut call = Call::new(&mut rng, tracks::FM);
    call.sector = 8;
    // all bytes, and numbers whose low byte is an answer's
    let high = ANSWERS.into_iter().flat_map(|low| [8, 16, 31].map(|high| 1 << high | u32::from(low)));
    let numbers: Vec<u32> = (0..=0xFF).chain(high).chain([u32::MAX]).collect();
    for &one in &numbers {
        for &other in &numbers {
            let [first, second] = [one, other].map(|answer| Record { answer, ..any_record(&mut rng) });
            (call.first.records[7], call.second.records[7]) = (first, second);
            // a number that is no answer's counts as 21, and what stands beside it is handed on as it is
            let (taken, record) = match (one, other) {
                (1..=3, _) => ([1, 7 * 128, 128], first),
                (_, 1..=3) => ([2, 7 * 128, 128], second),
                (21..=27, _) => ([0; 3], first),
                _ => ([0; 3], Record { answer: 21, ..first }),
            };
            let expected = Outcome::new(taken, record);
            assert_eq!(compare(&mut tally, &mut rng, &call), expected, "{one} and {other}");
        }
    }
    tally.report();
}

#[test]
fn random_records() {
    const INPUTS: usize = 5_000;
    let mut rng = Rng::new(3);
    let mut tally = Tally::new("pick", "random records");
    for _ in 0..INPUTS {
        let track = tracks::any(&mut rng);
        let call = Call::new(&mut rng, track);
        compare(&mut tally, &mut rng, &call);
    }
    tally.report();
}

#[test]
fn refusals() {
    let mut tally = Tally::of_reference("pick", "refusals");
    let right = Pass::all(tracks::FM, 0, at(1, 404));
    let short = Pass { area: vec![0; 26 * 128 - 1], ..right.clone() };
    for (layout, sector, first, second, number) in [
        (4, 0, &short, &short, 4),
        (u32::MAX, 1, &right, &right, 4),
        (0, 0, &short, &short, 9),
        (0, 27, &right, &right, 9),
        (0, 1 << 16 | 1, &right, &right, 9),
        (0, 1, &short, &right, 5),
        // though the first pass alone would do
        (0, 26, &right, &short, 5),
    ] {
        let answer = pick(layout, sector, first.lent(), second.lent());
        assert_eq!(answer, Pick::Refused(number), "layout {layout}, sector {sector}");
        tally.input();
        tally.met(Row::Pick, number);
    }
    assert_eq!(pick(0, 26, right.lent(), right.lent()), Pick::First(at(1, 404), &right.area[25 * 128..]));
    tally.report();
}

#[test]
fn any_numbers_and_lengths() {
    let mut rng = Rng::new(4);
    let mut tally = Tally::new("pick", "any numbers and lengths");
    for track in tracks::EACH {
        let right = Call::new(&mut rng, track);
        let (area, sectors) = (right.first.area.len(), track.layout().sectors as u32);
        let high = |right: u32| [1 << 8 | right, 1 << 16 | right, 1 << 31 | right, u32::MAX];
        let layouts: Vec<u32> = [track.layout, 4, 5, 255].into_iter().chain(high(track.layout)).collect();
        let sectors: Vec<u32> = [1, sectors, 0, sectors + 1, 27, 255].into_iter().chain(high(1)).collect();
        let lengths = [area, 0, 1, area - 1, area + 1, 26 * 128, 8 * 1_024];
        for (layout, sector) in layouts.iter().flat_map(|&layout| sectors.iter().map(move |&sector| (layout, sector))) {
            for (one, other) in lengths.into_iter().flat_map(|one| lengths.map(|other| (one, other))) {
                let mut call = Call { layout, sector, ..right.clone() };
                call.first.area.resize(one, 0x11);
                call.second.area.resize(other, 0x22);
                let refusal = match track.layout().sectors as u32 {
                    _ if layout > 3 => Some(4),
                    sectors if sector == 0 || sector > sectors => Some(9),
                    _ if one != area || other != area => Some(5),
                    _ => None,
                };
                let outcome = compare(&mut tally, &mut rng, &call);
                let expected = refusal.map_or(outcome, Outcome::refused);
                assert_eq!(outcome, expected, "layout {layout}, sector {sector}, areas of {one} and {other} bytes");
            }
        }
    }
    tally.has_met(Row::Pick, &[4, 5, 9]);
    tally.report();
}
