//! H5: sectors that answer 3 and 27 can be rewritten, and a sector can be rewritten so that it answers 3 (02, request 04).
use crate::cuts::every_cut;
use crate::facts::block_end;
use crate::rewrite;
use harness::compare::difference;
use harness::compare::read::Outcome;
use harness::compare::rewrite::{Call, Sides};
use harness::reference::records::at;
use harness::rng::Rng;
use harness::tally::Tally;
use harness::tracks::letters::{lay, CYLINDER_0, OTHERS};
use harness::tracks::sketch::{Control, Data, Kind, Open};
use harness::tracks::Track;

/// A block as it is laid over a sector's: mark, first byte, whether its EDC is right.
type Block = (Kind, u8, bool);

/// A formatted track that ends behind its sixth sector, and has these blocks in the first ones.
fn laid(rng: &mut Rng, track: Track, blocks: &[Block]) -> Vec<u8> {
    let (mut image, ..) = track.random(rng);
    for (sector, &(kind, first, is_right)) in (1..).zip(blocks) {
        let mut bytes = rng.bytes(track.layout().size);
        bytes[0] = first;
        lay(&mut image, track, sector, kind, &bytes, is_right);
    }
    image.truncate(block_end(track, 6) + 20);
    image
}

/// Those, read, have to answer so.
fn answer(track: Track, image: &[u8], answers: &[u32]) {
    let records = (1..).zip(answers).map(|(sector, &answer)| at(answer, 8 * track.places(sector).1));
    let found = Outcome::of_image(track, image).reading.records;
    assert_eq!(found[..answers.len()], records.collect::<Vec<_>>(), "{track:?}");
}

/// A call for a sector with this mark and this first byte.
fn call(rng: &mut Rng, track: Track, sector: usize, mark: u32, first: u8, image: &[u8]) -> Call {
    let mut call = Call { mark, ..Call::new(rng, track, sector, image) };
    call.contents[0] = first;
    call
}

/// Each by all that its track may hold. What is read after some stores is `Call::expected`.
#[test]
fn h5_sectors_that_answer_3_and_27() {
    const BLOCKS: [Block; 5] = [
        (Control, b'F', true),
        (Control, b'F', false),
        (Control, b'E', true),
        (Control, b'D', true),
        (Open, b'F', true),
    ];
    let mut rng = Rng::new(90);
    let mut tally = Tally::new("rewrite", "sectors that answer 3 and 27");
    for track in CYLINDER_0.into_iter().chain(OTHERS) {
        let image = laid(&mut rng, track, &BLOCKS);
        answer(track, &image, if track.cylinder == 0 { &[27, 26, 27, 2, 25] } else { &[3, 3, 2, 2, 25] });
        for sector in 1..=BLOCKS.len() {
            for (mark, first) in [(0xFB, b'F'), (0xFB, b'E'), (0xF8, b'D'), (0xF8, b'F')] {
                let call = call(&mut rng, track, sector, mark, first, &image);
                if track.cylinder == 0 && (mark, first) == (0xF8, b'F') {
                    assert_eq!(call.request(&mut tally, &mut rng), (7, [0; 4]), "{call:?}");
                } else {
                    rewrite(&mut tally, &mut rng, &call);
                }
                tally.input();
            }
        }
    }
    tally.report();
}

/// The supply cut after every number of stores, whatever stood there before: 25 until the last, and then 3.
#[test]
fn h5_rewritten_as_f_and_cut_after_every_store() {
    let before = [(Data, b'A', true), (Control, b'F', false), (Control, b'D', true), (Data, b'F', true)];
    let mut rng = Rng::new(91);
    let mut tally = Tally::new("rewrite", "rewritten as a control record with F, cut after every number of stores");
    for track in OTHERS {
        // one of the longer sectors is enough
        let sectors = if track.layout == 1 { 1..=4 } else { 1..=1 };
        let image = laid(&mut rng, track, &before);
        answer(track, &image, &[1, 3, 2, 1]);
        for sector in sectors {
            let call = call(&mut rng, track, sector, 0xF8, b'F', &image);
            every_cut(&mut tally, &mut rng, &call);
            // in numbers, without what the harness expects
            let after = Outcome::of_image(track, &call.done());
            assert_eq!(after.reading.records[sector - 1], at(3, 8 * track.places(sector).1), "{call:?}");
            let slot = &after.area[(sector - 1) * call.contents.len()..][..call.contents.len()];
            assert!(slot[0] == b'F' && slot[1..].iter().all(|&byte| byte == 0), "the slot {slot:02X?}: {call:?}");
        }
    }
    tally.report();
}

/// And away from it.
#[test]
fn h5_a_defective_area_rewritten_and_cut_after_every_store() {
    let mut rng = Rng::new(92);
    let mut tally = Tally::new("rewrite", "sectors that answer 3 and 27, cut after every number of stores");
    for track in CYLINDER_0.into_iter().chain(OTHERS.into_iter().step_by(3)) {
        let image = laid(&mut rng, track, &[(Data, b'A', true), (Control, b'F', true)]);
        answer(track, &image, &[1, if track.cylinder == 0 { 27 } else { 3 }]);
        for (mark, first) in [(0xFB, b'F'), (0xF8, b'D')] {
            let call = call(&mut rng, track, 2, mark, first, &image);
            every_cut(&mut tally, &mut rng, &call);
        }
    }
    tally.report();
}

/// On cylinder 0 F is refused, whatever the sector answers; 7 comes before 10.
#[test]
fn h5_f_is_refused_on_cylinder_0() {
    const BLOCKS: [Block; 6] = [
        (Data, b'F', true),
        (Control, b'D', true),
        (Control, b'F', true),
        (Control, b'F', false),
        (Open, b'F', true),
        (Control, b'F', true),
    ];
    let mut rng = Rng::new(93);
    let mut tally = Tally::new("request", "a control record with F on cylinder 0");
    for track in CYLINDER_0 {
        let mut image = laid(&mut rng, track, &BLOCKS);
        // the last block passes the end
        image.truncate(block_end(track, 6) - 1);
        answer(track, &image, &[1, 2, 27, 26, 25, 24]);
        for sector in 1..=BLOCKS.len() {
            let f = call(&mut rng, track, sector, 0xF8, b'F', &image);
            assert_eq!(f.request(&mut tally, &mut rng), (7, [0; 4]), "{f:?}");
            let d = call(&mut rng, track, sector, 0xF8, b'D', &image);
            assert_eq!(d.request(&mut tally, &mut rng).0, if sector == 6 { 10 } else { 0 }, "{d:?}");
            tally.inputs(2);
        }
    }
    tally.report();
}

/// D4: a step does not know the cylinder. Where a caller hands it another letter than the request had, on cylinder 0 the
/// sector answers 27; and from there it can be rewritten again.
#[test]
fn d4_steps_that_write_another_letter() {
    let mut rng = Rng::new(94);
    let mut tally = Tally::new("rewrite", "steps with another letter than the request's");
    for track in CYLINDER_0 {
        for first in [b'F', b'E', 0x00] {
            let image = laid(&mut rng, track, &[]);
            let asked = call(&mut rng, track, 2, 0xF8, b'D', &image);
            let (mut plan, stepped) = (asked.plan(&mut tally, &mut rng), call(&mut rng, track, 2, 0xF8, first, &image));
            let (before, mut sides) = (asked.before(plan), Sides::new(&mut rng, &image));
            for made in 0..plan[3] {
                let number = sides.step(&mut tally, &mut plan, 0xF8, &stepped.contents);
                assert_eq!(number, 0, "after {made} stores: {stepped:?}");
            }
            let after = Outcome::of_image(track, sides.image());
            assert_eq!(after.reading.records[1], at(27, 8 * track.places(2).1), "{stepped:?}");
            let all = plan[3] as usize;
            assert!(after == stepped.expected(&before, all, all, sides.image()), "{after:?}: {stepped:?}");
            let again = Call { image: sides.image().to_vec(), ..asked };
            rewrite(&mut tally, &mut rng, &again);
            tally.input();
        }
    }
    tally.report();
}

/// The bytes behind F can't be read, but they stand on the track: written once more they change nothing.
#[test]
fn the_same_record_with_f_changes_nothing() {
    let mut rng = Rng::new(95);
    let mut tally = Tally::new("rewrite", "the record with F that stands there already");
    for track in OTHERS {
        let layout = track.layout();
        let (_, mut data, mut marks) = track.random(&mut rng);
        (marks[2], data[2 * layout.size]) = (0xF8, b'F');
        let image = track.formatted(&data, &marks);
        let contents = data[2 * layout.size..3 * layout.size].to_vec();
        let call = Call { track, sector: 3, mark: 0xF8, contents, image };
        let last = rewrite(&mut tally, &mut rng, &call);
        assert!(last == call.image, "{}, the same once more: {call:?}", difference(&last, &call.image));
        tally.input();
    }
    tally.report();
}
