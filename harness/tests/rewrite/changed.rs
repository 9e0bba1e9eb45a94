//! An image, a mark or contents that are not the same in every step: each step goes by what it is handed.
use crate::facts::{block_end, mark_bytes};
use harness::compare::difference;
use harness::compare::rewrite::{Call, Sides};
use harness::reference::stores::stores;
use harness::rng::Rng;
use harness::tally::Tally;
use harness::tracks::damage::turn;
use harness::tracks::sketch::{Control, Data, Identifier, Index, Open};
use harness::tracks::{self, Track, FM};

/// A call for sector 2 with the image cut some bytes behind its block, and the place of its mark.
fn cut_behind(rng: &mut Rng, track: Track, behind: usize) -> (Call, u32) {
    let (image, ..) = track.random(rng);
    let call = Call::new(rng, track, 2, &image[..block_end(track, 2) + behind]);
    (call, 8 * track.places(2).1 as u32)
}

#[test]
fn d3_images_of_another_length() {
    let mut rng = Rng::new(70);
    let mut tally = Tally::new("step", "images of another length than the request's");
    for track in tracks::EACH {
        let (call, place) = cut_behind(&mut rng, track, 0);
        let (layout, data) = (track.layout, 2 * track.layout().size as u32);
        let (end, mark) = (call.image.len(), place as usize / 8 + mark_bytes(track) - 1);
        let longer = [&call.image[..], &[0x12]].concat();
        let shorter = &call.image[..end - 1];
        // stores made, image; number, stores in all, the byte that the store is for
        let cases: Vec<(u32, &[u8], u8, u32, usize)> = if track == FM {
            vec![
                (data + 5, &call.image, 0, data + 6, mark),
                (data + 6, &call.image, 12, 0, 0),
                (data + 5, &longer, 0, data + 6, mark),
                (data + 6, &longer, 12, 0, 0),
                (data + 5, shorter, 13, 0, 0),
                (data + 6, shorter, 13, 0, 0),
            ]
        } else {
            vec![
                (data + 5, &call.image, 0, data + 6, mark),
                (data + 6, &call.image, 12, 0, 0),
                (data + 5, &longer, 0, data + 7, end),
                (data + 6, &longer, 0, data + 7, mark),
                (data + 7, &longer, 12, 0, 0),
                (data + 5, shorter, 13, 0, 0),
                (data + 6, shorter, 13, 0, 0),
                (data + 7, shorter, 13, 0, 0),
            ]
        };
        for (made, image, number, all, at) in cases {
            let mut image = image.to_vec();
            if number == 0 {
                // so that the store shows: another mark, and a byte whose first clock cell is to change
                image[mark] = if track == FM { 0x6B } else { 0x49 };
                let stored = stores(layout, &image, place as usize, call.mark, &call.contents)[made as usize].1;
                image[at] = if at == end { stored ^ 0x80 } else { image[at] };
            }
            let mut sides = Sides::new(&mut rng, &image);
            let mut plan = [layout, place, made, data];
            assert_eq!(
                sides.step(&mut tally, &mut plan, call.mark, &call.contents),
                number,
                "{made} stores made: {call:?}"
            );
            if number == 0 {
                assert_eq!(plan, [layout, place, made + 1, all], "the plan: {call:?}");
                assert!(sides.image()[at] != image[at], "the byte {at} after {made} stores: {call:?}");
            }
            tally.input();
        }
    }
    tally.report();
}

#[test]
fn d4_another_mark_and_other_contents_in_each_step() {
    let mut rng = Rng::new(71);
    let mut tally = Tally::new("step", "another mark and other contents in each");
    for track in tracks::EACH {
        let (call, place) = cut_behind(&mut rng, track, 5);
        let mut plan = call.plan(&mut tally, &mut rng);
        let (mut sides, mut listed) = (Sides::new(&mut rng, &call.image), call.image.clone());
        for made in 0..plan[3] as usize {
            // without the letter D on cylinder 0 too: a step does not know the cylinder
            let (mark, contents) = ([0xFB, 0xF8][rng.below(2)], rng.bytes(track.layout().size));
            let (at, octet) = stores(track.layout, &listed, place as usize, mark, &contents)[made];
            listed[at] = octet;
            assert_eq!(sides.step(&mut tally, &mut plan, mark, &contents), 0, "after {made} stores: {call:?}");
            sides.agree(&listed);
            tally.input();
        }
    }
    tally.report();
}

#[test]
fn d5_every_cell_of_the_mark() {
    let mut rng = Rng::new(72);
    let mut tally = Tally::new("step", "each cell of the mark turned over");
    for track in tracks::EACH {
        let mode = track.mode();
        let (mut call, place) = cut_behind(&mut rng, track, 5);
        let (mark, all) = (place as usize / 8, call.plan(&mut tally, &mut rng)[3]);
        for kind in [Data, Control, Open] {
            for cell in 0..8 * mark_bytes(track) {
                let image = &mut call.image[mark..][..mark_bytes(track)];
                image.copy_from_slice(kind.image(mode));
                turn(image, cell);
                // in FM control and open marks differ in one cell
                let stands = [Data, Control, Open].iter().any(|kind| image == kind.image(mode));
                // in the midst of the rewrite and at its end, where 13 comes before 12
                for (made, number) in [(0, 0), (7, 0), (all - 1, 0), (all, 12), (u32::MAX, 12)] {
                    let mut plan = [track.layout, place, made, all];
                    let found =
                        Sides::new(&mut rng, &call.image).step(&mut tally, &mut plan, call.mark, &call.contents);
                    assert_eq!(found, if stands { number } else { 13 }, "{kind:?}, cell {cell}, {made} made: {call:?}");
                    tally.input();
                }
            }
        }
    }
    tally.report();
}

#[test]
fn d6_another_mark_between_steps() {
    let mut rng = Rng::new(73);
    let mut tally = Tally::new("step", "another mark put there before each");
    for track in &tracks::EACH[..2] {
        let (call, place) = cut_behind(&mut rng, *track, 5);
        let mark = place as usize / 8;
        let mut plan = call.plan(&mut tally, &mut rng);
        let (mut sides, all) = (Sides::new(&mut rng, &call.image), plan[3]);
        for made in 0..all {
            for kind in [Index, Identifier, Data, Control, Open] {
                let octets = kind.image(track.mode());
                sides.change(|image| image[mark..mark + octets.len()].copy_from_slice(octets));
                let number = if [Index, Identifier].contains(&kind) { 13 } else { 0 };
                plan[2] = made;
                assert_eq!(sides.step(&mut tally, &mut plan, call.mark, &call.contents), number, "{kind:?}: {call:?}");
                tally.input();
            }
        }
        // somebody else's marks are gone with the last store
        assert!(sides.image() == call.done(), "{}: {call:?}", difference(sides.image(), &call.done()));
    }
    tally.report();
}

#[test]
fn other_bytes_changed_between_steps() {
    let mut rng = Rng::new(74);
    let mut tally = Tally::new("step", "another byte changed before each");
    for track in tracks::EACH {
        let (call, place) = cut_behind(&mut rng, track, 40);
        let (mark, from) = (place as usize / 8, place as usize / 8 + mark_bytes(track));
        let mut plan = call.plan(&mut tally, &mut rng);
        let (mut sides, mut listed) = (Sides::new(&mut rng, &call.image), call.image.clone());
        for made in 0..plan[3] as usize {
            // anywhere but in the mark, before the block as well as in it and behind it
            let at = rng.below(listed.len() - mark_bytes(track));
            let (at, octet) = (if at < mark { at } else { at - mark + from }, rng.byte());
            sides.change(|image| image[at] = octet);
            listed[at] = octet;
            let (at, octet) = stores(track.layout, &listed, place as usize, call.mark, &call.contents)[made];
            listed[at] = octet;
            assert_eq!(
                sides.step(&mut tally, &mut plan, call.mark, &call.contents),
                0,
                "after {made} stores: {call:?}"
            );
            sides.agree(&listed);
            tally.input();
        }
    }
    tally.report();
}
