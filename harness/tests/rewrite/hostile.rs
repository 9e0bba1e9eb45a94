//! Requests and plans with any numbers: both sides take them all, and agree.
use crate::facts::block_end;
use harness::compare::rewrite::{Call, Sides};
use harness::rng::Rng;
use harness::tally::met::Row;
use harness::tally::Tally;
use harness::tracks::worn::LONGEST;
use harness::tracks::{self, Track};

/// Half of all numbers, and the last of them.
const HALF: u32 = 1 << 31;
const LAST: u32 = u32::MAX;

/// All combinations of the numbers.
fn combinations(numbers: [&[u32]; 4]) -> Vec<[u32; 4]> {
    let [layouts, places, mades, alls] = numbers;
    let mut plans = Vec::new();
    for &layout in layouts {
        for &place in places {
            for &made in mades {
                plans.extend(alls.iter().map(|&all| [layout, place, made, all]));
            }
        }
    }
    plans
}

/// Numbers for plans about the block of sector 2 on a track: any ones, and those next to the right ones.
fn plans(track: Track, image: &[u8]) -> Vec<[u32; 4]> {
    let (place, end, data) = (8 * track.places(2).1 as u32, 8 * image.len() as u32, 2 * track.layout().size as u32);
    let layouts = [0, 1, 2, 3, 4, 7, HALF, LAST];
    let mut places = vec![0, 1, 7, 8, place, place + 1, place + 8, place - 8, end, HALF, HALF | place, LAST - 7, LAST];
    places.extend([8, 16, 64].map(|back| end.saturating_sub(back)));
    let near = data..data + 9;
    let mades: Vec<u32> = [0, 1, 2, 3, HALF, LAST - 1, LAST].into_iter().chain(near).collect();
    combinations([&layouts, &places, &mades, &[0, 1, data + 7, HALF, LAST]])
}

#[test]
fn plans_with_any_numbers() {
    let mut rng = Rng::new(60);
    let mut tally = Tally::new("step", "plans with any numbers");
    for track in tracks::EACH {
        let (image, ..) = track.random(&mut rng);
        let mut sides = Sides::new(&mut rng, &image);
        for mut plan in plans(track, &image) {
            // contents as the plan's layout wants them, if there is such a layout
            let size = tracks::EACH.get(plan[0] as usize).unwrap_or(&track).layout().size;
            let mark = [0xFB, 0xF8][rng.below(2)];
            sides.step(&mut tally, &mut plan, mark, &vec![rng.byte(); size]);
            tally.input();
        }
    }
    tally.has_met(Row::Step, &[0, 4, 12, 13]);
    tally.report();
}

#[test]
fn images_of_any_length() {
    let mut rng = Rng::new(61);
    let mut tally = Tally::new("step", "images of any length");
    for track in tracks::EACH {
        let (image, ..) = track.random(&mut rng);
        let end = block_end(track, 2);
        for length in [0, 1, 2, 7, end - 1, end, end + 1, LONGEST, LONGEST + 1] {
            let mut image = image.clone();
            image.resize(length, rng.byte());
            let mut sides = Sides::new(&mut rng, &image);
            // any of the plans
            let plans = plans(track, &image);
            for _ in 0..500 {
                let mut plan = plans[rng.below(plans.len())];
                plan[0] = if rng.below(4) > 0 { track.layout } else { plan[0] };
                let contents = vec![rng.byte(); track.layout().size];
                sides.step(&mut tally, &mut plan, 0xFB, &contents);
                tally.input();
            }
        }
    }
    tally.has_met(Row::Step, &[0, 1, 4, 5, 12, 13]);
    tally.report();
}

#[test]
fn every_place() {
    let mut rng = Rng::new(62);
    let mut tally = Tally::new("step", "every cell as the noted place");
    for track in &tracks::EACH[..2] {
        // two sectors
        let (image, ..) = track.random(&mut rng);
        let mut sides = Sides::new(&mut rng, &image[..block_end(*track, 2) + 3]);
        let contents = rng.bytes(track.layout().size);
        let marks = [1, 2].map(|sector| 8 * track.places(sector).1);
        for place in 0..8 * sides.image().len() + 200 {
            // a step that leaves the marks there
            let mut plan = [track.layout, place as u32, 3, 0];
            let number = sides.step(&mut tally, &mut plan, 0xFB, &contents);
            assert_eq!(number, if marks.contains(&place) { 0 } else { 13 }, "place {place}: {track:?}");
            tally.input();
        }
    }
    tally.report();
}

#[test]
fn every_number_of_stores_made() {
    let mut rng = Rng::new(63);
    let mut tally = Tally::new("step", "every number of stores made");
    for track in &tracks::EACH[..2] {
        let (image, ..) = track.random(&mut rng);
        for behind in [0, 1] {
            let image = &image[..block_end(*track, 2) + behind];
            let contents = rng.bytes(track.layout().size);
            let all = 2 * track.layout().size + if *track == tracks::FM { 6 } else { 6 + behind };
            // each by itself, on an image without the stores before it
            for made in 0..all + 20 {
                let mut sides = Sides::new(&mut rng, image);
                let mut plan = [track.layout, 8 * track.places(2).1 as u32, made as u32, 0];
                let number = sides.step(&mut tally, &mut plan, 0xF8, &contents);
                assert_eq!(number, if made < all { 0 } else { 12 }, "{made} stores made: {track:?}");
                tally.input();
            }
        }
    }
    tally.report();
}

#[test]
fn requests_with_any_numbers() {
    let mut rng = Rng::new(64);
    let mut tally = Tally::new("request", "any numbers");
    let track = tracks::MFM;
    let (image, ..) = track.random(&mut rng);
    let right = Call::new(&mut rng, track, 2, &image[..block_end(track, 2)]);
    let any = [0, 1, 2, 5, 75, HALF, LAST];
    for [layout, cylinder, side, sector] in combinations([&any, &any, &any, &any]) {
        for mark in [0, 0xF8, 0xFB, HALF | 0xFB, LAST] {
            let track = Track { layout, cylinder, side };
            Call { track, sector, mark, ..right.clone() }.request(&mut tally, &mut rng);
            tally.input();
        }
    }
    tally.has_met(Row::Request, &[0, 2, 3, 4, 5, 6, 9, 10]);
    tally.report();
}
