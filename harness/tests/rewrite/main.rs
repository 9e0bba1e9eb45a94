//! Rewriting: the reference against the papers' list of stores, and `station_request` and `station_step` against the
//! reference, step by step.
mod changed;
mod clocks;
mod cuts;
mod damaged;
mod facts;
mod hostile;
mod letters;
mod literal;
mod refusals;
mod steps;

use harness::compare::read::Outcome;
use harness::compare::rewrite::Call;
use harness::rng::Rng;
use harness::tally::Tally;
use harness::tracks::damage::shifted;
use harness::tracks::{self, Track};

/// The first, a middle and the last.
pub fn some_sectors(track: Track) -> [usize; 3] {
    let sectors = track.layout().sectors;
    [1, sectors / 2, sectors]
}

/// Some numbers of stores: the first ones, the last ones, and one at random in between.
fn some_cuts(rng: &mut Rng, all: usize) -> Vec<usize> {
    let between = 3 + rng.below(all - 10);
    (0..3).chain([between]).chain(all - 7..=all).collect()
}

/// Rewrites a sector step by step, reads the track after some of the steps, and hands back the last image.
pub fn rewrite(tally: &mut Tally, rng: &mut Rng, call: &Call) -> Vec<u8> {
    let plan = call.plan(tally, rng);
    let all = plan[3] as usize;
    let (before, cuts) = (call.before(plan), some_cuts(rng, all));
    call.rewritten(tally, rng, plan, |made, image| {
        if cuts.contains(&made) {
            let expected = call.expected(&before, made, all, image);
            assert_eq!(Outcome::of_image(call.track, image), expected, "read after {made} of {all} stores: {call:?}");
        }
    })
}

#[test]
fn formatted_tracks() {
    let mut rng = Rng::new(1);
    let mut tally = Tally::new("rewrite", "formatted tracks of every kind");
    for track in tracks::all() {
        let (image, data, marks) = track.random(&mut rng);
        for sector in some_sectors(track) {
            let call = Call::new(&mut rng, track, sector, &image);
            let (mut data, mut marks) = (data.clone(), marks.clone());
            data[(sector - 1) * call.contents.len()..][..call.contents.len()].copy_from_slice(&call.contents);
            marks[sector - 1] = call.mark as u8;
            // no other cell is left to tell that the sector was not formatted so
            assert!(
                rewrite(&mut tally, &mut rng, &call) == track.formatted(&data, &marks),
                "the rewritten track: {call:?}"
            );
            tally.input();
        }
    }
    tally.report();
}

#[test]
fn the_same_byte_everywhere() {
    let mut rng = Rng::new(2);
    let mut tally = Tally::new("rewrite", "the same byte everywhere");
    for track in tracks::EACH {
        let (image, ..) = track.random(&mut rng);
        for byte in [0x44, 0x46, 0x00, 0xFF, 0x4E, 0xA1, 0xC2, 0x01, 0x80] {
            for mark in [0xFB, 0xF8].into_iter().filter(|&mark| track.cylinder > 0 || mark == 0xFB || byte == 0x44) {
                let contents = vec![byte; track.layout().size];
                rewrite(&mut tally, &mut rng, &Call { track, sector: 3, mark, contents, image: image.clone() });
                tally.input();
            }
        }
    }
    tally.report();
}

#[test]
fn one_sector_after_another() {
    let mut rng = Rng::new(3);
    let mut tally = Tally::new("rewrite", "all sectors of a track one after another");
    for track in tracks::EACH {
        let layout = track.layout();
        let (mut image, mut data, mut marks) = track.random(&mut rng);
        for sector in (1..=layout.sectors).rev() {
            let call = Call::new(&mut rng, track, sector, &image);
            let plan = call.plan(&mut tally, &mut rng);
            image = call.rewritten(&mut tally, &mut rng, plan, |_, _| ());
            data[(sector - 1) * layout.size..sector * layout.size].copy_from_slice(&call.contents);
            marks[sector - 1] = call.mark as u8;
            tally.input();
        }
        assert!(image == track.formatted(&data, &marks), "all sectors rewritten: {track:?}");
    }
    tally.report();
}

#[test]
fn tracks_shifted_by_bytes() {
    let mut rng = Rng::new(5);
    let mut tally = Tally::new("rewrite", "tracks shifted by bytes");
    let mut halves = [0; 2];
    for track in tracks::all() {
        let (image, ..) = track.random(&mut rng);
        for by in [8, 16, 8 * (3 + rng.below(90))] {
            let (sector, image) = (some_sectors(track)[rng.below(3)], shifted(&mut rng, &image, by));
            let call = Call::new(&mut rng, track, sector, &image);
            // D9: eight cells past a multiple of sixteen are on a byte boundary too
            let (_, mark) = track.places(sector);
            assert_eq!(call.plan(&mut tally, &mut rng)[1] as usize, 8 * mark + by, "the noted place: {call:?}");
            rewrite(&mut tally, &mut rng, &call);
            halves[(8 * mark + by) / 8 % 2] += 1;
            tally.input();
        }
    }
    assert!(halves[0] > 0 && halves[1] > 0, "{halves:?} at even and odd bytes");
    tally.report();
}

#[test]
fn tracks_shifted_by_cells() {
    let mut rng = Rng::new(6);
    let mut tally = Tally::new("request", "tracks shifted by cells");
    for track in tracks::all() {
        let (image, ..) = track.random(&mut rng);
        for by in (1..16).filter(|by| by % 8 != 0) {
            let (sector, image) = (some_sectors(track)[rng.below(3)], shifted(&mut rng, &image, by));
            let call = Call::new(&mut rng, track, sector, &image);
            assert_eq!(call.request(&mut tally, &mut rng), (11, [0; 4]), "shifted by {by}: {call:?}");
            tally.input();
        }
    }
    tally.report();
}

#[test]
fn blocks_at_the_end() {
    let mut rng = Rng::new(7);
    let mut tally = Tally::new("rewrite", "blocks at the image's end");
    for track in tracks::EACH {
        let (image, ..) = track.random(&mut rng);
        for sector in some_sectors(track) {
            for behind in 0..3 {
                let end = facts::block_end(track, sector) + behind;
                let call = Call::new(&mut rng, track, sector, &image[..end]);
                rewrite(&mut tally, &mut rng, &call);
                // the same at the end of the longest image
                let longest = [&rng.bytes(24_576 - end), &call.image[..]].concat();
                rewrite(&mut tally, &mut rng, &Call { image: longest, ..call });
                tally.inputs(2);
            }
        }
    }
    tally.report();
}
