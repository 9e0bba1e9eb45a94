//! Stores and their numbers, worked out by hand from 01, "Rewriting a sector" and "Small facts".
use crate::rewrite;
use harness::compare::read::Outcome;
use harness::compare::rewrite::{Call, Sides};
use harness::reference::coding::Mode;
use harness::reference::edc::edc;
use harness::reference::records::{at, nowhere};
use harness::rng::Rng;
use harness::tally::Tally;
use harness::tracks::letters::lay;
use harness::tracks::sketch::{contents, Data, Identifier, Open, Sketch};
use harness::tracks::{self, Track};

/// The image bytes of a mark.
pub fn mark_bytes(track: Track) -> usize {
    match track.mode() {
        Mode::Fm => 2,
        Mode::Mfm => 8,
    }
}

/// The image byte behind the block of a sector on a formatted track.
pub fn block_end(track: Track, sector: usize) -> usize {
    track.places(sector).1 + mark_bytes(track) + 2 * (track.layout().size + 2)
}

/// Contents whose EDC after a data mark in MFM ends in a bit.
fn ending_in(rng: &mut Rng, track: Track, bit: u16) -> Vec<u8> {
    let mut contents = rng.bytes(track.layout().size);
    while edc(&[&[0xA1, 0xA1, 0xA1, 0xFB], &contents[..]].concat()) & 1 != bit {
        contents[0] = contents[0].wrapping_add(1);
    }
    contents
}

#[test]
fn numbers_of_stores() {
    let mut rng = Rng::new(10);
    let mut tally = Tally::new("request", "numbers of stores");
    // layout, with a byte after the block, without one
    let facts = [(0, 262, 262), (1, 519, 518), (2, 1_031, 1_030), (3, 2_055, 2_054)];
    for (layout, with, without) in facts {
        let track = tracks::EACH[layout];
        let (image, ..) = track.random(&mut rng);
        let end = block_end(track, 2);
        for (length, stores) in [(image.len(), with), (end + 1, with), (end, without)] {
            let call = Call::new(&mut rng, track, 2, &image[..length]);
            assert_eq!(call.plan(&mut tally, &mut rng)[3], stores, "{call:?}");
            tally.input();
        }
    }
    tally.report();
}

#[test]
fn first_and_last_stores() {
    let mut rng = Rng::new(11);
    let mut tally = Tally::new("rewrite", "first and last stores");
    // layout, mark; what its last byte becomes first and last; the first data byte, which is 00
    let facts = [
        (0, 0xFB, [0x6B, 0x6F], [0xAA, 0xAA]),
        (1, 0xFB, [0x49, 0x45], [0x2A, 0xAA]),
        // D10: after the new mark's last bit, not after that of the open mark, which stands there
        (1, 0xF8, [0x49, 0x4A], [0xAA, 0xAA]),
        (3, 0xFB, [0x49, 0x45], [0x2A, 0xAA]),
        (3, 0xF8, [0x49, 0x4A], [0xAA, 0xAA]),
    ];
    for (layout, mark, [open, closed], data) in facts {
        let track = tracks::EACH[layout];
        let (image, ..) = track.random(&mut rng);
        let last = track.places(2).1 + mark_bytes(track) - 1;
        let call = Call { mark, contents: vec![0x00; track.layout().size], ..Call::new(&mut rng, track, 2, &image) };
        let plan = call.plan(&mut tally, &mut rng);
        let mut first = Vec::new();
        let image = call.rewritten(&mut tally, &mut rng, plan, |made, image| {
            if made == 1 {
                first = image.to_vec();
            }
        });
        assert_eq!((first[last], image[last]), (open, closed), "first and last store: {call:?}");
        assert_eq!(image[last + 1..last + 3], data, "image bytes of the first data byte: {call:?}");
        tally.input();
    }
    tally.report();
}

#[test]
fn d7_every_byte_behind_a_block() {
    let mut rng = Rng::new(12);
    let mut tally = Tally::new("step", "every byte behind a block");
    for track in &tracks::EACH[1..] {
        let (mut image, ..) = track.random(&mut rng);
        let (_, mark) = track.places(2);
        let (end, all) = (block_end(*track, 2), 2 * track.layout().size as u32 + 7);
        for bit in [0, 1] {
            let contents = ending_in(&mut rng, *track, bit);
            for octet in 0..=0xFF {
                image[end] = octet;
                let mut plan = [track.layout, 8 * mark as u32, all - 2, 0];
                let mut sides = Sides::new(&mut rng, &image);
                assert_eq!(
                    sides.step(&mut tally, &mut plan, 0xFB, &contents),
                    0,
                    "{octet:02X} behind a block: {track:?}"
                );
                // clock cell and data cell; the clock cell counts only where the data cell is 0
                let expected = match (octet >> 6, bit) {
                    (0b00, 0) => octet + 0x80,
                    (0b10, 1) => octet - 0x80,
                    _ => octet,
                };
                assert_eq!(sides.image()[end], expected, "{octet:02X} after the bit {bit}: {track:?}");
                assert_eq!(plan, [track.layout, 8 * mark as u32, all - 1, all], "the plan: {track:?}");
                tally.input();
            }
        }
    }
    tally.report();
}

#[test]
fn noise_does_not_become_an_identifier() {
    let mut rng = Rng::new(13);
    let mut tally = Tally::new("rewrite", "an identifier but for its first clock cell");
    for track in &tracks::EACH[1..] {
        let address = track.address(2);
        // behind the block a whole identifier, but for the mark's first clock cell
        let sketch = Sketch::new(*track).gap(4).identifier(1).gap(22).block(Data, 1).mark(Identifier).turned(64);
        let sketch = sketch.bytes(&address).edc().gap(22).block(Data, 2).gap(4);
        let (image, records) = (sketch.image(), [at(1, sketch.blocks[0]), nowhere(21)]);
        assert_eq!(Outcome::of_image(*track, &image).reading.records[..2], records, "the trap: {track:?}");
        for bit in [0, 1] {
            let contents = ending_in(&mut rng, *track, bit);
            let call = Call { track: *track, sector: 1, mark: 0xFB, contents, image: image.clone() };
            let last = rewrite(&mut tally, &mut rng, &call);
            let found = Outcome::of_image(*track, &last).reading.records;
            assert_eq!(found[..2], records, "after the bit {bit}: {track:?}");
            tally.input();
        }
    }
    tally.report();
}

#[test]
fn d11_open_and_wrong_blocks() {
    let mut rng = Rng::new(14);
    let mut tally = Tally::new("rewrite", "open and wrong sectors");
    for track in tracks::EACH {
        let (mut image, ..) = track.random(&mut rng);
        // of a control record with F the EDC would not matter
        lay(&mut image, track, 1, Open, &contents(track, 1), true);
        lay(&mut image, track, 2, Data, &contents(track, 2), false);
        let records = [at(25, 8 * track.places(1).1), at(26, 8 * track.places(2).1)];
        assert_eq!(Outcome::of_image(track, &image).reading.records[..2], records, "{track:?}");
        for sector in [1, 2] {
            let call = Call::new(&mut rng, track, sector, &image);
            rewrite(&mut tally, &mut rng, &call);
            tally.input();
        }
    }
    tally.report();
}

#[test]
fn the_same_contents_change_nothing() {
    let mut rng = Rng::new(15);
    let mut tally = Tally::new("rewrite", "what stands there already");
    for track in tracks::EACH {
        let image =
            track.formatted(&contents(track, 7).repeat(track.layout().sectors), &vec![0xFB; track.layout().sectors]);
        let call = Call { mark: 0xFB, contents: contents(track, 7), ..Call::new(&mut rng, track, 4, &image) };
        assert!(rewrite(&mut tally, &mut rng, &call) == image, "the same once more: {call:?}");
        tally.input();
    }
    tally.report();
}
