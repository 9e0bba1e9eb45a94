//! What stands in the answers, and how many there are; then how many data bytes.
use harness::compare::file::{read, write};
use harness::files::{tracks, Contents};
use harness::rng::Rng;
use harness::tally::met::Row;
use harness::tally::Tally;
use harness::tracks::{Track, EACH, FM, MFM};

/// Written and read, with an area that is long enough: the same number in both ways.
fn is_answered(tally: &mut Tally, rng: &mut Rng, contents: &Contents, number: u8) {
    let file = contents.file();
    assert_eq!(write(tally, rng, contents, file.len() + 2), number, "writing {contents:?}");
    assert_eq!(read(tally, rng, &file).0, number, "reading {contents:?}");
}

/// Each in the first sector of a track, in one between and in the last, with the bytes of such a sector and without.
#[test]
fn every_number_as_an_answer() {
    let mut rng = Rng::new(20);
    let mut tally = Tally::new("file", "every number as an answer");
    for track in EACH {
        let layout = track.layout();
        for number in 0..=0xFF {
            for at in [0, layout.sectors / 2, layout.sectors - 1] {
                let mut answers = vec![26; layout.sectors];
                answers[at] = number;
                let without = Contents { data: vec![], ..Contents::answered(&mut rng, &[track], answers) };
                let with = Contents { data: rng.bytes(layout.size), ..without.clone() };
                let expected = match number {
                    1..=3 => [34, 0],
                    21..=27 => [0, 34],
                    _ => [33, 33],
                };
                is_answered(&mut tally, &mut rng, &without, expected[0]);
                is_answered(&mut tally, &mut rng, &with, expected[1]);
            }
        }
    }
    tally.report();
}

/// Among all answers of a long file only one is wrong.
#[test]
fn one_wrong_answer_among_many() {
    let mut rng = Rng::new(21);
    let mut tally = Tally::new("file", "one wrong answer among many");
    let tracks = tracks(&mut rng, 25);
    let right = Contents::all(&mut rng, &tracks, 22);
    for at in 0..right.answers.len() {
        let mut contents = right.clone();
        contents.answers[at] = [0, 4, 20, 28, 128, 255][rng.below(6)];
        is_answered(&mut tally, &mut rng, &contents, 33);
    }
    is_answered(&mut tally, &mut rng, &right, 0);
    tally.report();
}

#[test]
fn other_numbers_of_answers() {
    let mut rng = Rng::new(22);
    let mut tally = Tally::new("file", "other numbers of answers");
    let some = tracks(&mut rng, 7);
    for tracks in EACH.map(|track| vec![track]).into_iter().chain([vec![], EACH[..2].to_vec(), some]) {
        let right = Contents::all(&mut rng, &tracks, 21);
        let sectors = right.answers.len();
        let others = (0..=sectors + 30).chain([256 + sectors, 65_536 + sectors]);
        for count in others {
            let contents = Contents { answers: vec![21; count], ..right.clone() };
            is_answered(&mut tally, &mut rng, &contents, if count == sectors { 0 } else { 33 });
        }
    }
    tally.report();
}

#[test]
fn other_numbers_of_data_bytes() {
    let mut rng = Rng::new(23);
    let mut tally = Tally::new("file", "other numbers of data bytes");
    for track in EACH {
        let layout = track.layout();
        for full in 0..=layout.sectors {
            let mut answers = vec![1; layout.sectors];
            answers[full..].fill(23);
            let right = Contents::answered(&mut rng, &[track], answers);
            let bytes = full * layout.size;
            assert_eq!(right.data.len(), bytes);
            is_answered(&mut tally, &mut rng, &right, 0);
            let less = [0, 1, bytes.saturating_sub(layout.size), bytes.saturating_sub(1)];
            let more = [1, layout.size, 65_536].map(|more| bytes + more);
            for count in less.into_iter().chain(more).filter(|&count| count != bytes) {
                let contents = Contents { data: rng.bytes(count), ..right.clone() };
                is_answered(&mut tally, &mut rng, &contents, 34);
            }
        }
    }
    tally.has_met(Row::FileWrite, &[0, 34]);
    tally.report();
}

/// The bytes of a sector belong to its own track's layout, wherever the track stands among others.
#[test]
fn data_bytes_by_the_own_layout() {
    const INPUTS: usize = 200;
    let mut rng = Rng::new(24);
    let mut tally = Tally::new("file", "one sector with bytes among many tracks");
    for _ in 0..INPUTS {
        let count = 1 + rng.below(10);
        let tracks = tracks(&mut rng, count);
        let mut contents = Contents::all(&mut rng, &tracks, 25);
        let own = rng.below(count);
        let before: usize = tracks[..own].iter().map(|track| track.layout().sectors).sum();
        contents.answers[before + rng.below(tracks[own].layout().sectors)] = 1 + rng.below(3) as u8;
        for size in [128, 256, 512, 1_024] {
            contents.data = rng.bytes(size);
            let number = if size == tracks[own].layout().size { 0 } else { 34 };
            is_answered(&mut tally, &mut rng, &contents, number);
        }
    }
    tally.report();
}

/// G7: nobody asks on which cylinder a 3 or a 27 stands, nor whether the bytes of a 3 are F and zeros.
#[test]
fn g7_answers_on_any_cylinder() {
    let mut rng = Rng::new(25);
    let mut tally = Tally::new("file", "answers 3 and 27 on any cylinder");
    let second = Track { layout: 1, cylinder: 0, side: 1 };
    for track in [FM, second, MFM, Track { cylinder: 1, ..MFM }, Track { layout: 3, cylinder: 74, side: 0 }] {
        let layout = track.layout();
        let any = [3, 27].into_iter().cycle().take(layout.sectors).collect();
        let contents = Contents::answered(&mut rng, &[track], any);
        assert_eq!(contents.data.len(), (layout.sectors + 1) / 2 * layout.size);
        is_answered(&mut tally, &mut rng, &contents, 0);
        let mut read = contents.clone();
        for slot in read.data.chunks_mut(layout.size) {
            slot.fill(0);
            slot[0] = b'F';
        }
        is_answered(&mut tally, &mut rng, &read, 0);
    }
    tally.has_met(Row::FileAnswer, &[3, 27]);
    tally.report();
}
