//! The list of tracks: each thing that can be wrong with it is 32. Answers and data are those of the list, so that nothing
//! else is wrong.
use harness::compare::file::{read, write};
use harness::files::{layouts, pairs, tracks, Contents};
use harness::rng::Rng;
use harness::tally::Tally;
use harness::tracks::{Track, EACH, FM};

/// Written and read.
fn is_answered(tally: &mut Tally, rng: &mut Rng, tracks: &[Track], number: u8) {
    // now and then with data
    let answer = if rng.below(8) == 0 && tracks.len() < 20 { 1 } else { 21 };
    let contents = Contents::all(rng, tracks, answer).labelled(b"LIST");
    let file = contents.file();
    assert_eq!(write(tally, rng, &contents, file.len()), number, "writing {contents:?}");
    assert_eq!(read(tally, rng, &file).0, number, "reading {contents:?}");
}

/// Lists to spoil: short ones, a long one, and one of all tracks.
fn lists(rng: &mut Rng) -> Vec<Vec<Track>> {
    [1, 2, 3, 5, 8, 40, 150].into_iter().map(|count| tracks(rng, count)).collect()
}

#[test]
fn pairs_that_come_twice() {
    let mut rng = Rng::new(70);
    let mut tally = Tally::new("file", "lists in which a track comes twice");
    for list in lists(&mut rng) {
        for (at, &track) in list.iter().enumerate() {
            // right after itself, perhaps in another layout, and anywhere else
            for layout in layouts(track.cylinder, track.side) {
                let mut twice = list.clone();
                twice.insert(at + 1, Track { layout, ..track });
                is_answered(&mut tally, &mut rng, &twice, 32);
            }
            let mut twice = list.clone();
            twice.insert(rng.below(list.len() + 1), track);
            is_answered(&mut tally, &mut rng, &twice, 32);
            // in place of another, so that there are no more of them
            let mut instead = list.clone();
            let other = rng.below(list.len());
            instead[other] = track;
            is_answered(&mut tally, &mut rng, &instead, if other == at { 0 } else { 32 });
        }
    }
    tally.report();
}

#[test]
fn falling_lists() {
    let mut rng = Rng::new(71);
    let mut tally = Tally::new("file", "lists that fall");
    for list in lists(&mut rng) {
        for at in 1..list.len() {
            let mut falling = list.clone();
            falling.swap(at - 1, at);
            is_answered(&mut tally, &mut rng, &falling, 32);
            falling.swap(at - 1, at);
            let other = rng.below(at);
            falling.swap(other, at);
            is_answered(&mut tally, &mut rng, &falling, 32);
        }
        is_answered(&mut tally, &mut rng, &list, 0);
    }
    tally.report();
}

/// Any two tracks in a row: accepted exactly if the second has the higher cylinder, or the same and the higher side.
#[test]
fn every_two_tracks() {
    let mut rng = Rng::new(72);
    let mut tally = Tally::new("file", "every two tracks");
    for one in pairs() {
        for other in pairs() {
            let list = [one, other].map(|(cylinder, side)| {
                let layouts = layouts(cylinder, side);
                Track { layout: layouts[rng.below(layouts.len())], cylinder, side }
            });
            let (cylinders, sides) = ((one.0, other.0), (one.1, other.1));
            let rises = cylinders.0 < cylinders.1 || cylinders.0 == cylinders.1 && sides.0 < sides.1;
            is_answered(&mut tally, &mut rng, &list, if rises { 0 } else { 32 });
        }
    }
    tally.report();
}

#[test]
fn every_cylinder_and_side_in_bytes() {
    let mut rng = Rng::new(73);
    let mut tally = Tally::new("file", "any cylinder, side and layout as bytes");
    for cylinder in 0..=0xFF {
        for side in (0..=4).chain([127, 128, 254, 255]) {
            for layout in 0..=5 {
                let is_right = match (cylinder, side) {
                    (0, 0) => layout == 0,
                    (0, 1) => layout == 1,
                    (1..=74, 0 | 1) => (1..=3).contains(&layout),
                    _ => false,
                };
                let track = Track { layout, cylinder, side };
                is_answered(&mut tally, &mut rng, &[track], if is_right { 0 } else { 32 });
                // behind another, and before one
                let first = if track == FM { vec![track] } else { vec![FM, track] };
                let is_right = is_right && (cylinder, side) != (0, 0) || track == FM;
                is_answered(&mut tally, &mut rng, &first, if is_right { 0 } else { 32 });
            }
        }
    }
    tally.report();
}

#[test]
fn every_layout_as_a_byte() {
    let mut rng = Rng::new(74);
    let mut tally = Tally::new("file", "every number as a layout");
    for (cylinder, side) in [(0, 0), (0, 1), (1, 0), (1, 1), (37, 0), (74, 0), (74, 1)] {
        for layout in 0..=0xFF {
            let number = if layouts(cylinder, side).contains(&layout) { 0 } else { 32 };
            is_answered(&mut tally, &mut rng, &[Track { layout, cylinder, side }], number);
        }
    }
    tally.report();
}

/// A wrong track among right ones, anywhere in the list.
#[test]
fn one_wrong_track_among_many() {
    let mut rng = Rng::new(75);
    let mut tally = Tally::new("file", "one wrong track among many");
    for list in lists(&mut rng) {
        for at in 0..list.len() {
            let Track { layout, cylinder, side } = list[at];
            let wrong = [
                Track { cylinder: 75 + rng.below(181) as u32, ..list[at] },
                Track { side: 2 + rng.below(254) as u32, ..list[at] },
                Track { layout: [5, 6, 128, 255][rng.below(4)], ..list[at] },
                Track { layout: if cylinder > 0 { 0 } else { 1 - side }, ..list[at] },
                // the same in 2 x cylinder + side, but no such side
                Track { layout: layout.max(1), cylinder: cylinder.saturating_sub(1), side: side + 2 },
            ];
            for track in wrong {
                let mut list = list.clone();
                list[at] = track;
                is_answered(&mut tally, &mut rng, &list, 32);
            }
        }
    }
    tally.report();
}

#[test]
fn too_many_tracks() {
    let mut rng = Rng::new(76);
    let mut tally = Tally::new("file", "more than 150 tracks, answers and all");
    let all = tracks(&mut rng, 150);
    is_answered(&mut tally, &mut rng, &all, 0);
    for more in [1, 2, 3, 106, 150] {
        let beyond = (75..).flat_map(|cylinder| [0, 1].map(|side| Track { layout: 1, cylinder, side }));
        let list: Vec<Track> = all.iter().copied().chain(beyond).take(150 + more).collect();
        is_answered(&mut tally, &mut rng, &list, 32);
        let again: Vec<Track> = all.iter().copied().cycle().take(150 + more).collect();
        is_answered(&mut tally, &mut rng, &again, 32);
    }
    tally.report();
}

/// Only a writer can be given such a list.
#[test]
fn parts_of_a_track() {
    let mut rng = Rng::new(77);
    let mut tally = Tally::new("file", "lists that are not made of threes");
    for list in lists(&mut rng).into_iter().chain([vec![], EACH[..2].to_vec()]) {
        let contents = Contents::all(&mut rng, &list, 21);
        for length in (0..=contents.tracks.len() + 5).filter(|length| length % 3 != 0) {
            let bytes = contents.tracks.iter().copied().chain([74, 1, 1, 0, 0]);
            let contents = Contents { tracks: bytes.take(length).collect(), ..contents.clone() };
            let area = contents.file().len() + 5;
            assert_eq!(write(&mut tally, &mut rng, &contents, area), 32, "{length} bytes: {contents:?}");
        }
    }
    tally.report();
}
