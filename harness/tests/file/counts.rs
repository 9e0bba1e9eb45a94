//! Counts of four bytes, up to the highest: each is judged before anything is added to it or taken three times.
use harness::compare::file::read;
use harness::files::hostile::wrong_count;
use harness::files::{joined, small, tracks, Contents};
use harness::rng::Rng;
use harness::tally::met::Row;
use harness::tally::Tally;
use harness::tracks::EACH;

/// The refusal of a wrong count in each section.
const REFUSALS: [u8; 4] = [32, 32, 33, 34];

fn with_counts(contents: &Contents, counts: [u32; 4]) -> Vec<u8> {
    joined(counts, [&contents.label, &contents.tracks, &contents.answers, &contents.data])
}

/// Counts that no section of the file has, whatever comes after them. The place is that of the section.
fn high(right: u32, place: u32) -> Vec<u32> {
    let mut counts = vec![u32::MAX, u32::MAX - 1, 1 << 31, i32::MAX as u32, 0xFF00_0000, 1 << 24, 1 << 16];
    // the sum with the place runs over, to a byte before it
    counts.extend([0, 1, 4, place - 4, place - 1].map(|sum: u32| sum.wrapping_sub(place)));
    // three times the count runs over, to almost nothing or to almost as many bytes as there are
    let thirds = [0x5555_5555, 0x5555_5556, 0xAAAA_AAAA, 0xAAAA_AAAB, 0xC000_0000, 1 << 30];
    counts.extend(thirds.into_iter().flat_map(|third: u32| [third, third.wrapping_add(right)]));
    // the right count with another high bit, and its bytes in another order
    counts.extend((8..32).map(|bit| 1 << bit | right));
    counts.extend([right.swap_bytes(), right.rotate_left(8), right.rotate_right(8)]);
    counts.retain(|&count| count > 150 && count != right);
    counts
}

#[test]
fn high_counts() {
    let mut rng = Rng::new(30);
    let mut tally = Tally::new("file", "counts up to the highest");
    let some = tracks(&mut rng, 9);
    let cases = [
        Contents::default(),
        Contents::default().labelled(b"LABEL"),
        Contents::all(&mut rng, &EACH[..1], 21),
        Contents::new(&mut rng, &EACH[..2]),
        Contents::new(&mut rng, &EACH[3..]),
        Contents::new(&mut rng, &some),
    ];
    for contents in cases {
        let (counts, sections) = (contents.counts(), contents.sections());
        let places = [sections.label_place, sections.tracks_place, sections.answers_place, sections.data_place];
        for section in 0..4 {
            for count in high(counts[section], places[section]) {
                let mut counts = counts;
                counts[section] = count;
                let file = with_counts(&contents, counts);
                // whole, right behind the count, and somewhere in between
                let behind = places[section] as usize;
                let between = behind + rng.below(file.len() - behind + 1);
                for end in [file.len(), behind, between] {
                    let (number, _) = read(&mut tally, &mut rng, &file[..end]);
                    assert_eq!(number, REFUSALS[section], "count {count} of section {section}: {contents:?}");
                }
            }
        }
    }
    tally.report();
}

/// In each section of a file without data.
#[test]
fn every_lower_count() {
    let mut rng = Rng::new(31);
    let mut tally = Tally::new("file", "every count up to 4,200");
    let contents = Contents::all(&mut rng, &EACH[..2], 24).labelled(b"LABEL");
    for section in 0..4 {
        for count in 0..=4_200 {
            let mut counts = contents.counts();
            let is_right = counts[section] == count;
            counts[section] = count;
            let (number, _) = read(&mut tally, &mut rng, &with_counts(&contents, counts));
            let is_refused = count > [80, 150, 0, 0][section] && !is_right;
            assert!(!is_refused || number == REFUSALS[section], "{number}, count {count} of section {section}");
            assert!(!is_right || number == 0, "{number}, count {count} of section {section}");
        }
    }
    tally.report();
}

/// More entries than there can be: 32, also where the list is cut.
#[test]
fn counts_of_tracks_above_150() {
    let mut rng = Rng::new(32);
    let mut tally = Tally::new("file", "more than 150 tracks");
    let all = tracks(&mut rng, 150);
    let list: Vec<u8> = Contents::all(&mut rng, &all, 21).tracks.iter().copied().cycle().take(3 * 400).collect();
    for count in 145..=400 {
        for entries in [0, 1, 144, count - 1, count, 400] {
            let file = joined([0, count as u32, 0, 0], [&[], &list[..3 * entries], &[], &[]]);
            let file = &file[..8 + 3 * entries];
            let (number, _) = read(&mut tally, &mut rng, file);
            let expected = match count {
                151.. => 32,
                _ if entries < count => 31,
                // the answers' count is missing, or is made of entries
                _ => number,
            };
            assert_eq!(number, expected, "count {count}, {entries} entries");
        }
    }
    tally.report();
}

#[test]
fn any_wrong_counts() {
    const INPUTS: usize = 10_000;
    let mut rng = Rng::new(33);
    let mut tally = Tally::new("file", "any wrong counts");
    for _ in 0..INPUTS {
        let contents = small(&mut rng);
        let mut counts = contents.counts();
        for _ in 0..1 + rng.below(2) {
            let section = rng.below(4);
            counts[section] = wrong_count(&mut rng, counts[section]);
        }
        read(&mut tally, &mut rng, &with_counts(&contents, counts));
    }
    tally.has_met(Row::FileRead, &[0, 31, 32, 33, 34]);
    tally.report();
}
