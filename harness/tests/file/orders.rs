//! Several faults at once: the first in file order counts, and in a section its count, then its length, then what it
//! holds.
use harness::compare::file::{read, write};
use harness::files::{joined, Contents};
use harness::rng::Rng;
use harness::tally::met::Row;
use harness::tally::Tally;
use harness::tracks::EACH;

/// One thing that is wrong with a file. The sections are 0 to 3.
#[derive(Clone, Copy, Debug)]
enum Fault {
    CutCount(usize),
    WrongCount(usize),
    CutSection(usize),
    WrongTrack,
    WrongAnswer,
    LeftOver,
}
use Fault::*;

/// Every fault, in the order in which they are met.
const FAULTS: [Fault; 15] = [
    CutCount(0),
    WrongCount(0),
    CutSection(0),
    CutCount(1),
    WrongCount(1),
    CutSection(1),
    WrongTrack,
    CutCount(2),
    WrongCount(2),
    CutSection(2),
    WrongAnswer,
    CutCount(3),
    WrongCount(3),
    CutSection(3),
    LeftOver,
];

impl Fault {
    fn number(self) -> u8 {
        match self {
            CutCount(_) | CutSection(_) => 31,
            WrongCount(0 | 1) | WrongTrack => 32,
            WrongCount(2) | WrongAnswer => 33,
            WrongCount(_) => 34,
            LeftOver => 35,
        }
    }
}

/// Two tracks, whose first entry, first answer and some data are there also where a section is cut.
fn right(rng: &mut Rng) -> Contents {
    let answers = [vec![1, 3], vec![24; 25], vec![27; 25]].concat();
    Contents::answered(rng, &EACH[..2], answers).labelled(b"LABEL")
}

/// The file with all these faults.
fn spoilt(rng: &mut Rng, faults: &[Fault]) -> Vec<u8> {
    let mut contents = right(rng);
    let (mut counts, sections) = (contents.counts(), contents.sections());
    let places = [sections.label_place, sections.tracks_place, sections.answers_place, sections.data_place];
    let (mut end, mut behind) = (usize::MAX, vec![]);
    for fault in faults {
        match *fault {
            CutCount(section) => end = end.min(places[section] as usize - 1 - rng.below(4)),
            CutSection(section) => {
                // after the first element at least
                let (first, length) = [(1, 5), (3, 6), (1, 52), (1, 256)][section];
                end = end.min(places[section] as usize + first + rng.below(length - first));
            }
            WrongCount(section) => {
                let right = counts[section];
                counts[section] = match section {
                    0 => [81, 82, 1 << 24, u32::MAX][rng.below(4)],
                    1 => [151, 152, 0x5555_5556, u32::MAX][rng.below(4)],
                    _ => [0, right - 1, right + 1, 1 << 24 | right, u32::MAX][rng.below(5)],
                }
            }
            WrongTrack => contents.tracks[rng.below(3)] = [75, 255][rng.below(2)],
            WrongAnswer => contents.answers[0] = [0, 4, 20, 28, 255][rng.below(5)],
            LeftOver => behind = vec![rng.byte(); 1 + rng.below(20)],
        }
    }
    let mut file = joined(counts, [&contents.label, &contents.tracks, &contents.answers, &contents.data]);
    file.extend(behind);
    file.truncate(end);
    file
}

/// Every set of up to four faults, some times over: a fault has several forms.
#[test]
fn faults_in_file_order() {
    const TIMES: usize = 10;
    let mut rng = Rng::new(80);
    let mut tally = Tally::new("file", "up to four faults in a file");
    for set in (0_u32..1 << FAULTS.len()).filter(|set| set.count_ones() <= 4) {
        let faults: Vec<Fault> = (0..FAULTS.len()).filter(|at| set >> at & 1 == 1).map(|at| FAULTS[at]).collect();
        let expected = faults.first().map_or(0, |fault| fault.number());
        for _ in 0..TIMES {
            let file = spoilt(&mut rng, &faults);
            assert_eq!(read(&mut tally, &mut rng, &file).0, expected, "{faults:?}");
        }
    }
    tally.has_met(Row::FileRead, &[0, 31, 32, 33, 34, 35]);
    tally.report();
}

/// One thing that is wrong with a writing: what it does to the contents, and its refusal.
type WritingFault = (u8, fn(&mut Rng, &mut Contents));

/// In order. The area comes behind them.
const WRITING_FAULTS: [WritingFault; 6] = [
    (32, |rng, contents| contents.label = rng.bytes(81)),
    (32, |rng, contents| contents.tracks.extend([74, 0][..1 + rng.below(2)].to_vec())),
    (32, |_, contents| contents.tracks[5] = 0),
    (33, |rng, contents| contents.answers.extend(vec![21; 1 + rng.below(3)])),
    (33, |rng, contents| contents.answers[rng.below(52)] = [4, 28, 128][rng.below(3)]),
    (34, |_, contents| contents.data.truncate(255)),
];

/// Every set of them, with an area that is long enough, too short or empty.
#[test]
fn faults_of_writings() {
    let mut rng = Rng::new(81);
    let mut tally = Tally::new("file", "every set of faults in a writing");
    for set in 0..1 << WRITING_FAULTS.len() {
        let faults = (0..WRITING_FAULTS.len()).filter(|at| set >> at & 1 == 1).map(|at| WRITING_FAULTS[at]);
        let mut contents = right(&mut rng);
        let mut numbers = vec![];
        for (number, spoil) in faults {
            spoil(&mut rng, &mut contents);
            numbers.push(number);
        }
        let file = contents.file().len();
        for area in [file + 9, file, file - 1, file - 16, 17, 0] {
            let fits = if area < file { 36 } else { 0 };
            let expected = numbers.first().copied().unwrap_or(fits);
            assert_eq!(write(&mut tally, &mut rng, &contents, area), expected, "{numbers:?}, area of {area} bytes");
        }
    }
    tally.has_met(Row::FileWrite, &[0, 32, 33, 34, 36]);
    tally.report();
}
