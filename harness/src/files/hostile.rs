//! Files and contents that nobody should trust. Many are right but for a few bytes, so that the later sections are looked
//! at too.
use super::{joined, small, Contents};
use crate::rng::Rng;
use crate::station::LONGEST_LABEL;
use crate::tally::met::ANSWERS;

/// Files by kind.
pub type File = fn(&mut Rng) -> Vec<u8>;

pub const FILES: [(&str, File); 10] = [
    ("random bytes", noise),
    ("random bytes after small counts", counted_noise),
    ("files with bytes changed", changed),
    ("files with another count", recounted),
    ("files with bytes lost or put in", shifted),
    ("files cut", cut),
    ("files with bytes changed and then cut", changed_and_cut),
    ("files with bytes left over", left_over),
    ("files joined", two),
    ("sections of different files", mixed),
];

fn noise(rng: &mut Rng) -> Vec<u8> {
    let length = rng.below(200);
    rng.bytes(length)
}

/// Every section as long as its count says, and made of bytes that it may have.
fn counted_noise(rng: &mut Rng) -> Vec<u8> {
    let (label, tracks) = (rng.below(4), rng.below(3));
    let (answers, data) = ([0, 8, 15, 26, 52][rng.below(5)], [0, 128, 256, 512][rng.below(4)]);
    let label = rng.bytes(label);
    let list: Vec<u8> = (0..3 * tracks).map(|_| rng.below(4) as u8).collect();
    let numbers: Vec<u8> = (0..answers).map(|_| ANSWERS[rng.below(ANSWERS.len())]).collect();
    let counts = [label.len(), tracks, answers, data].map(|count| count as u32);
    joined(counts, [&label, &list, &numbers, &rng.bytes(data)])
}

/// Somewhere in the file: most often before the data.
fn place(rng: &mut Rng, contents: &Contents) -> usize {
    let (head, data) = (contents.sections().data_place as usize, contents.data.len());
    if rng.below(8) == 0 {
        rng.below(head + data)
    } else {
        rng.below(head)
    }
}

/// A byte next to the one that was there, one that the file has a use for, or any.
fn byte(rng: &mut Rng, old: u8) -> u8 {
    match rng.below(4) {
        0 => old.wrapping_add(1),
        1 => old.wrapping_sub(1),
        2 => [0, 1, 2, 3, 4, 20, 21, 27, 28, 74, 75, 80, 81, 150, 151][rng.below(15)],
        _ => rng.byte(),
    }
}

fn changed(rng: &mut Rng) -> Vec<u8> {
    let contents = small(rng);
    changes(rng, &contents)
}

/// The file with one to three bytes changed.
fn changes(rng: &mut Rng, contents: &Contents) -> Vec<u8> {
    let mut file = contents.file();
    for _ in 0..1 + rng.below(3) {
        let at = place(rng, contents);
        file[at] = byte(rng, file[at]);
    }
    file
}

/// A count that most often is not the right one: next to it, with other high bits, or so high that in 32 bits a sum with
/// it or three times it runs over.
pub fn wrong_count(rng: &mut Rng, right: u32) -> u32 {
    match rng.below(8) {
        0 => right.wrapping_add(1),
        1 => right.wrapping_sub(1),
        2 => 1 << (7 + rng.below(25)) ^ right,
        3 => right.swap_bytes(),
        4 => u32::MAX - rng.below(40) as u32,
        // three times this runs over to three times the right one, or one or two beside it
        5 => [0x5555_5555_u32, 0x5555_5556, 0xAAAA_AAAA, 0xAAAA_AAAB][rng.below(4)].wrapping_add(right),
        6 => rng.bits() as u32,
        _ => rng.below(200) as u32,
    }
}

fn recounted(rng: &mut Rng) -> Vec<u8> {
    let contents = small(rng);
    let (mut counts, section) = (contents.counts(), rng.below(4));
    counts[section] = wrong_count(rng, counts[section]);
    joined(counts, [&contents.label, &contents.tracks, &contents.answers, &contents.data])
}

fn shifted(rng: &mut Rng) -> Vec<u8> {
    let contents = small(rng);
    let (mut file, at) = (contents.file(), place(rng, &contents));
    let end = (at + rng.below(5)).min(file.len());
    let length = rng.below(5);
    file.splice(at..end, rng.bytes(length));
    file
}

fn cut(rng: &mut Rng) -> Vec<u8> {
    let contents = small(rng);
    let mut file = contents.file();
    file.truncate(place(rng, &contents));
    file
}

/// What stands before the end may be wrong too.
fn changed_and_cut(rng: &mut Rng) -> Vec<u8> {
    let contents = small(rng);
    let mut file = changes(rng, &contents);
    file.truncate(place(rng, &contents));
    file
}

fn left_over(rng: &mut Rng) -> Vec<u8> {
    let (mut file, length) = (small(rng).file(), 1 + rng.below(20));
    file.extend(rng.bytes(length));
    file
}

fn two(rng: &mut Rng) -> Vec<u8> {
    [small(rng).file(), small(rng).file()].concat()
}

fn mixed(rng: &mut Rng) -> Vec<u8> {
    let files = [small(rng), small(rng)];
    let mut either = || &files[rng.below(2)];
    let mixed = Contents {
        label: either().label.clone(),
        tracks: either().tracks.clone(),
        answers: either().answers.clone(),
        data: either().data.clone(),
    };
    mixed.file()
}

/// Contents to be written, with up to two changes anywhere but in the data bytes themselves.
pub fn contents(rng: &mut Rng) -> Contents {
    let mut contents = small(rng);
    for _ in 0..rng.below(3) {
        match rng.below(6) {
            0 => {
                let length = LONGEST_LABEL - 2 + rng.below(6);
                contents.label = rng.bytes(length);
            }
            1 => resize(rng, &mut contents.tracks),
            2 => change(rng, &mut contents.tracks),
            3 => resize(rng, &mut contents.answers),
            4 => change(rng, &mut contents.answers),
            _ => resize(rng, &mut contents.data),
        }
    }
    contents
}

fn change(rng: &mut Rng, bytes: &mut [u8]) {
    if !bytes.is_empty() {
        let at = rng.below(bytes.len());
        bytes[at] = byte(rng, bytes[at]);
    }
}

/// A few more or less, none, or the same once more.
fn resize(rng: &mut Rng, bytes: &mut Vec<u8>) {
    let length = match rng.below(6) {
        0 => 0,
        1 => 2 * bytes.len(),
        2 | 3 => bytes.len() + 1 + rng.below(3),
        _ => bytes.len().saturating_sub(1 + rng.below(3)),
    };
    let old = bytes.clone();
    let again = old.iter().copied().chain([1]).cycle();
    *bytes = again.take(length).collect();
}

/// The length of an area for the file: just right, longer, shorter or none.
pub fn area(rng: &mut Rng, file: usize) -> usize {
    match rng.below(8) {
        0 => file.saturating_sub(1),
        1 => rng.below(file + 1),
        2 => 0,
        3 | 4 => file + 1 + rng.below(300),
        _ => file,
    }
}
