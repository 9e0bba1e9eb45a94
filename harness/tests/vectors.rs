//! The kept vectors: what is printed for each, and its records, by the library, by the reference and by the literal
//! reader; the kept EDCs; the kept files; and the kept captures.
use harness::compare::file::{read as read_file, sections};
use harness::files::numbers;
use harness::reference::dump::{dump, dump_by, records_by};
use harness::reference::flux_track::{flux_track, flux_track_by};
use harness::reference::{annex, edc, plain, plain_file, plain_flux, read};
use harness::rng::Rng;
use harness::station::{self, Sections};
use harness::tally::met::{Row, ANSWERS, OF_WHOLE};
use harness::tally::Tally;
use std::collections::BTreeSet;
use std::fs;
use std::path::{Path, PathBuf};

fn folder() -> PathBuf {
    Path::new(env!("CARGO_MANIFEST_DIR")).join("../vectors")
}

#[test]
fn kept_vectors() {
    let folder = folder();
    let index = fs::read_to_string(folder.join("INDEX")).expect("the list of vectors");
    let mut tally = Tally::new("read", "kept vectors");
    let (mut answers, mut with_clocks) = (BTreeSet::new(), BTreeSet::new());
    for line in index.lines() {
        let place = folder.join(&line[..4]);
        let input = fs::read(place.with_extension("in")).expect("a vector's input");
        let expected = fs::read_to_string(place.with_extension("out")).expect("a vector's output");
        assert_eq!(dump_by(station::read, &input), expected, "{line}");
        assert_eq!(dump(&input), expected, "reference: {line}");
        assert_eq!(dump_by(plain::read, &input), expected, "literal reader: {line}");
        let records = fs::read_to_string(place.with_extension("records")).expect("a vector's records");
        assert_eq!(records_by(station::read, &input), records, "records: {line}");
        assert_eq!(records_by(read::read, &input), records, "the reference's records: {line}");
        assert_eq!(records_by(plain::read, &input), records, "the literal reader's records: {line}");
        // `sector answer place clocks`
        for record in records.lines().filter(|record| !record.starts_with("refused")) {
            let numbers: Vec<u32> = record.split(' ').map(|number| number.parse().expect("a number")).collect();
            answers.insert(numbers[1]);
            if numbers[3] > 0 {
                with_clocks.insert(numbers[1]);
            }
        }
        tally.input();
    }
    assert!(answers.into_iter().eq(ANSWERS.map(u32::from)), "the answers of the kept vectors");
    assert!(with_clocks.into_iter().eq(OF_WHOLE.map(u32::from)), "their answers with doubtful clocks");
    tally.report();
}

/// Each line of vectors/EDC is an EDC and the bytes that it is of.
#[test]
fn kept_edcs() {
    let lines = fs::read_to_string(folder().join("EDC")).expect("the kept EDCs");
    let byte = |digits: &[u8]| {
        let digits = std::str::from_utf8(digits).expect("two digits");
        u8::from_str_radix(digits, 16).expect("two hexadecimal digits")
    };
    let mut tally = Tally::new("EDC", "kept runs of bytes");
    for line in lines.lines() {
        let (own, digits) = line.split_once(' ').unwrap_or((line, ""));
        let bytes: Vec<u8> = digits.as_bytes().chunks(2).map(byte).collect();
        let expected = u16::from_str_radix(own, 16).expect("an EDC");
        assert_eq!(station::edc(&bytes), expected, "{line}");
        assert_eq!(edc::edc(&bytes), expected, "reference: {line}");
        assert_eq!(annex::edc(&bytes), expected, "annex A's register: {line}");
        tally.input();
    }
    assert!(lines.lines().count() > 0, "there is no kept EDC");
    tally.report();
}

/// Each line of vectors/files/INDEX is a file's name, the number of its reading, place and count of each section, and
/// what it shows.
#[test]
fn kept_files() {
    let folder = folder().join("files");
    let index = fs::read_to_string(folder.join("INDEX")).expect("the list of files");
    let (mut rng, mut tally) = (Rng::new(1), Tally::new("file", "kept files"));
    let said = |(number, sections): (u8, Sections)| [&[u32::from(number)][..], &numbers(&sections)].concat();
    for line in index.lines() {
        let (name, words) = line.split_at(4);
        let kept: Vec<u32> = words.split_whitespace().take(9).map(|word| word.parse().expect("a number")).collect();
        let file = fs::read(folder.join(name).with_extension("file")).expect("a kept file");
        assert_eq!(said(read_file(&mut tally, &mut rng, &file)), kept, "{line}");
        assert_eq!(said(sections(&mut rng, plain_file::read, &file)), kept, "literal reading: {line}");
    }
    tally.has_met(Row::FileRead, &[0, 31, 32, 33, 34, 35]);
    tally.has_met(Row::FileAnswer, &ANSWERS);
    tally.report();
}

/// What the program has to make of each capture, a track or a refusal.
#[test]
fn kept_captures() {
    let folder = folder().join("flux");
    let index = fs::read_to_string(folder.join("INDEX")).expect("the list of captures");
    let mut tally = Tally::new("flux", "kept captures");
    for line in index.lines() {
        let place = folder.join(&line[..4]);
        let input = fs::read(place.with_extension("in")).expect("a kept capture");
        let expected = fs::read(place.with_extension("out")).expect("what is made of it");
        assert!(flux_track_by(station::flux, &input) == expected, "{line}");
        assert!(flux_track(&input) == expected, "reference: {line}");
        assert!(flux_track_by(plain_flux::flux, &input) == expected, "literal version: {line}");
        let refused = String::from_utf8(expected).ok().filter(|said| said.starts_with("refused "));
        let number = refused.map_or(0, |said| said[8..10].parse::<u8>().expect("a refusal's number"));
        tally.met(Row::Flux, number);
        tally.input();
    }
    tally.has_met(Row::Flux, &[0, 41, 42, 43, 44]);
    tally.report();
}
