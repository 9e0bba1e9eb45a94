//! Writes the kept vectors and the samples: `vectors FOLDER` fills FOLDER/vectors and FOLDER/samples. What the program
//! has to print for a vector comes from the reference, and the literal reader has to agree; so do the records, which the
//! program does not print in full. FOLDER/vectors/EDC has runs of bytes, each behind its EDC, FOLDER/vectors/files has files
//! of read cartridges, with what the reading answers in its INDEX, and FOLDER/vectors/flux has captures for the program that
//! turns them into tracks.
mod clocks;
mod files;
mod flux;
mod kept;
mod letters;
mod runs;
mod samples;

use harness::files::{numbers, Contents};
use harness::reference::dump::{dump, dump_by, records_by};
use harness::reference::flux_track::{flux_track, flux_track_by};
use harness::reference::{annex, edc, file, plain, plain_file, plain_flux, read};
use harness::station::Sections;
use std::error::Error;
use std::fs;
use std::path::Path;

/// An input for the program that prints a track or for the one that makes a track of a capture, or a file, and what it shows.
pub struct Vector {
    pub shows: String,
    pub input: Vec<u8>,
}

fn main() -> Result<(), Box<dyn Error>> {
    let folder = std::env::args().nth(1).ok_or("usage: vectors FOLDER")?;
    let folder = Path::new(&folder);
    let mut index = String::new();
    fs::create_dir_all(folder.join("vectors"))?;
    for (number, Vector { shows, input }) in kept::all().into_iter().enumerate() {
        let place = folder.join("vectors").join(format!("{number:04}"));
        fs::write(place.with_extension("in"), &input)?;
        fs::write(place.with_extension("out"), printed(&input))?;
        fs::write(place.with_extension("records"), records(&input))?;
        index += &format!("{number:04} {shows}\n");
    }
    fs::write(folder.join("vectors/INDEX"), &index)?;
    println!("{} vectors", index.lines().count());
    let runs: String = runs::all().iter().map(|bytes| behind_its_edc(bytes)).collect();
    fs::write(folder.join("vectors/EDC"), &runs)?;
    println!("{} runs of bytes with their EDC", runs.lines().count());
    keep_files(&folder.join("vectors/files"))?;
    keep_captures(&folder.join("vectors/flux"))?;

    fs::create_dir_all(folder.join("samples"))?;
    for (name, input) in samples::all() {
        fs::write(folder.join("samples").join(name), &input)?;
        println!("{name}:\n{}", printed(&input));
    }
    for (name, input) in samples::captures() {
        fs::write(folder.join("samples").join(name), &input)?;
        println!("{name}:\n{}", told(&made(&input)));
    }
    let cartridge = samples::cartridge();
    fs::write(folder.join("samples/cartridge.file"), written(&cartridge))?;
    println!("cartridge.file: {cartridge:?}");
    Ok(())
}

/// Each file, and the INDEX: a line with its name, the number and the eight numbers of its reading, and what it shows.
fn keep_files(folder: &Path) -> Result<(), Box<dyn Error>> {
    let mut index = String::new();
    fs::create_dir_all(folder)?;
    for (number, Vector { shows, input }) in files::all().into_iter().enumerate() {
        fs::write(folder.join(format!("{number:04}.file")), &input)?;
        index += &format!("{number:04} {} {shows}\n", answered(&input));
    }
    fs::write(folder.join("INDEX"), &index)?;
    println!("{} files", index.lines().count());
    Ok(())
}

/// Each capture, and what the program makes of it.
fn keep_captures(folder: &Path) -> Result<(), Box<dyn Error>> {
    let mut index = String::new();
    fs::create_dir_all(folder)?;
    for (number, Vector { shows, input }) in flux::all().into_iter().enumerate() {
        let place = folder.join(format!("{number:04}"));
        fs::write(place.with_extension("in"), &input)?;
        fs::write(place.with_extension("out"), made(&input))?;
        index += &format!("{number:04} {shows}\n");
    }
    fs::write(folder.join("INDEX"), &index)?;
    println!("{} captures", index.lines().count());
    Ok(())
}

/// The track of a capture, or the refusal.
fn made(input: &[u8]) -> Vec<u8> {
    let made = flux_track(input);
    assert!(made == flux_track_by(plain_flux::flux, input), "the reference and the literal version");
    made
}

/// What a track holds, or the refusal that stands in its place.
fn told(track: &[u8]) -> String {
    if track.starts_with(b"refused ") {
        String::from_utf8_lossy(track).into_owned()
    } else {
        printed(track)
    }
}

/// The number of a file's reading, then place and count of each section.
fn answered(input: &[u8]) -> String {
    let (mut found, mut literal) = (Sections::default(), Sections::default());
    let number = file::read(input, &mut found);
    let numbers_agree = plain_file::read(input, &mut literal) == number;
    assert!(numbers_agree && literal == found, "the literal reading and the reference");
    let places: String = numbers(&found).iter().map(|number| format!(" {number}")).collect();
    format!("{number}{places}")
}

/// The file with these contents.
fn written(contents: &Contents) -> Vec<u8> {
    let (mut area, mut length) = (vec![0; contents.file().len()], [0]);
    let Contents { label, tracks, answers, data } = contents;
    assert_eq!(file::write(label, tracks, answers, data, &mut area, &mut length), 0, "a right file");
    area
}

fn printed(input: &[u8]) -> String {
    let printed = dump(input);
    assert_eq!(printed, dump_by(plain::read, input), "the reference and the literal reader");
    printed
}

fn records(input: &[u8]) -> String {
    let records = records_by(plain::read, input);
    assert_eq!(records, records_by(read::read, input), "the literal reader and the reference");
    records
}

/// A line: the EDC and the bytes, in hexadecimal digits.
fn behind_its_edc(bytes: &[u8]) -> String {
    let own = annex::edc(bytes);
    assert_eq!(own, edc::edc(bytes), "annex A's register and the reference");
    let digits: String = bytes.iter().map(|byte| format!("{byte:02X}")).collect();
    format!("{own:04X} {digits}").trim_end().to_string() + "\n"
}
