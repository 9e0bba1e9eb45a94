//! Reads a captured track from a file, makes a file for another bench of what was read, then formats and rewrites a track
//! in memory. On x86-64, from the repository's root:
//!
//!     rustc --edition 2021 -L native=target/staticlib examples/rust/main.rs -o target/example
//!     target/example samples/worn.in
//!     target/example samples/capture.flux
//!
//! The captured file has the layout, the cylinder and the side, one byte each, and then the track's image. One whose name
//! ends in .flux has in its place the ticks of a nominal bit cell and the time stamps of the flux transitions, four bytes
//! each, the most significant first.
//! Exit status: 0 all was printed; 1 a call was refused; 2 wrong words, or a file that can't be read or written.
use std::fmt::{self, Display};
use std::io::{self, Read, Write};
use std::path::Path;
use std::process::ExitCode;

#[path = "../../include/station.rs"]
mod station;

use station::{FluxResult, Layout, Reading, Record, Sections};
use station::{DATA_MARK, LAYOUTS, LONGEST_FILE, LONGEST_IMAGE, NO_PLACE};

/// Answers to which a bench does something of its own: a planned defect, a rewrite that was cut off, and on cylinder 0 a
/// letter that may not stand there.
const DEFECTIVE: u32 = 3;
const OPEN_MARK: u32 = 25;
const FORBIDDEN_LETTER: u32 = 27;

/// The refusal that tells of an interval.
const NO_BAND: u8 = 43;

/// The bytes of the ticks and of each stamp. With one stamp more than this, since each interval is two cells at least, every
/// capture is refused.
const NUMBER: usize = 4;
const MOST_STAMPS: usize = 8 * LONGEST_IMAGE / 2;

/// Why the program ends early.
enum Failure {
    /// The library refused a call.
    Refused(&'static str, u8),
    /// Reading or writing went wrong.
    Lost(io::Error),
}

impl From<io::Error> for Failure {
    fn from(error: io::Error) -> Failure {
        Failure::Lost(error)
    }
}

impl Display for Failure {
    fn fmt(&self, f: &mut fmt::Formatter) -> fmt::Result {
        match self {
            Failure::Refused(what, number) => write!(f, "{what} is refused: {number}"),
            Failure::Lost(error) => write!(f, "the output could not be written: {error}"),
        }
    }
}

/// The library gives 0 where a call is served.
fn served(what: &'static str, number: u8) -> Result<(), Failure> {
    match number {
        0 => Ok(()),
        _ => Err(Failure::Refused(what, number)),
    }
}

#[derive(Clone, Copy)]
struct Track {
    layout: u32,
    cylinder: u32,
    side: u32,
}

impl Track {
    /// The layout's sizes. A layout that there is not is left to the library, which refuses it.
    fn sizes(self) -> Layout {
        LAYOUTS.get(self.layout as usize).copied().unwrap_or(Layout { sectors: 0, bytes: 0, image: 0 })
    }

    /// The slots of all sectors, and what is told of them.
    fn read(self, what: &'static str, image: &[u8]) -> Result<(Vec<u8>, Reading), Failure> {
        let (mut area, mut reading) = (vec![0; self.sizes().area()], Reading::default());
        served(what, station::read(self.layout, self.cylinder, self.side, image, &mut area, &mut reading))?;
        Ok((area, reading))
    }

    fn format(self, data: &[u8], marks: &[u8], image: &mut [u8]) -> u8 {
        station::format(self.layout, self.cylinder, self.side, data, marks, image)
    }
}

/// Only 1, 2 and 3 come with bytes, those of 3 being F and zeros; in every other case the slot is zeros, which must not be
/// taken for data.
fn has_bytes(answer: u32) -> bool {
    matches!(answer, 1 | 2 | DEFECTIVE)
}

/// A sector that can't be used, with how far round its mark is, so that the disk can be turned to it. A capture may be
/// longer than a turn.
fn show_refused(out: &mut impl Write, sector: usize, record: Record, cells_of_a_turn: u32) -> io::Result<()> {
    write!(out, "sector {sector} can't be used: answer {}", record.answer)?;
    if record.place != NO_PLACE {
        // a captured image has at most 196,608 cells: this stays within 32 bits
        let tenths = record.place * 3600 / cells_of_a_turn % 3600;
        write!(out, ", {}.{} degrees round from the index hole", tenths / 10, tenths % 10)?;
    }
    // no scratch: the record is whole, but some station wrote what may not stand there
    if record.answer == FORBIDDEN_LETTER {
        write!(out, "; not allowed on cylinder 0, report it")?;
    }
    Ok(())
}

/// A sector's doubtful clocks, if it has some. They change no answer, but where it can still be used they are the first
/// sign that the cartridge wears out. In a planned defect, and where a rewrite was cut off, they say nothing of that.
fn show_clocks(out: &mut impl Write, record: Record) -> io::Result<()> {
    let means = match record.answer {
        1 | 2 => ", copy the cartridge now",
        DEFECTIVE => ", no sign of wear in a defect",
        OPEN_MARK => ", no sign of wear in a rewrite that was cut off",
        _ => "",
    };
    match record.clocks {
        0 => Ok(()),
        1 => write!(out, "; 1 doubtful clock{means}"),
        clocks => write!(out, "; {clocks} doubtful clocks{means}"),
    }
}

fn show_sector(
    out: &mut impl Write,
    sector: usize,
    record: Record,
    slot: &[u8],
    cells_of_a_turn: u32,
) -> io::Result<()> {
    let means = if record.answer == DEFECTIVE { "is a planned defect, copy it as such" } else { "can be used" };
    if has_bytes(record.answer) {
        write!(out, "sector {sector} {means}: answer {}, first byte {:02X}", record.answer, slot[0])?;
    } else {
        show_refused(out, sector, record, cells_of_a_turn)?;
    }
    show_clocks(out, record)?;
    writeln!(out)
}

/// What was read of the captured track, as a file for another bench: all answers, and one after the other the slots that
/// come with bytes.
fn file_captured(out: &mut impl Write, track: Track, area: &[u8], records: &[Record]) -> Result<(), Failure> {
    let label = b"for the second bench";
    let entry = [track.cylinder as u8, track.side as u8, track.layout as u8];
    let answers: Vec<u8> = records.iter().map(|record| record.answer as u8).collect();
    let slots = area.chunks(track.sizes().bytes).zip(records);
    let data = slots.filter(|(_, record)| has_bytes(record.answer)).map(|(slot, _)| slot).collect::<Vec<_>>().concat();
    let (mut sent, mut length) = (vec![0; LONGEST_FILE], [0]);
    served("the file", station::file_write(label, &entry, &answers, &data, &mut sent, &mut length))?;
    sent.truncate(length[0] as usize);

    // at the other bench: nothing in these bytes is to be trusted before they are read
    let mut sections = Sections::default();
    served("the file that was sent", station::file_read(&sent, &mut sections))?;
    let Sections { label_place, tracks_place, answers_place, data_place, .. } = sections;
    write!(out, "file of {} bytes: label at {label_place}, tracks at {tracks_place}", sent.len())?;
    writeln!(out, ", answers at {answers_place}, data at {data_place}")?;
    let Sections { tracks_count, answers_count, data_count, .. } = sections;
    writeln!(out, "it holds {tracks_count} track, {answers_count} answers and {data_count} bytes of data")?;
    let number = station::file_read(&sent[..sent.len() - 1], &mut sections);
    writeln!(out, "without its last byte it is refused: {number}")?;
    Ok(())
}

/// The image of a capture: its cells, and no byte behind them.
fn image_of_stamps(out: &mut impl Write, capture: &[u8]) -> Result<Vec<u8>, Failure> {
    let number = |bytes: &[u8]| u32::from_be_bytes(bytes.try_into().expect("four bytes"));
    let numbers: Vec<u32> = capture.chunks_exact(NUMBER).map(number).collect();
    // without ticks they are out of range
    let (ticks, stamps) = numbers.split_first().map_or((0, &[][..]), |(&ticks, stamps)| (ticks, stamps));
    let (mut image, mut result) = (vec![0; LONGEST_IMAGE], FluxResult::default());
    let number = station::flux(ticks, stamps, &mut image, &mut result);
    if number == NO_BAND {
        writeln!(out, "interval {} is in no band", result.interval)?;
    }
    served("the capture", number)?;
    writeln!(out, "{} flux transitions give {} cells", stamps.len(), result.cells)?;
    image.truncate((result.cells as usize + 7) / 8);
    Ok(image)
}

fn show_captured(out: &mut impl Write, track: Track, image: &[u8]) -> Result<(), Failure> {
    let (area, reading) = track.read("the captured track", image)?;
    writeln!(out, "captured: layout {}, cylinder {}, side {}", track.layout, track.cylinder, track.side)?;
    let sizes = track.sizes();
    for (sector, (slot, record)) in (1..).zip(area.chunks(sizes.bytes).zip(reading.records)) {
        show_sector(out, sector, record, slot, 8 * sizes.image as u32)?;
    }
    let [bad, foreign] = reading.counts;
    writeln!(out, "identifiers: {bad} with a wrong EDC, {foreign} of other tracks")?;
    file_captured(out, track, &area, &reading.records[..sizes.sectors])
}

fn rewrite_in_memory(out: &mut impl Write) -> Result<(), Failure> {
    let (track, mark) = (Track { layout: 1, cylinder: 5, side: 0 }, u32::from(DATA_MARK));
    let Layout { sectors, bytes, image } = track.sizes();
    let (data, marks, mut image) = (vec![0xE5; sectors * bytes], vec![DATA_MARK; sectors], vec![0; image]);
    served("the format", track.format(&data, &marks, &mut image))?;
    writeln!(out, "formatted: sector 2 answers {}", track.read("the read", &image)?.1.records[1].answer)?;

    let (contents, mut plan) = (vec![b'N'; bytes], [0; 4]);
    let Track { layout, cylinder, side } = track;
    served("the request", station::request(layout, cylinder, side, 2, mark, &contents, &image, &mut plan))?;
    writeln!(out, "rewriting sector 2: {} stores from image byte {} on", plan[3], plan[1] / 8)?;
    // one store a call, so that each can be brought to the disk before the next; mark and bytes stay the same throughout
    while plan[2] < plan[3] {
        served("a step", station::step(&mut plan, mark, &contents, &mut image))?;
        // were it cut here, nobody could take the half-written sector for a good one
        if plan[2] == 200 {
            let answers = track.read("the read", &image)?.1.records.map(|record| record.answer);
            writeln!(out, "after 200 stores: sector 2 answers {}, sector 3 answers {}", answers[1], answers[2])?;
        }
    }
    let (area, reading) = track.read("the read", &image)?;
    let new = if area[bytes..2 * bytes] == contents { "the new ones" } else { "not the new ones" };
    writeln!(out, "after the last: sector 2 answers {}, and its bytes are {new}", reading.records[1].answer)?;
    let number = station::step(&mut plan, mark, &contents, &mut image);
    writeln!(out, "one more step is refused: {number}")?;
    // a refused format leaves the image as it was, so the rewritten track is still there
    let number = Track { cylinder: 75, ..track }.format(&data, &marks, &mut image);
    let answer = track.read("the read", &image)?.1.records[1].answer;
    writeln!(out, "cylinder 75 is refused: {number}, and sector 2 still answers {answer}")?;
    out.flush()?;
    Ok(())
}

fn is_flux(path: &Path) -> bool {
    path.extension().map_or(false, |ending| ending == "flux")
}

/// The file's bytes: more than an image or a capture can have is enough, since a file that is too long is then refused,
/// where a cut one would be read.
fn file(path: &Path) -> io::Result<Vec<u8>> {
    let mut bytes = Vec::new();
    let most = 3 + NUMBER * (1 + MOST_STAMPS + 1);
    std::fs::File::open(path)?.take(most as u64).read_to_end(&mut bytes)?;
    let cut = |why: &str| Err(io::Error::new(io::ErrorKind::UnexpectedEof, why));
    match bytes.len() {
        0..=2 => cut("it has fewer than three bytes"),
        length if is_flux(path) && length > 3 + NUMBER && (length - 3) % NUMBER != 0 => cut("it ends within a stamp"),
        _ => Ok(bytes),
    }
}

fn main() -> ExitCode {
    let words: Vec<_> = std::env::args_os().skip(1).collect();
    let path = match &words[..] {
        [path] => Path::new(path),
        _ => {
            eprint!("usage: example FILE: layout, cylinder and side, one byte each, then the track's image");
            eprintln!(", or with .flux ticks and stamps");
            return ExitCode::from(2);
        }
    };
    let file = match file(path) {
        Ok(file) => file,
        Err(error) => {
            eprintln!("example: can't read {}: {error}", path.display());
            return ExitCode::from(2);
        }
    };
    let track = Track { layout: file[0].into(), cylinder: file[1].into(), side: file[2].into() };
    let out = &mut io::stdout();
    let image = if is_flux(path) { image_of_stamps(out, &file[3..]) } else { Ok(file[3..].to_vec()) };
    match image.and_then(|image| show_captured(out, track, &image)).and_then(|()| rewrite_in_memory(out)) {
        Ok(()) => ExitCode::SUCCESS,
        Err(failure @ Failure::Refused(..)) => match writeln!(out, "{failure}").and_then(|()| out.flush()) {
            Ok(()) => ExitCode::FAILURE,
            Err(error) => told(&Failure::Lost(error)),
        },
        Err(lost) => told(&lost),
    }
}

fn told(lost: &Failure) -> ExitCode {
    eprintln!("example: {lost}");
    ExitCode::from(2)
}
