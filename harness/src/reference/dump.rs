//! What the program prints (01, "Small facts"): layout, cylinder and side, one byte each, then the image. It prints
//! neither places nor doubtful clocks, so the records are told here beside it.
use super::layouts::LAYOUTS;
use super::read::read;
use crate::station::{Reading, Record};

/// A reader: layout, cylinder, side, image, area, and what is told of the track.
pub type Reader = fn(u32, u32, u32, &[u8], &mut [u8], &mut Reading) -> u8;

/// What is printed for all of standard input.
pub fn dump(input: &[u8]) -> String {
    dump_by(read, input)
}

/// The same by any reader.
pub fn dump_by(reader: Reader, input: &[u8]) -> String {
    told(reader, input, |track| {
        let Told { layout, cylinder, side, .. } = track;
        let head = format!("track {cylinder} {side} {layout}\n");
        let [bad, foreign] = track.reading.counts;
        head + &track.sectors(|Record { answer, .. }| format!("{answer}")) + &format!("idents {bad} {foreign}\n")
    })
}

/// The records of the same input: a line `sector answer place clocks` for each sector.
pub fn records_by(reader: Reader, input: &[u8]) -> String {
    let said = |Record { answer, place, clocks }| format!("{answer} {place} {clocks}");
    told(reader, input, |track| track.sectors(said))
}

/// What a reader tells of a track.
struct Told {
    layout: u8,
    cylinder: u8,
    side: u8,
    sectors: usize,
    reading: Reading,
}

impl Told {
    /// A line for each sector: its number, and what is said of its record.
    fn sectors(&self, said: impl Fn(Record) -> String) -> String {
        let records = (1..=self.sectors).zip(self.reading.records);
        records.map(|(sector, record)| format!("{sector} {}\n", said(record))).collect()
    }
}

/// The lines for a track that is read, or for the refusal.
fn told(reader: Reader, input: &[u8], lines: impl Fn(Told) -> String) -> String {
    match track(reader, input) {
        Ok(track) => lines(track),
        Err(number) => format!("refused {number}\n"),
    }
}

fn track(reader: Reader, input: &[u8]) -> Result<Told, u8> {
    let (layout, cylinder, side, image) = match input {
        &[layout, cylinder, side, ref image @ ..] => (layout, cylinder, side, image),
        _ => return Err(1),
    };
    // a layout that there is not is refused, whatever the area
    let found = LAYOUTS.get(usize::from(layout));
    let (sectors, size) = found.map_or((0, 0), |layout| (layout.sectors, layout.size));
    let mut area = vec![0; sectors * size];
    let mut reading = Reading::default();
    match reader(layout.into(), cylinder.into(), side.into(), image, &mut area, &mut reading) {
        0 => Ok(Told { layout, cylinder, side, sectors, reading }),
        number => Err(number),
    }
}
