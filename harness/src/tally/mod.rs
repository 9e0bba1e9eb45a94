//! What a comparison compared: how many inputs of a kind, and which answers and refusals it met. Every comparison says
//! so in this one form, and a run adds it all up.
pub mod ledger;
pub mod met;

use met::{Met, Row};
use std::env;
use std::fmt::{self, Display};
use std::fs::OpenOptions;
use std::io::{self, Write};

/// The file in which the tests of a run note what they met, each a line: they run as several programs.
const NOTES: &str = "HARNESS_TALLY";

/// What one comparison met.
pub struct Tally {
    /// What is compared.
    subject: String,
    /// The kind of inputs.
    kind: String,
    inputs: u64,
    met: Met,
    /// Whether the library was asked.
    asked: bool,
}

impl Tally {
    pub fn new(subject: &str, kind: &str) -> Tally {
        let (subject, kind) = (subject.to_string(), kind.to_string());
        Tally { subject, kind, inputs: 0, met: Met::default(), asked: true }
    }

    /// A comparison of the reference alone. The library was not asked, so the run has met nothing by it.
    pub fn of_reference(subject: &str, kind: &str) -> Tally {
        Tally { asked: false, ..Tally::new(&format!("{subject}, the reference alone"), kind) }
    }

    /// One more input.
    pub fn input(&mut self) {
        self.inputs(1);
    }

    /// As many more.
    pub fn inputs(&mut self, count: usize) {
        self.inputs += count as u64;
    }

    /// An outcome, once.
    pub fn met(&mut self, row: Row, number: impl Into<u32>) {
        self.met.add(row, number.into() as usize, 1);
    }

    /// An outcome as many times.
    pub fn met_times(&mut self, row: Row, number: u8, times: u64) {
        self.met.add(row, usize::from(number), times);
    }

    /// How often an outcome was met.
    pub fn times(&self, row: Row, number: u8) -> u64 {
        self.met.times(row, usize::from(number))
    }

    /// Fails unless these outcomes were met.
    pub fn has_met(&self, row: Row, numbers: &[u8]) {
        assert!(numbers.iter().all(|&number| self.times(row, number) > 0), "not all of {numbers:?} were met: {self}");
    }

    /// Says what was compared, and notes it for the whole run.
    pub fn report(&self) {
        println!("{self}");
        self.take_note();
    }

    /// Says that a comparison could not be made, and notes it as one of no input.
    pub fn not_run(&self, reason: &str) {
        println!("{}: {} NOT RUN, {reason}", self.subject, self.kind);
        self.take_note();
    }

    fn take_note(&self) {
        if let Some(notes) = env::var_os(NOTES) {
            let file = OpenOptions::new().create(true).append(true).open(notes);
            // in one piece: other tests write too
            file.and_then(|mut file| file.write_all(self.note().as_bytes())).expect("the notes can be written");
        }
    }

    /// A line of the notes: subject, kind, inputs and what was met, with tabs between.
    fn note(&self) -> String {
        let met = if self.asked { self.met.note() } else { String::new() };
        format!("{}\t{}\t{}\t{met}\n", self.subject, self.kind, self.inputs)
    }

    /// What such a line says.
    fn from_note(line: &str) -> io::Result<Tally> {
        let wrong = || io::Error::new(io::ErrorKind::InvalidData, format!("no note of a comparison: {line}"));
        let fields: Vec<&str> = line.split('\t').collect();
        match fields[..] {
            [subject, kind, inputs, met] => {
                let inputs = inputs.parse().map_err(|_| wrong())?;
                Ok(Tally { inputs, met: Met::from_note(met).ok_or_else(wrong)?, ..Tally::new(subject, kind) })
            }
            _ => Err(wrong()),
        }
    }
}

impl Display for Tally {
    fn fmt(&self, f: &mut fmt::Formatter) -> fmt::Result {
        write!(f, "{}: {} {}{}", self.subject, self.kind, grouped(self.inputs), self.met)
    }
}

/// A number with a comma before each three digits.
pub fn grouped(number: u64) -> String {
    let digits = number.to_string();
    let mut said = String::new();
    for (at, digit) in digits.chars().enumerate() {
        if at > 0 && (digits.len() - at) % 3 == 0 {
            said.push(',');
        }
        said.push(digit);
    }
    said
}
