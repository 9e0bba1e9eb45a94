//! The outcomes that comparisons met, and those that a run has to meet (01, "How a track is read", "Refused calls"; 02,
//! requests 03 to 06).
use super::grouped;
use std::collections::BTreeSet;
use std::fmt::{self, Display};

/// What has outcomes.
#[derive(Clone, Copy, Debug, PartialEq, Eq)]
pub enum Row {
    /// Calls: 0, or the number of the refusal.
    Format,
    Read,
    /// Sectors of an accepted read.
    Answer,
    /// Those among them with doubtful clocks, by their answer.
    Doubtful,
    /// Identifiers that are counted: 0 a bad one, 1 a foreign one.
    Identifier,
    /// Refused picks.
    Pick,
    /// Accepted picks, by the pass that is taken: the number of the answer.
    First,
    Second,
    Neither,
    Request,
    Step,
    FileWrite,
    FileRead,
    /// Sectors in files that were accepted.
    FileAnswer,
    Flux,
    /// Intervals of captures that were accepted: how many half cells each is.
    Interval,
}

/// Every answer of a reader.
pub const ANSWERS: [u8; 10] = [1, 2, 3, 21, 22, 23, 24, 25, 26, 27];

/// Those with which there is a whole block, whose clocks are counted.
pub const OF_WHOLE: [u8; 6] = [1, 2, 3, 25, 26, 27];

/// Every row with its name, and the outcomes that it has to meet. No call gives 8: every layout adds up to its image.
const ROWS: [(Row, &str, &[u8]); 16] = [
    (Row::Format, "format", &[0, 1, 2, 3, 4, 5, 6, 7]),
    (Row::Read, "read", &[0, 1, 2, 3, 4, 5]),
    (Row::Answer, "answer", &ANSWERS),
    (Row::Doubtful, "doubtful clocks with answer", &OF_WHOLE),
    (Row::Identifier, "identifier", &[0, 1]),
    (Row::Pick, "pick", &[4, 5, 9]),
    (Row::First, "first pass", &[1, 2, 3]),
    (Row::Second, "second pass", &[1, 2, 3]),
    (Row::Neither, "neither pass", &[21, 22, 23, 24, 25, 26, 27]),
    (Row::Request, "request", &[0, 1, 2, 3, 4, 5, 6, 7, 9, 10, 11]),
    (Row::Step, "step", &[0, 1, 4, 5, 6, 12, 13]),
    (Row::FileWrite, "file write", &[0, 32, 33, 34, 36]),
    (Row::FileRead, "file read", &[0, 31, 32, 33, 34, 35]),
    (Row::FileAnswer, "answer in a file", &ANSWERS),
    (Row::Flux, "flux", &[0, 41, 42, 43, 44]),
    (Row::Interval, "half cells", &[2, 3, 4]),
];

/// The rows whose numbers other than 0 are refusals.
const CALLS: [Row; 8] =
    [Row::Format, Row::Read, Row::Pick, Row::Request, Row::Step, Row::FileWrite, Row::FileRead, Row::Flux];

/// Room for every number there is, those of the requests (02) among them: answers up to 27, refusals up to 53.
const NUMBERS: usize = 54;

/// How often each outcome was met.
#[derive(Clone)]
pub struct Met([[u64; NUMBERS]; ROWS.len()]);

impl Default for Met {
    fn default() -> Met {
        Met([[0; NUMBERS]; ROWS.len()])
    }
}

impl Met {
    pub fn add(&mut self, row: Row, number: usize, times: u64) {
        self.0[row as usize][number] += times;
    }

    pub fn times(&self, row: Row, number: usize) -> u64 {
        self.0[row as usize][number]
    }

    /// Adds what another met.
    pub fn add_all(&mut self, other: &Met) {
        for (times, more) in self.0.iter_mut().flatten().zip(other.0.iter().flatten()) {
            *times += more;
        }
    }

    /// The numbers met in a row.
    fn numbers(&self, row: Row) -> impl Iterator<Item = usize> + '_ {
        (0..NUMBERS).filter(move |&number| self.times(row, number) > 0)
    }

    /// What has to be met and was not.
    pub fn missing(&self) -> Vec<String> {
        let mut missing = Vec::new();
        for (row, name, wanted) in ROWS {
            let lacks = wanted.iter().filter(|&&number| self.times(row, number.into()) == 0);
            missing.extend(lacks.map(|&number| format!("{name} {}", said(row, number.into()))));
        }
        missing
    }

    /// The answers and refusals that were met.
    pub fn statement(&self) -> String {
        let refusals: BTreeSet<usize> = CALLS.iter().flat_map(|&row| self.numbers(row)).filter(|&n| n > 0).collect();
        let words = |numbers: Vec<usize>| numbers.iter().map(|number| format!(" {number}")).collect::<String>();
        let (answers, refusals) = (self.numbers(Row::Answer).collect(), refusals.into_iter().collect());
        let never = "8 is not given by any call of the base";
        format!("answers{}; refusals{} ({never})", words(answers), words(refusals))
    }

    /// For the notes: row, number and times of each outcome.
    pub fn note(&self) -> String {
        let mut words = Vec::new();
        for (row, ..) in ROWS {
            let met = self.numbers(row);
            words.extend(met.map(|number| format!("{} {number} {}", row as usize, self.times(row, number))));
        }
        words.join(" ")
    }

    /// What such a note says.
    pub fn from_note(note: &str) -> Option<Met> {
        let numbers: Result<Vec<u64>, _> = note.split_whitespace().map(str::parse).collect();
        let mut met = Met::default();
        for outcome in numbers.ok()?.chunks(3) {
            let (row, number, times) = match *outcome {
                [row, number, times] => (row as usize, number as usize, times),
                _ => return None,
            };
            *met.0.get_mut(row)?.get_mut(number)? += times;
        }
        Some(met)
    }
}

impl Display for Met {
    fn fmt(&self, f: &mut fmt::Formatter) -> fmt::Result {
        for (row, name, _) in ROWS {
            let met = self.numbers(row).map(|at| format!("{} ({})", said(row, at), grouped(self.times(row, at))));
            let met: Vec<String> = met.collect();
            if !met.is_empty() {
                write!(f, "; {name} {}", met.join(", "))?;
            }
        }
        Ok(())
    }
}

/// The number of an outcome, or its name.
fn said(row: Row, number: usize) -> String {
    match (row, number) {
        (Row::Identifier, 0) => "bad".to_string(),
        (Row::Identifier, _) => "foreign".to_string(),
        _ => number.to_string(),
    }
}
