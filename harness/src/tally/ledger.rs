//! All that a run compared.
use super::met::Met;
use super::{grouped, Tally};
use std::collections::BTreeMap;
use std::fmt::{self, Display};
use std::io;

#[derive(Default)]
pub struct Ledger {
    /// The inputs by subject and kind.
    inputs: BTreeMap<String, BTreeMap<String, u64>>,
    met: Met,
}

impl Ledger {
    pub fn enter(&mut self, tally: &Tally) {
        let kinds = self.inputs.entry(tally.subject.clone()).or_default();
        *kinds.entry(tally.kind.clone()).or_default() += tally.inputs;
        self.met.add_all(&tally.met);
    }

    /// What the tests of a run noted.
    pub fn from_notes(notes: &str) -> io::Result<Ledger> {
        let mut ledger = Ledger::default();
        for line in notes.lines() {
            ledger.enter(&Tally::from_note(line)?);
        }
        Ok(ledger)
    }

    /// How many inputs were compared.
    pub fn inputs(&self) -> u64 {
        self.inputs.values().flat_map(BTreeMap::values).sum()
    }

    /// Says which answers and refusals were met.
    pub fn met(&self) -> String {
        format!("met: {}", self.met.statement())
    }

    /// Says what an input can reach and none did, if that is so.
    pub fn not_met(&self) -> Option<String> {
        let missing = self.met.missing();
        (!missing.is_empty()).then(|| format!("NOT MET: {}", missing.join(", ")))
    }
}

/// A line for each subject.
impl Display for Ledger {
    fn fmt(&self, f: &mut fmt::Formatter) -> fmt::Result {
        for (subject, kinds) in &self.inputs {
            let said: Vec<String> = kinds.iter().map(|(kind, &inputs)| format!("{kind} {}", grouped(inputs))).collect();
            writeln!(f, "{subject}: {}; {} in all", said.join(", "), grouped(kinds.values().sum()))?;
        }
        Ok(())
    }
}
