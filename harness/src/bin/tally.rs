//! Adds up what the tests of a run noted: says which inputs were compared and which answers and refusals were met, and
//! fails unless all were that an input can reach.
use harness::tally::ledger::Ledger;
use std::error::Error;
use std::process::exit;
use std::{env, fs};

fn main() -> Result<(), Box<dyn Error>> {
    let notes = env::args_os().nth(1).ok_or("the file with the notes is wanted")?;
    let ledger = Ledger::from_notes(&fs::read_to_string(notes)?)?;
    println!("compared, by kind of input:\n{ledger}{}", ledger.met());
    if let Some(lacking) = ledger.not_met() {
        println!("{lacking}");
        exit(1)
    }
    Ok(())
}
