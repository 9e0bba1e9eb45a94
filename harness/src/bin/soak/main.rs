//! The long run: rounds of random jobs, each of which holds the library against the reference. What a round does follows
//! from the seed and its number alone, so that a round in which they differ can be repeated by itself.
//! `soak SEED ROUNDS` runs rounds 1 to ROUNDS; `soak SEED ROUND --only` runs that one. Exit status 1: the two sides
//! differ; 3: they do not, but the rounds did not meet every answer and refusal.
mod hostile;
mod jobs;

use harness::rng::Rng;
use harness::tally::grouped;
use harness::tally::ledger::Ledger;
use std::env;
use std::ops::RangeInclusive;
use std::panic::catch_unwind;
use std::process::exit;

fn main() {
    let words: Vec<String> = env::args().skip(1).collect();
    let (seed, rounds) = asked(&words).unwrap_or_else(|| {
        eprintln!("usage: soak SEED ROUNDS | soak SEED ROUND --only");
        exit(2)
    });
    let ledger = run(seed, rounds.clone());
    println!("compared, by kind of input:\n{ledger}{}", ledger.met());
    println!("no difference");
    // nobody expects every kind of one round
    if let Some(lacking) = ledger.not_met().filter(|_| rounds.start() < rounds.end()) {
        println!("{lacking}");
        exit(3)
    }
}

/// Seed and rounds, of which there is one at least.
fn asked(words: &[String]) -> Option<(u64, RangeInclusive<u64>)> {
    let number = |word: &String| word.parse::<u64>().ok();
    let (seed, first, last) = match words {
        [seed, rounds] => (number(seed)?, 1, number(rounds)?),
        [seed, round, only] if only == "--only" => (number(seed)?, number(round)?, number(round)?),
        _ => return None,
    };
    Some((seed, first..=last)).filter(|_| 1 <= first && first <= last)
}

/// Runs the rounds, and ends the program at the first difference.
fn run(seed: u64, rounds: RangeInclusive<u64>) -> Ledger {
    let last = *rounds.end();
    let often = (last / 20).clamp(1, 10_000);
    let mut ledger = Ledger::default();
    for round in rounds {
        let tallies = catch_unwind(|| jobs::any(&mut Rng::of_round(seed, round))).unwrap_or_else(|_| {
            println!(
                "DIFFERENCE in round {round} of seed {seed}: harness/run.sh soak {seed} {round} --only repeats it"
            );
            exit(1)
        });
        tallies.iter().for_each(|tally| ledger.enter(tally));
        if round % often == 0 {
            println!("round {} of {}: {} inputs compared", grouped(round), grouped(last), grouped(ledger.inputs()));
        }
    }
    ledger
}
