//! Files and contents of every hostile kind.
use harness::compare::file::{read, write};
use harness::files::hostile::{area, contents, FILES};
use harness::rng::Rng;
use harness::tally::met::Row;
use harness::tally::Tally;

#[test]
fn hostile_files() {
    const INPUTS: usize = 3_000;
    let mut rng = Rng::new(90);
    for (kind, file) in FILES {
        let mut tally = Tally::new("file", kind);
        for _ in 0..INPUTS {
            let file = file(&mut rng);
            read(&mut tally, &mut rng, &file);
        }
        tally.report();
    }
}

#[test]
fn hostile_contents() {
    const INPUTS: usize = 10_000;
    let mut rng = Rng::new(91);
    let mut tally = Tally::new("file", "contents with any sections wrong");
    for _ in 0..INPUTS {
        let contents = contents(&mut rng);
        let area = area(&mut rng, contents.file().len());
        write(&mut tally, &mut rng, &contents, area);
    }
    tally.has_met(Row::FileWrite, &[0, 32, 33, 34, 36]);
    tally.report();
}
