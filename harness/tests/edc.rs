//! The EDC: `station_edc` against the reference, against annex A's register shifted a bit at a time, against the papers'
//! values, and against Python's `crc_hqx`.
use harness::reference::{annex, edc};
use harness::rng::Rng;
use harness::station;
use harness::tally::Tally;
use std::io::{self, Write};
use std::process::{Command, Stdio};

/// Holds both sides against the papers' register on one input.
fn compare(tally: &mut Tally, bytes: &[u8]) {
    let expected = annex::edc(bytes);
    for (side, found) in [("the library", station::edc(bytes)), ("the reference", edc::edc(bytes))] {
        assert_eq!(found, expected, "{side}: EDC of {bytes:02X?}: {found:04X}, not {expected:04X}");
    }
    tally.input();
}

#[test]
fn every_short_length() {
    let mut tally = Tally::new("EDC", "all 00 and all FF and each single bit of up to 64 bytes");
    for length in 0..=64 {
        compare(&mut tally, &vec![0x00; length]);
        compare(&mut tally, &vec![0xFF; length]);
        for bit in 0..8 * length {
            let mut bytes = vec![0; length];
            bytes[bit / 8] = 0x80 >> (bit % 8);
            compare(&mut tally, &bytes);
        }
    }
    tally.report();
}

#[test]
fn random_parts() {
    const INPUTS: usize = 20_000;
    let mut rng = Rng::new(1);
    let mut tally = Tally::new("EDC", "random parts at any offset");
    for _ in 0..INPUTS {
        // up to the longest block: four bytes of the mark, 1,024 of data, two of the EDC
        let length = rng.below(1031);
        let bytes = rng.bytes(length);
        // a part may begin at any alignment
        let from = rng.below(length + 1);
        compare(&mut tally, &bytes[from..]);
    }
    tally.report();
}

/// What the reference does from any register on, with no word, with one and with several, and with bytes behind them.
#[test]
fn every_register() {
    let mut rng = Rng::new(4);
    let mut tally = Tally::of_reference("EDC", "every register, and up to 24 bytes");
    for register in 0..=u16::MAX {
        let length = rng.below(25);
        let bytes = rng.bytes(length);
        let (found, expected) = (edc::continued(register, &bytes), annex::continued(register, &bytes));
        assert_eq!(found, expected, "from {register:04X}, {bytes:02X?}: {found:04X}, not {expected:04X}");
        tally.input();
    }
    tally.report();
}

#[test]
fn its_own_edc_leaves_zero() {
    const INPUTS: usize = 5_000;
    let mut rng = Rng::new(2);
    let mut tally = Tally::new("EDC", "data followed by its own EDC");
    for _ in 0..INPUTS {
        let length = rng.below(300);
        let mut bytes = rng.bytes(length);
        let own = station::edc(&bytes);
        bytes.extend_from_slice(&own.to_be_bytes());
        assert_eq!(station::edc(&bytes), 0, "data and EDC {bytes:02X?}");
        tally.input();
    }
    tally.report();
}

#[test]
fn published_check_value() {
    let mut tally = Tally::new("EDC", "published check value");
    assert_eq!(station::edc(b"123456789"), 0x29B1);
    assert_eq!(edc::edc(b"123456789"), 0x29B1);
    assert_eq!(annex::edc(b"123456789"), 0x29B1);
    tally.input();
    tally.report();
}

/// Answers a line of hexadecimal digits with the EDC of its bytes. It reads everything before it writes anything, so
/// neither side waits for the other.
const PYTHON: &str = "
import binascii, sys
for line in sys.stdin.read().splitlines():
    print('%04X' % binascii.crc_hqx(bytes.fromhex(line), 0xFFFF))
";

#[test]
fn python_agrees() {
    let mut tally = Tally::new("EDC", "random bytes against Python's crc_hqx");
    if !python_runs() {
        tally.not_run("there is no python3 that runs");
        return;
    }
    const INPUTS: usize = 5_000;
    let mut rng = Rng::new(3);
    let inputs: Vec<Vec<u8>> = (0..INPUTS)
        .map(|_| {
            let length = rng.below(200);
            rng.bytes(length)
        })
        .collect();
    let answers = ask_python(&inputs).expect("python3 takes the inputs and answers");
    assert_eq!(answers.lines().count(), INPUTS, "lines that python3 wrote");
    for (bytes, answer) in inputs.iter().zip(answers.lines()) {
        assert_eq!(Ok(station::edc(bytes)), u16::from_str_radix(answer, 16), "EDC of {bytes:02X?}: not {answer}");
        tally.input();
    }
    tally.report();
}

fn python_runs() -> bool {
    let tried = Command::new("python3").args(["-c", "import binascii"]).stderr(Stdio::null()).status();
    tried.map_or(false, |status| status.success())
}

/// What `PYTHON` writes, given a line for each input.
fn ask_python(inputs: &[Vec<u8>]) -> io::Result<String> {
    let mut lines = String::new();
    for bytes in inputs {
        lines.extend(bytes.iter().map(|byte| format!("{byte:02X}")));
        lines.push('\n');
    }
    let mut python =
        Command::new("python3").args(["-c", PYTHON]).stdin(Stdio::piped()).stdout(Stdio::piped()).spawn()?;
    if let Some(mut input) = python.stdin.take() {
        input.write_all(lines.as_bytes())?;
    }
    let output = python.wait_with_output()?;
    String::from_utf8(output.stdout).map_err(|error| io::Error::new(io::ErrorKind::InvalidData, error))
}
