//! Constant arrays by which an EDC could be looked up, and the search for them in bytes.
use harness::reference::annex::continued;
use std::collections::HashSet;

/// How an array's numbers stand in bytes.
#[derive(Clone, Copy, Debug, PartialEq, Eq)]
pub enum Form {
    /// Whole, in as many bytes, the lower ones first.
    Whole(usize),
    /// The same, the upper ones first.
    UpperFirst(usize),
    /// Only the upper byte of each, with the lower ones in an array of their own.
    Upper,
    Lower,
}
use Form::{Lower, Upper, UpperFirst, Whole};

pub const FORMS: [Form; 8] = [Whole(2), Whole(4), Whole(8), UpperFirst(2), UpperFirst(4), UpperFirst(8), Upper, Lower];

impl Form {
    pub fn is_half(self) -> bool {
        matches!(self, Upper | Lower)
    }

    fn width(self) -> usize {
        match self {
            Whole(width) | UpperFirst(width) => width,
            Upper | Lower => 1,
        }
    }

    /// As many numbers have to stand in a row: of single bytes more, since a few of them can be anything.
    fn row(self) -> usize {
        match self {
            Whole(_) | UpperFirst(_) => 4,
            Upper | Lower => 8,
        }
    }
}

/// The numbers, one after the other.
pub fn written(form: Form, numbers: &[u16]) -> Vec<u8> {
    let bytes = |&number: &u16| {
        let all = u64::from(number).to_le_bytes();
        match form {
            Whole(width) => all[..width].to_vec(),
            UpperFirst(width) => all[..width].iter().rev().copied().collect(),
            Upper => vec![all[1]],
            Lower => vec![all[0]],
        }
    };
    numbers.iter().flat_map(bytes).collect()
}

/// The bytes behind the one that enters which an array may be for.
const BEHIND: usize = 64;

/// What each bit of a byte leaves in a register of zeros, with the bytes behind it ZERO: the last bit of the last byte
/// first. Of these all arrays of the EDC are made.
fn single_bits() -> Vec<u16> {
    let after = |byte: u8, behind: usize| continued(0, &[&[byte][..], &vec![0; behind]].concat());
    (0..BEHIND).flat_map(|behind| (0..8).map(move |bit| after(1 << bit, behind))).collect()
}

/// What each number of so many bits leaves: its lowest bit leaves the first of these.
fn looked_up(bits: &[u16]) -> Vec<u16> {
    let one = |value: usize, bit: usize| if value >> bit & 1 == 1 { bits[bit] } else { 0 };
    (0..1 << bits.len()).map(|value| (0..bits.len()).fold(0, |sum, bit| sum ^ one(value, bit))).collect()
}

fn reversed(numbers: &[u16]) -> Vec<u16> {
    numbers.iter().rev().copied().collect()
}

/// Arrays that an EDC could be worked out with: what 4 or 8 bits leave, right before the end and some bytes before it, and
/// what single bits leave, either first.
pub fn all() -> Vec<Vec<u16>> {
    let singles = single_bits();
    let of_bits = |from: usize| {
        let (nibble, byte) = (&singles[from..from + 4], &singles[from..from + 8]);
        [looked_up(nibble), looked_up(byte), looked_up(&reversed(byte)), byte.to_vec(), reversed(byte)]
    };
    [0, 4, 8, 56, 8 * BEHIND - 8].into_iter().flat_map(of_bits).collect()
}

/// Whether the numbers count in steps of a power of two, or are the powers of two: such numbers stand in a library for
/// other reasons.
fn is_plain(numbers: &[u8], width: usize) -> bool {
    let value = |number: &[u8]| number.iter().rev().fold(0_u64, |value, &byte| value << 8 | u64::from(byte));
    let values: Vec<u64> = numbers.chunks(width).map(value).collect();
    let step = values[1].wrapping_sub(values[0]);
    let counts = values.windows(2).all(|pair| pair[1].wrapping_sub(pair[0]) == step);
    counts && (step == 0 || step.is_power_of_two()) || values.iter().all(|value| value.is_power_of_two())
}

/// The beginnings by which an array is known: what no bit, one, the next, both and so on leave, or what bits in a row
/// leave, either first.
fn beginnings(form: Form) -> HashSet<Vec<u8>> {
    let (singles, row) = (single_bits(), form.row());
    let bits = row.trailing_zeros() as usize;
    let values = singles.windows(bits).flat_map(|bits| [looked_up(bits), looked_up(&reversed(bits))]);
    let runs = singles.windows(row).flat_map(|run| [run.to_vec(), reversed(run)]);
    let all = values.chain(runs).map(|numbers| written(form, &numbers));
    all.filter(|bytes| !is_plain(bytes, form.width())).collect()
}

/// The search for arrays of the EDC: for each form the beginnings that it looks for.
pub struct Search(Vec<(Form, HashSet<Vec<u8>>)>);

impl Search {
    pub fn new() -> Search {
        Search(FORMS.into_iter().map(|form| (form, beginnings(form))).collect())
    }

    /// Where an array begins in the bytes, at any of them, and in which form.
    pub fn arrays(&self, bytes: &[u8]) -> Vec<(usize, Form)> {
        let mut found = Vec::new();
        for (form, beginnings) in &self.0 {
            let rows = bytes.windows(form.row() * form.width()).enumerate();
            found.extend(rows.filter(|(_, row)| beginnings.contains(*row)).map(|(at, _)| (at, *form)));
        }
        found
    }
}
