//! The error detection code (004, 4.13 and annex A), eight bytes at a time and without a table. `annex` has the register
//! as the papers describe it.
//!
//! The bits that entered are a polynomial, and the register is the rest of it, times X^16, modulo
//! G = X^16 + X^12 + X^5 + 1. Over bits a square has the same terms with their exponents doubled, so the fourth power of
//! G is X^64 + X^48 + X^20 + 1. The bytes are taken modulo that, a word after the other, and only the last word modulo G.

const ALL_ONES: u16 = 0xFFFF;

/// The register after all bits of the bytes, the most significant bit of each first. The EDC is its two bytes, the high
/// one first.
pub fn edc(bytes: &[u8]) -> u16 {
    continued(ALL_ONES, bytes)
}

/// The same from any other register on: what earlier bytes left in it.
pub fn continued(register: u16, bytes: &[u8]) -> u16 {
    let mut words = bytes.chunks_exact(8).map(|eight| u64::from_be_bytes(eight.try_into().expect("eight bytes")));
    let register = match words.next() {
        // what the register holds is added to the sixteen bits that come next
        Some(first) => rest(words.fold(first ^ u64::from(register) << 48, |word, next| folded(word) ^ next)),
        None => register,
    };
    let odd = &bytes[bytes.len() / 8 * 8..];
    odd.iter().fold(register, |register, &byte| after(register, byte))
}

/// A word times X^64, modulo the fourth power of G: X^64 is X^48 + X^20 + 1 there.
fn folded(word: u64) -> u64 {
    // what X^48 and X^20 push above the word has to come down again, and so on: 16 places by 16, and once by 44
    let sixteens = word ^ word >> 16;
    let all = sixteens ^ sixteens >> 32 ^ word >> 44;
    all ^ all << 20 ^ all << 48
}

/// What a word, times X^16, leaves modulo G. The quotient is the word times X^16 / G, and 1 / G is G, G^2, G^4 and G^8
/// over G^16, of which no term but the first reaches down here.
fn rest(word: u64) -> u16 {
    let by_g = word ^ word >> 4 ^ word >> 11 ^ word >> 16;
    let by_g2 = by_g ^ by_g >> 8 ^ by_g >> 22 ^ by_g >> 32;
    let by_g4 = by_g2 ^ by_g2 >> 16 ^ by_g2 >> 44;
    let quotient = by_g4 ^ by_g4 >> 32;
    (quotient ^ quotient << 5 ^ quotient << 12) as u16
}

/// The register after one more byte. The feedback of eight shifts is the upper byte with the bits that enter; its own
/// four upper bits come round to C15, by X^12, within the eight shifts.
fn after(register: u16, byte: u8) -> u16 {
    let entering = register >> 8 ^ u16::from(byte);
    let feedback = entering ^ entering >> 4;
    register << 8 ^ feedback << 12 ^ feedback << 5 ^ feedback
}
