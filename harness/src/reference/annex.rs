//! The shift register of 004, annex A, word for word: one shift for each bit. Slow, to check the fast EDC by.

/// The positions C0 to C15, each of them ONE or ZERO.
type Positions = [bool; 16];

/// The EDC of bytes, its high byte first. "Prior to operation, all positions of the shift register are set to ONE."
pub fn edc(bytes: &[u8]) -> u16 {
    continued(0xFFFF, bytes)
}

/// The same from any other register on: what earlier bytes left in it. C15 is its highest bit.
pub fn continued(register: u16, bytes: &[u8]) -> u16 {
    let is_one = |at: usize| register >> at & 1 == 1;
    let inputs = bytes.iter().flat_map(|byte| (0..8).rev().map(move |bit| byte >> bit & 1 == 1));
    let positions = inputs.fold(std::array::from_fn(is_one), shifted);
    (0..16).fold(0, |register, at| register | u16::from(positions[at]) << at)
}

/// "Input data are added (exclusive OR) to the contents of position C15 of the register to form a feedback. This feedback
/// is in its turn added (exclusive OR) to the contents of position C4 and position C11. On shifting, the outputs of the
/// exclusive OR gates are entered respectively into positions C0, C5 and C12."
fn shifted(positions: Positions, input: bool) -> Positions {
    let feedback = input ^ positions[15];
    std::array::from_fn(|at| match at {
        0 => feedback,
        5 => positions[4] ^ feedback,
        12 => positions[11] ^ feedback,
        _ => positions[at - 1],
    })
}
