//! Bytes read from cells, and in the same pass how many of their clock cells are doubtful (01, "The image and the four
//! layouts"; 02, request 06): no loop over bits, and one over the bytes that LLVM makes vector code of.
use super::coding::Mode;

/// Reads the bytes from a cell on, which is not the image's first, and answers how many of their clock cells differ from
/// the mode's rule. The bit before the first byte is the cell before it, since marks and bytes end with a data cell.
/// There are 8,191 bytes at most.
#[inline(always)] // the mode is known to whoever reads a track
pub fn decode(mode: Mode, image: &[u8], cell: usize, bytes: &mut [u8]) -> u32 {
    match mode {
        Mode::Fm => by_rule(image, cell, bytes, |_, _| 0),
        // within an octet a clock cell has a data cell in the bit above and in the bit below
        Mode::Mfm => by_rule(image, cell, bytes, |before, cells| before & 0x8080 | cells >> 1 & 0x2A2A | cells << 1),
    }
}

/// The same by a rule, which is handed two octets with the cell before each in its highest bit, and the octets
/// themselves, and says at the clock cells whether it wants a 0 there.
#[inline(always)]
fn by_rule(image: &[u8], cell: usize, bytes: &mut [u8], wants_zero: impl Fn(u16, u16) -> u16) -> u32 {
    let (from, shift) = ((cell - 1) / 8, (cell - 1) % 8);
    let length = 2 * bytes.len();
    let octets = image[from..from + length].chunks_exact(2);
    let later = image[from + 1..from + 1 + length].chunks_exact(2);
    // of each octet as it stands on the track the upper cells come from one byte and the lower ones from the next
    let upper = (0xFE_u16 << shift & 0xFF) * 0x0101;
    let mut obeying = 0;
    for ((byte, octets), later) in bytes.iter_mut().zip(octets).zip(later) {
        let pair = |octets: &[u8]| u16::from_le_bytes([octets[0], octets[1]]);
        let before = pair(octets) << shift;
        let cells = before << 1 & upper | pair(later) >> (7 - shift) & !upper;
        *byte = together(cells);
        obeying += clocks(cells ^ wants_zero(before, cells));
    }
    8 * bytes.len() as u32 - u32::from(obeying)
}

/// The data cells of two octets, the first of them in the lower half, as a byte. In this order of the halves LLVM makes
/// vector code of them, without turning them round.
fn together(octets: u16) -> u8 {
    let mut bits = octets & 0x5555;
    bits = (bits | bits >> 1) & 0x3333;
    bits = (bits | bits >> 2) & 0x0F0F;
    (bits << 4 | bits >> 8) as u8
}

/// How many clock cells of two octets are 1. A processor without an instruction for that multiplies: the four sums of two
/// come together in the highest four bits, and what runs over is not wanted.
fn clocks(octets: u16) -> u16 {
    let ones = octets >> 1 & 0x5555;
    let twos = (ones + (ones >> 2)) & 0x3333;
    twos.wrapping_mul(0x1111) >> 12
}
