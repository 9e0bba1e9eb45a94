//! The coding of a byte as sixteen cells (004, 4.1 and 4.7; 01, "The image and the four layouts"): clock cell, data
//! cell, eight times, the most significant bit first.

#[derive(Clone, Copy, Debug, PartialEq, Eq)]
pub enum Mode {
    Fm,
    Mfm,
}

/// The clock cells of sixteen cells.
const CLOCKS: u16 = 0xAAAA;

/// The data cells of sixteen cells.
const DATA: u16 = 0x5555;

/// The cells of `byte` after the bit `before`, the first cell in the highest bit: two image bytes.
#[inline(always)] // the mode is known where a byte is coded
pub fn code(mode: Mode, before: bool, byte: u8) -> u16 {
    let data = apart(byte);
    let clocks = match mode {
        Mode::Fm => CLOCKS,
        // 1 exactly if the data bits on both sides are ZERO
        Mode::Mfm => CLOCKS & !(u16::from(before) << 15 | data >> 1 | data << 1),
    };
    clocks | data
}

/// The image bytes of a byte after another.
#[inline(always)]
pub fn after(mode: Mode, last: u8, byte: u8) -> [u8; 2] {
    code(mode, last & 1 == 1, byte).to_be_bytes()
}

/// The data byte that the sixteen cells from `cell` hold, whatever their clock cells. Cells past the end of the image
/// are 0.
pub fn data_byte(image: &[u8], cell: usize) -> u8 {
    let three = three_bytes(image, cell / 8);
    together((three >> (8 - cell % 8)) as u16)
}

/// Three bytes of the image, those past its end 0.
fn three_bytes(image: &[u8], first: usize) -> u32 {
    match image.get(first..first + 3) {
        Some(&[a, b, c]) => u32::from_be_bytes([0, a, b, c]),
        _ => (first..first + 3).fold(0, |bytes, at| bytes << 8 | u32::from(image.get(at).copied().unwrap_or(0))),
    }
}

/// The bits of a byte, set apart as data cells.
fn apart(byte: u8) -> u16 {
    let mut cells = u16::from(byte);
    cells = (cells | cells << 4) & 0x0F0F;
    cells = (cells | cells << 2) & 0x3333;
    (cells | cells << 1) & DATA
}

/// The data cells, put together as a byte.
fn together(cells: u16) -> u8 {
    let mut bits = cells & DATA;
    bits = (bits | bits >> 1) & 0x3333;
    bits = (bits | bits >> 2) & 0x0F0F;
    (bits | bits >> 4) as u8
}
