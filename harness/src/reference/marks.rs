//! The marks of both modes (01, "The image and the four layouts"; 004, 4.12).

/// The marks that a caller names.
pub const DATA: u8 = 0xFB;
pub const CONTROL: u8 = 0xF8;

/// The letter D: on cylinder 0 the only first byte after a control mark (004, 7.4.2.4.3).
pub const LETTER_D: u8 = 0x44;

/// The letter F: that of a control record whose sector contains a defective area (004, 7.4.2.4.3; 02, request 04).
pub const LETTER_F: u8 = 0x46;

/// A mark's image bytes, as 01's table has them, and the bytes that they stand for, which the EDC covers.
pub struct Mark<const BYTES: usize> {
    pub image: [u8; BYTES],
    pub bytes: &'static [u8],
}

/// The marks of one mode. Each takes `BYTES` image bytes.
pub struct Marks<const BYTES: usize> {
    pub index: Mark<BYTES>,
    pub identifier: Mark<BYTES>,
    pub data: Mark<BYTES>,
    pub control: Mark<BYTES>,
    /// The house mark for a rewrite under way.
    pub open: Mark<BYTES>,
}

pub const FM: Marks<2> = Marks {
    index: Mark { image: [0xF7, 0x7A], bytes: &[0xFC] },
    identifier: Mark { image: [0xF5, 0x7E], bytes: &[0xFE] },
    data: Mark { image: [0xF5, 0x6F], bytes: &[0xFB] },
    control: Mark { image: [0xF5, 0x6A], bytes: &[0xF8] },
    open: Mark { image: [0xF5, 0x6B], bytes: &[0xF9] },
};

pub const MFM: Marks<8> = Marks {
    index: Mark { image: [0x52, 0x24, 0x52, 0x24, 0x52, 0x24, 0x55, 0x52], bytes: &[0xC2, 0xC2, 0xC2, 0xFC] },
    identifier: Mark { image: [0x44, 0x89, 0x44, 0x89, 0x44, 0x89, 0x55, 0x54], bytes: &[0xA1, 0xA1, 0xA1, 0xFE] },
    data: Mark { image: [0x44, 0x89, 0x44, 0x89, 0x44, 0x89, 0x55, 0x45], bytes: &[0xA1, 0xA1, 0xA1, 0xFB] },
    control: Mark { image: [0x44, 0x89, 0x44, 0x89, 0x44, 0x89, 0x55, 0x4A], bytes: &[0xA1, 0xA1, 0xA1, 0xF8] },
    open: Mark { image: [0x44, 0x89, 0x44, 0x89, 0x44, 0x89, 0x55, 0x49], bytes: &[0xA1, 0xA1, 0xA1, 0xF9] },
};
