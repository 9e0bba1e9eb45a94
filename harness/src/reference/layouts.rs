//! The layouts, and which track takes which (01, "The image and the four layouts", "Order on the track").
use super::coding::Mode;

/// A row of 01's table, and the gaps in which the layouts of one mode differ.
pub struct Layout {
    pub mode: Mode,
    pub sectors: usize,
    /// N, the data bytes of a sector.
    pub size: usize,
    /// The 4th address byte.
    pub fourth: u8,
    /// After each data block.
    pub block_gap: usize,
    /// After the last sector.
    pub track_gap: usize,
    pub track_bytes: usize,
}

pub static LAYOUTS: [Layout; 4] = [
    Layout { mode: Mode::Fm, sectors: 26, size: 128, fourth: 0, block_gap: 27, track_gap: 247, track_bytes: 5_208 },
    Layout { mode: Mode::Mfm, sectors: 26, size: 256, fourth: 1, block_gap: 54, track_gap: 598, track_bytes: 10_416 },
    Layout { mode: Mode::Mfm, sectors: 15, size: 512, fourth: 2, block_gap: 84, track_gap: 400, track_bytes: 10_416 },
    Layout { mode: Mode::Mfm, sectors: 8, size: 1_024, fourth: 3, block_gap: 116, track_gap: 654, track_bytes: 10_416 },
];

impl Layout {
    /// The data bytes of all sectors: the length of a lent area.
    pub fn area_bytes(&self) -> usize {
        self.sectors * self.size
    }

    /// The length of a formatted track.
    pub fn image_bytes(&self) -> usize {
        2 * self.track_bytes
    }
}

/// The longest image that is read or rewritten.
const LONGEST: usize = 24_576;

/// The layout for a track, or the first of the refusals 2, 3 and 4.
pub fn of_track(layout: u32, cylinder: u32, side: u32) -> Result<&'static Layout, u8> {
    if cylinder > 74 {
        return Err(2);
    }
    if side > 1 {
        return Err(3);
    }
    let is_allowed = match (cylinder, side) {
        (0, 0) => layout == 0,
        (0, _) => layout == 1,
        _ => (1..=3).contains(&layout),
    };
    if is_allowed {
        Ok(&LAYOUTS[layout as usize])
    } else {
        Err(4)
    }
}

/// Refusal 1.
pub fn readable(image: &[u8]) -> Result<(), u8> {
    if image.is_empty() || image.len() > LONGEST {
        return Err(1);
    }
    Ok(())
}
