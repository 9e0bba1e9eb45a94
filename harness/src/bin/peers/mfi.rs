//! The peer's own container: each track as the times between flux changes, packed. A flux change is a cell that is 1.
use crate::inflate::unpacked;
use harness::reference::coding::Mode;

/// The tracks' cells, 0 or 1 each, from the index hole on.
pub fn tracks(file: &[u8], mode: Mode) -> Result<Vec<Vec<u8>>, String> {
    if !file.starts_with(b"MAMEFLOPPYIMAGE\0") {
        return Err("no MFI file".into());
    }
    let word = |at: usize| {
        let bytes = file.get(at..at + 4).ok_or("MFI file cut short")?;
        Ok::<usize, String>(bytes.iter().rev().fold(0, |sum, &byte| sum << 8 | usize::from(byte)))
    };
    let track = |entry: usize| {
        let (from, length) = (word(32 + 16 * entry)?, word(36 + 16 * entry)?);
        cells(&unpacked(file.get(from..from + length).ok_or("MFI file cut short")?)?, mode)
    };
    (0..word(16)? * word(20)?).map(track).collect()
}

/// The cells between flux changes. The shortest time is one cell in FM and two in MFM; each other has to be a whole
/// number of cells, to a tenth. The first time is from the index hole to the middle of the first cell that is 1.
fn cells(times: &[u8], mode: Mode) -> Result<Vec<u8>, String> {
    let times: Vec<u32> =
        times.chunks_exact(4).map(|word| u32::from_le_bytes([word[0], word[1], word[2], word[3]])).collect();
    // the upper four bits tell flux changes, 0, from weak or damaged stretches
    if times.iter().any(|time| time >> 28 != 0) {
        return Err("a track with more than flux changes".into());
    }
    let (first, others) = times.split_first().ok_or("a track without flux changes")?;
    let shortest = f64::from(*others.iter().min().ok_or("a track with one flux change")?);
    let cell = if mode == Mode::Fm { shortest } else { shortest / 2.0 };
    let mut cells = vec![0; (f64::from(*first) / cell) as usize];
    cells.push(1);
    for &time in others {
        let count = (f64::from(time) / cell).round();
        if (f64::from(time) - count * cell).abs() > cell / 10.0 {
            return Err(format!("{time} is no whole number of cells of {cell}"));
        }
        cells.resize(cells.len() + count as usize - 1, 0);
        cells.push(1);
    }
    Ok(cells)
}
