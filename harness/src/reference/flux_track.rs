//! What the program writes that turns a capture into a track: layout, cylinder and side, one byte each, then the ticks of a
//! nominal bit cell and the stamps, four bytes each, the most significant first. What comes out is what `dump` takes.
use super::flux::{flux, Flux};
use crate::station::{FluxResult, LONGEST_IMAGE};

/// What is written for all of standard input, whose last stamp is whole.
pub fn flux_track(input: &[u8]) -> Vec<u8> {
    flux_track_by(flux, input)
}

/// The same by any way to get cells.
pub fn flux_track_by(flux: Flux, input: &[u8]) -> Vec<u8> {
    let track = &input[..input.len().min(3)];
    let numbers: Vec<u32> = input[track.len()..].chunks_exact(4).map(number).collect();
    // without ticks they are out of range
    let (ticks, stamps) = numbers.split_first().map_or((0, &[][..]), |(&ticks, stamps)| (ticks, stamps));
    let (mut image, mut result) = (vec![0; LONGEST_IMAGE], FluxResult::default());
    match flux(ticks, stamps, &mut image, &mut result) {
        0 => [track, &image[..octets(result.cells)]].concat(),
        43 => format!("refused 43 {}\n", result.interval).into_bytes(),
        other => format!("refused {other}\n").into_bytes(),
    }
}

fn number(bytes: &[u8]) -> u32 {
    u32::from_be_bytes(bytes.try_into().expect("four bytes"))
}

/// The image bytes that hold so many cells.
pub fn octets(cells: u64) -> usize {
    (cells as usize + 7) / 8
}
