//! Tracks of random fields: all that the walk can meet, in any order and at any cell.
use super::letters::letter;
use super::sketch::*;
use super::Track;
use crate::reference::coding::Mode;
use crate::rng::Rng;

/// The first byte of a block, by the one that `contents` has there.
type First = fn(&mut Rng, u8) -> u8;

/// A track of a few random fields, perhaps cut in one of them. Many blocks begin with a letter that the papers name.
pub fn fields(rng: &mut Rng, track: Track) -> Vec<u8> {
    drawn(rng, track, letter)
}

/// The same without such letters: the vectors that have been kept from the beginning are made so, and stay as they are.
pub fn plain_fields(rng: &mut Rng, track: Track) -> Vec<u8> {
    drawn(rng, track, |_, own| own)
}

fn drawn(rng: &mut Rng, track: Track, first: First) -> Vec<u8> {
    let mut sketch = Sketch::new(track).blank(rng.below(16));
    for _ in 0..2 + rng.below(10) {
        sketch = field(rng, sketch, first);
    }
    // the image has a byte at least
    let most = sketch.cells.len().saturating_sub(8);
    let cut = rng.below(400) * rng.below(2);
    sketch.without(cut.min(most)).blank(8).image()
}

fn field(rng: &mut Rng, sketch: Sketch, first: First) -> Sketch {
    // few numbers, so that some come twice
    let sector = 1 + rng.below(5) as u8;
    let window = if sketch.track.mode() == Mode::Fm { 544 } else { 1_088 };
    let mut bytes = contents(sketch.track, sector);
    match rng.below(17) {
        0 | 1 => sketch.identifier(sector),
        2 | 3 => {
            let (sketch, kind) = (sketch.identifier(sector).gap(rng.below(60)), [Data, Control, Open][rng.below(3)]);
            bytes[0] = first(rng, bytes[0]);
            sketch.zeros().field(kind, &bytes)
        }
        4 => {
            // about the window's end
            let sketch = sketch.identifier(sector).blank(window - 4 + rng.below(9)).mark(kind(rng));
            bytes[0] = first(rng, bytes[0]);
            sketch.bytes(&bytes).edc()
        }
        5 => foreign(rng, sketch, sector),
        6 => {
            let address = sketch.track.address(sector);
            sketch.zeros().mark(Identifier).bytes(&address).wrong_edc()
        }
        7 | 8 => {
            let sketch = sketch.zeros().mark(kind(rng));
            bytes[0] = first(rng, bytes[0]);
            sketch.bytes(&bytes).edc()
        }
        9 | 10 => {
            let sketch = sketch.identifier(sector).zeros().mark(kind(rng));
            bytes[0] = first(rng, bytes[0]);
            sketch.bytes(&bytes).wrong_edc()
        }
        11 => sketch.mark(kind(rng)),
        12 => sketch.gap(rng.below(80)),
        13 => sketch.octets(&rng.bytes(20)),
        14 => sketch.blank(rng.below(40)),
        15 => {
            let last = rng.below(sketch.cells.len().min(70) + 1);
            sketch.without(last)
        }
        _ => {
            // what comes next begins inside this mark
            let sketch = sketch.mark(kind(rng));
            sketch.without(rng.below(16))
        }
    }
}

fn kind(rng: &mut Rng) -> Kind {
    [Index, Identifier, Data, Control, Open][rng.below(5)]
}

/// An identifier in which one address byte is another: most often it does not belong to this track.
fn foreign(rng: &mut Rng, sketch: Sketch, sector: u8) -> Sketch {
    let mut address = sketch.track.address(sector);
    address[rng.below(4)] = match rng.below(4) {
        0 => 0,
        1 => sketch.track.layout().sectors as u8 + 1,
        2 => 128 | sector,
        _ => rng.byte(),
    };
    sketch.zeros().field(Identifier, &address)
}
