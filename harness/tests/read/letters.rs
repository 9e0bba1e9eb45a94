//! The first byte behind a mark (02, request 04; 004, 7.4.2.4.3): each in each block, and what wear makes of a record with F.
use harness::compare::read::{agrees, compare, Call, Outcome};
use harness::reference::coding::Mode;
use harness::reference::records::{at, doubtful, nowhere};
use harness::rng::Rng;
use harness::station::{Reading, Record};
use harness::tally::met::Row;
use harness::tally::Tally;
use harness::tracks::letters::lettered;
use harness::tracks::sketch::{contents, Control, Data, Kind, Open, Sketch};
use harness::tracks::{self, Track};

/// The letters D and F.
const D: u8 = 0x44;
const F: u8 = 0x46;

/// Both tracks of cylinder 0, and one of each layout elsewhere.
fn each() -> [Track; 5] {
    let [first, second, third, fourth] = tracks::EACH;
    [first, Track { cylinder: 0, ..second }, Track { cylinder: 1, ..second }, third, Track { cylinder: 74, ..fourth }]
}

/// What a sector answers by its mark, its first byte and its EDC.
fn answer(cylinder: u32, kind: Kind, first: u8, is_right: bool) -> u32 {
    match (kind, cylinder, first) {
        (Open, ..) => 25,
        (Control, 1..=74, F) => 3,
        _ if !is_right => 26,
        (Control, 1..=74, _) | (Control, 0, D) => 2,
        (Control, ..) => 27,
        _ => 1,
    }
}

/// What its slot holds then.
fn slot(answer: u32, bytes: &[u8]) -> Vec<u8> {
    let zeros = |count: usize| vec![0; count];
    match answer {
        1 | 2 => bytes.to_vec(),
        3 => [vec![F], zeros(bytes.len() - 1)].concat(),
        _ => zeros(bytes.len()),
    }
}

/// What a track of two sectors gives, with this record of the first and this slot. The second is a data record.
fn outcome(track: Track, first: Record, slot: &[u8], second: usize) -> Outcome {
    let layout = track.layout();
    let (mut reading, mut area) = (Reading::default(), vec![0; layout.area_bytes()]);
    reading.records[..layout.sectors].fill(nowhere(21));
    reading.records[..2].copy_from_slice(&[first, at(1, second)]);
    area[..layout.size].copy_from_slice(slot);
    area[layout.size..2 * layout.size].copy_from_slice(&contents(track, 2));
    Outcome { number: 0, reading, area }
}

/// Reads a track of two sectors, the first with such a block.
fn read(tally: &mut Tally, rng: &mut Rng, track: Track, kind: Kind, first: u8, is_right: bool) {
    let bytes = lettered(track, 1, first);
    let sketch = Sketch::new(track).gap(4).identifier(1).gap(11).zeros().mark(kind).bytes(&bytes);
    let sketch = if is_right { sketch.edc() } else { sketch.wrong_edc() }.gap(8).sector(2);
    let answer = answer(track.cylinder, kind, first, is_right);
    let expected = outcome(track, at(answer, sketch.blocks[0]), &slot(answer, &bytes), sketch.blocks[1]);
    let call = Call::new(track, sketch.image());
    agrees(&call, &compare(tally, rng, &call), &expected);
}

#[test]
fn every_first_byte() {
    let mut rng = Rng::new(60);
    let mut tally = Tally::new("read", "every first byte behind each mark");
    for track in each() {
        for first in 0..=0xFF {
            for kind in [Data, Control, Open] {
                read(&mut tally, &mut rng, track, kind, first, true);
                read(&mut tally, &mut rng, track, kind, first, false);
            }
        }
    }
    tally.has_met(Row::Answer, &[1, 2, 3, 25, 26, 27]);
    tally.report();
}

#[test]
fn every_cylinder() {
    let mut rng = Rng::new(61);
    let mut tally = Tally::new("read", "letters on every track in each of its layouts");
    for (cylinder, side) in (0..=74).flat_map(|cylinder| [(cylinder, 0), (cylinder, 1)]) {
        for layout in if cylinder == 0 { side..=side } else { 1..=3 } {
            let track = Track { layout, cylinder, side };
            for first in [D, F, b'E'] {
                for kind in [Data, Control] {
                    read(&mut tally, &mut rng, track, kind, first, true);
                    read(&mut tally, &mut rng, track, kind, first, false);
                }
            }
        }
    }
    tally.has_met(Row::Answer, &[1, 2, 3, 26, 27]);
    tally.report();
}

/// A track that ends in a control record with F and a right EDC, the cell at which its mark begins, and its answer.
fn with_f(track: Track) -> (Sketch, usize, u32) {
    let sketch = Sketch::new(track).sector(2).identifier(1).gap(11).zeros().field(Control, &lettered(track, 1, F));
    let mark = sketch.blocks[1];
    (sketch, mark, if track.cylinder == 0 { 27 } else { 3 })
}

/// The track with the record, whose first sector reads so.
fn reads_as(tally: &mut Tally, rng: &mut Rng, sketch: &Sketch, expected: Record) {
    let track = sketch.track;
    let slot = slot(expected.answer, &lettered(track, 1, F));
    let expected = outcome(track, expected, &slot, sketch.blocks[0]);
    let call = Call::new(track, sketch.image());
    agrees(&call, &compare(tally, rng, &call), &expected);
}

/// H1: 23 before the mark is whole, and 24 before the EDC is.
#[test]
fn h1_a_record_with_f_cut_at_every_byte() {
    let mut rng = Rng::new(62);
    let mut tally = Tally::new("read", "a control record with F cut at every byte");
    for track in each() {
        let (sketch, mark, whole) = with_f(track);
        let (behind, end) = (mark + 8 * Control.image(track.mode()).len(), sketch.cells.len());
        assert_eq!((mark % 8, end % 8), (0, 0), "a record of whole bytes: {track:?}");
        for cells in (mark..=end).step_by(8) {
            let expected = match cells {
                _ if cells == end => at(whole, mark),
                _ if cells < behind => nowhere(23),
                _ => at(24, mark),
            };
            reads_as(&mut tally, &mut rng, &sketch.clone().without(end - cells), expected);
        }
    }
    tally.has_met(Row::Answer, &[3, 23, 24, 27]);
    tally.report();
}

/// Each cell of the record turned over. A clock cell is counted and does not matter. In the first byte a data cell makes another letter of
/// F, D among them, and then the EDC counts; behind it the EDC counts on cylinder 0 alone.
#[test]
fn each_cell_of_a_record_with_f() {
    let mut rng = Rng::new(63);
    let mut tally = Tally::new("read", "each cell of a control record with F turned over");
    for track in each() {
        let (sketch, mark, whole) = with_f(track);
        let block = mark + 8 * Control.image(track.mode()).len();
        let end = sketch.cells.len();
        for cell in block..end {
            let (is_data, is_first) = ((cell - block) % 2 == 1, cell < block + 16);
            let answer = match (is_data, is_first) {
                (true, true) => 26,
                (true, false) if whole == 27 => 26,
                _ => whole,
            };
            // the clocks beside a data cell go by it in MFM, where the bit on their other side is ZERO
            let is_zero = |cell: usize| u32::from(cell < end && !sketch.cells[cell]);
            let clocks = match (is_data, track.mode()) {
                (false, _) => 1,
                (true, Mode::Fm) => 0,
                (true, Mode::Mfm) => is_zero(cell - 2) + is_zero(cell + 2),
            };
            let worn = sketch.clone().turned(end - cell).gap(4);
            reads_as(&mut tally, &mut rng, &worn, doubtful(answer, mark, clocks));
        }
    }
    tally.has_met(Row::Answer, &[3, 26, 27]);
    tally.report();
}

/// Whatever the other bytes are, and whatever stands in the EDC.
#[test]
fn h3_any_bytes_behind_f() {
    const INPUTS: usize = 300;
    let mut rng = Rng::new(64);
    let mut tally = Tally::new("read", "any bytes and any EDC behind F");
    for track in each().into_iter().filter(|track| track.cylinder > 0) {
        let (sketch, mark, _) = with_f(track);
        let head = sketch.clone().without(16 * (track.layout().size + 1));
        for _ in 0..INPUTS {
            let behind = rng.bytes(track.layout().size - 1 + 2);
            let sketch = head.clone().bytes(&behind).gap(4);
            reads_as(&mut tally, &mut rng, &sketch, at(3, mark));
        }
    }
    tally.report();
}
