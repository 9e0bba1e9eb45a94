//! Which clock cells are counted as doubtful, and by which bit before (02, request 06). The numbers are worked out by hand.
use super::super::letters::lettered;
use super::super::sketch::*;
use super::Mark::{First, Second};
use super::{in_both, rewritten, Track, Trap};
use crate::reference::coding::Mode;

pub fn all() -> Vec<Trap> {
    let groups = [whole_blocks(), no_whole_block(), other_marks(), marks_in_a_block(), outside(), under_way()];
    groups.into_iter().flatten().collect()
}

/// First bytes: one that begins with ZERO, and one that begins with ONE. Neither is a letter that the papers speak of.
const ZERO_FIRST: u8 = 0x5A;
const ONE_FIRST: u8 = 0xA5;

/// Turns the first clock of a block over, the last one of its first byte, one in its middle, and the last one of its EDC:
/// four. The sketch ends with the block.
fn four_turned(sketch: Sketch) -> Sketch {
    let cells = 16 * (sketch.track.layout().size + 2);
    [cells, cells - 14, cells / 2, 2].into_iter().fold(sketch, Sketch::turned)
}

/// An identifier, and behind its gap the block of a sector whose first byte is this one.
fn block(start: Sketch, kind: Kind, sector: u8, first: u8) -> Sketch {
    let bytes = lettered(start.track, sector, first);
    start.identifier(sector).gap(11).zeros().field(kind, &bytes)
}

/// J1: the sum is the block's with every answer that says a whole one, right or not, in use or not.
fn whole_blocks() -> Vec<Trap> {
    let answers = |kind, first, [on_cylinder_0, elsewhere]: [u32; 2], shows: &str| {
        in_both(|start| {
            let answer = if start.track.cylinder == 0 { on_cylinder_0 } else { elsewhere };
            let sketch = four_turned(block(start, kind, 1, first)).gap(8).sector(2);
            let bytes = lettered(sketch.track, 1, first);
            let trap = Trap::new("J1", shows, &sketch).answers(&[(1, answer, First), (2, 1, Second)]).doubtful(1, 4);
            if [1, 2].contains(&answer) {
                trap.holds(1, &bytes)
            } else {
                trap
            }
        })
    };
    let wrong_edc = in_both(|start| {
        let bytes = contents(start.track, 1);
        let sketch = start.identifier(1).gap(11).zeros().mark(Data).bytes(&bytes).wrong_edc();
        let sketch = four_turned(sketch).gap(8).sector(2);
        Trap::new("J1", "four doubtful clocks before a wrong EDC", &sketch)
            .answers(&[(1, 26, First), (2, 1, Second)])
            .doubtful(1, 4)
    });
    let others = [
        answers(Data, ZERO_FIRST, [1, 1], "four doubtful clocks in a data record"),
        answers(Control, b'D', [2, 2], "four doubtful clocks in a control record"),
        answers(Control, b'F', [27, 3], "four doubtful clocks in a control record with F"),
        answers(Open, ZERO_FIRST, [25, 25], "four doubtful clocks behind an open mark"),
        wrong_edc,
    ];
    others.into_iter().flatten().collect()
}

/// J1: and 0 where no whole block was found, and for 22, though there are doubtful clocks.
fn no_whole_block() -> Vec<Trap> {
    let past_end = in_both(|start| {
        let sketch = four_turned(block(start.sector(2), Data, 1, ZERO_FIRST)).without(24);
        Trap::new("J1", "doubtful clocks in a block that passes the end: no sum with 24", &sketch)
            .answers(&[(2, 1, First), (1, 24, Second)])
    });
    let doubled = in_both(|start| {
        let twice = |sketch| four_turned(block(sketch, Data, 1, ZERO_FIRST)).gap(8);
        Trap::new("J1", "doubtful clocks in both blocks of a sector: no sum with 22", &twice(twice(start)))
            .nowhere(1, 22)
    });
    let no_block = in_both(|start| {
        let sketch = four_turned(block(start.identifier(2).gap(4), Data, 1, ZERO_FIRST)).gap(8);
        Trap::new("J1", "doubtful clocks of the next sector: none with 23", &sketch)
            .nowhere(2, 23)
            .answers(&[(1, 1, First)])
            .doubtful(1, 4)
    });
    let no_identifier = in_both(|start| {
        let (address, bytes) = (start.track.address(1), contents(start.track, 1));
        let sketch = start.zeros().mark(Identifier).bytes(&address).wrong_edc().gap(11).zeros().field(Data, &bytes);
        Trap::new("J1", "doubtful clocks behind a bad identifier: no sum with 21", &four_turned(sketch).gap(8))
            .counts(1, 0)
    });
    [past_end, doubled, no_block, no_identifier].into_iter().flatten().collect()
}

/// J2 and J5: a block that was coded behind one mark and stands behind another. In MFM its first clock is 1 exactly if its
/// first bit and the mark's last are ZERO, and F8 alone ends so; in FM it is 1 behind every mark.
fn other_marks() -> Vec<Trap> {
    let exchanged = |coded: Kind, found: Kind, first: u8| {
        in_both(|start| {
            let mode = start.track.mode();
            let mut sketch = block(start, coded, 1, first).gap(8).sector(2);
            let (mark, cells) = (sketch.blocks[0], cells_of(found.image(mode)));
            sketch.cells[mark..mark + cells.len()].copy_from_slice(&cells);
            let is_seen = mode == Mode::Mfm && first == ZERO_FIRST && (coded == Control) != (found == Control);
            let answer = if found == Open { 25 } else { 26 };
            let shows = format!("coded behind a mark of {coded:?}, found behind {found:?}, first byte {first:02X}");
            Trap::new("J2", &shows, &sketch)
                .answers(&[(1, answer, First), (2, 1, Second)])
                .doubtful(1, u32::from(is_seen))
        })
    };
    let marks = [Data, Control, Open];
    let pairs = marks.into_iter().flat_map(|coded| marks.map(|found| (coded, found)));
    let pairs = pairs.filter(|(coded, found)| coded != found);
    pairs
        .flat_map(|(coded, found)| [ZERO_FIRST, ONE_FIRST].map(|first| exchanged(coded, found, first)))
        .flatten()
        .collect()
}

/// J3: in a block the clocks that a mark lacks are doubtful as all others are: in FM three, in MFM one in each A1*.
fn marks_in_a_block() -> Vec<Trap> {
    in_both(|start| {
        let (size, mode) = (start.track.layout().size, start.track.mode());
        let sketch = start.identifier(1).gap(11).zeros().mark(Data).bytes(&[ZERO_FIRST]);
        let mark = Identifier.image(mode);
        let sketch = sketch.octets(mark).bytes(&vec![0x11; size - 1 - mark.len() / 2]);
        let bytes = bytes_of(&sketch.cells[sketch.cells.len() - 16 * size..]);
        let sketch = sketch.edc().gap(8);
        Trap::new("J3", "a mark among the bytes of a block has three doubtful clocks", &sketch)
            .answers(&[(1, 1, First)])
            .holds(1, &bytes)
            .doubtful(1, 3)
    })
}

/// J3: the clocks of addresses and gaps do not count, also not the one right behind the block.
fn outside() -> Vec<Trap> {
    in_both(|start| {
        let sketch = start.identifier(1);
        let sketch = (0..6 * 8).fold(sketch, |sketch, clock| sketch.turned(2 * clock + 2));
        // the first clock of the gap, its last, and those of the (00)-bytes: the data mark is the next
        let sketch = sketch.gap(11).turned(16 * 11).turned(2).zeros().turned(2).block(Data, 1);
        let sketch = sketch.gap(1).turned(16).gap(8).sector(2);
        Trap::new("J3", "doubtful clocks in the address, in the gaps and right behind the block", &sketch)
            .answers(&[(1, 1, First), (2, 1, Second)])
    })
}

/// J4: up to the last store of a rewrite the open mark stands before the new bytes, and the first clock is coded after the
/// new mark.
fn under_way() -> Vec<Trap> {
    let cut = |mark, missing, first, [in_fm, in_mfm]: [u32; 2], shows: &str| {
        in_both(|start| {
            let bytes = lettered(start.track, 1, first);
            let clocks = if start.track.mode() == Mode::Fm { in_fm } else { in_mfm };
            let sketch = four_turned(block(start, Data, 1, ZERO_FIRST)).gap(8).sector(2);
            let trap = Trap::new("J4", shows, &sketch);
            let trap = rewritten(trap, mark, &bytes, missing);
            trap.answers(&[(1, 25, First), (2, 1, Second)]).doubtful(1, clocks)
        })
    };
    let groups = [
        cut(0xF8, 1, ZERO_FIRST, [0, 1], "a rewrite behind F8 without its last store: the first clock is doubtful"),
        cut(0xF8, 1, ONE_FIRST, [0, 0], "the same where the first bit is ONE: none is"),
        cut(0xFB, 1, ZERO_FIRST, [0, 0], "a rewrite behind FB without its last store: none is"),
        all_but_the_first(),
    ];
    groups.into_iter().flatten().collect()
}

/// After the first store of a rewrite the old clocks are there, behind the open mark.
fn all_but_the_first() -> Vec<Trap> {
    in_both(|start| {
        let bytes = lettered(start.track, 1, ONE_FIRST);
        let sketch = four_turned(block(start, Data, 1, ZERO_FIRST)).gap(8).sector(2);
        let trap =
            Trap::new("J4", "a rewrite with its first store alone: the old clocks, behind the open mark", &sketch);
        let stores = of_rewrite(trap.track);
        rewritten(trap, 0xFB, &bytes, stores - 1).answers(&[(1, 25, First), (2, 1, Second)]).doubtful(1, 4)
    })
}

/// The stores of a rewrite where a byte follows the block.
fn of_rewrite(track: Track) -> usize {
    2 * track.layout().size + if track.mode() == Mode::Fm { 6 } else { 7 }
}
