//! What belongs to a block, and which answer comes before which.
use super::super::sketch::*;
use super::Mark::{First, Second};
use super::{in_both, in_mfm, of_control, Trap};
use crate::reference::coding::Mode;

pub fn all() -> Vec<Trap> {
    [identifiers_in_a_block(), neighbours_block(), twice(), past_the_end(), open_marks(), wrong_edc()]
        .into_iter()
        .flatten()
        .collect()
}

/// B8: what a block holds is not searched.
fn identifiers_in_a_block() -> Vec<Trap> {
    let inside = in_both(|start| {
        let size = start.track.layout().size;
        let other = Sketch::new(start.track).identifier(2).gap(2).mark(Data).image();
        let sketch = start.identifier(1).gap(11).zeros().mark(Data);
        let from = sketch.cells.len();
        let sketch = sketch.octets(&other).bytes(&vec![0x11; size - other.len() / 2]);
        let bytes = bytes_of(&sketch.cells[from..]);
        let sketch = sketch.edc().gap(4);
        let shows = "an identifier and a data mark in a block are its bytes";
        // three in each mark; and in MFM the first byte, which is not coded after the data mark's last bit
        let clocks = 3 + 3 + in_mfm(sketch.track);
        Trap::new("B8", shows, &sketch).answers(&[(1, 1, First)]).holds(1, &bytes).doubtful(1, clocks)
    });
    let in_its_end = in_both(|start| {
        // the last cells of an EDC can be a mark's first ones: FM 1111, MFM 01
        let overlap = if start.track.mode() == Mode::Fm { 4 } else { 2 };
        let mut bytes = contents(start.track, 1);
        let block = |bytes: &[u8]| start.clone().identifier(1).gap(11).zeros().field(Data, bytes);
        while block(&bytes).cells.iter().rev().take(overlap).step_by(2).any(|&cell| !cell) {
            bytes[0] += 1;
        }
        let address = start.track.address(2);
        let sketch = block(&bytes).overlapping(overlap, Identifier).bytes(&address).edc().gap(11).block(Data, 2).gap(4);
        let shows = "an identifier that begins in the last cells of a block is not met";
        Trap::new("B8", shows, &sketch).answers(&[(1, 1, First)]).holds(1, &bytes)
    });
    let behind = in_both(|start| {
        let address = start.track.address(2);
        let sketch =
            start.identifier(1).gap(11).block(Data, 1).field(Identifier, &address).gap(11).block(Data, 2).gap(4);
        Trap::new("B8", "an identifier right behind a block is met", &sketch).answers(&[(1, 1, First), (2, 1, Second)])
    });
    [inside, in_its_end, behind].into_iter().flatten().collect()
}

/// B9: a sector may claim its neighbour's block.
fn neighbours_block() -> Vec<Trap> {
    in_both(|start| {
        let address = start.track.address(2);
        let sketch = start.identifier(1).gap(2).zeros().mark(Identifier).turned(1).bytes(&address).bytes(&[0x12, 0x34]);
        let sketch = sketch.gap(2).block(Data, 2).gap(4);
        let shows = "sector 1 has lost its block and sector 2 its identifier mark: 1 takes the block of 2";
        let neighbour = contents(sketch.track, 2);
        Trap::new("B9", shows, &sketch).answers(&[(1, 1, First)]).holds(1, &neighbour)
    })
}

/// B10: 22 comes before all others.
fn twice() -> Vec<Trap> {
    let without = in_both(|start| {
        let sketch = start.identifier(1).sector(1).gap(4);
        Trap::new("B10", "one identifier without a block and a whole sector are 22", &sketch).nowhere(1, 22)
    });
    let cut = in_both(|start| {
        let sketch = start.sector(1).sector(2).identifier(1).gap(11).zeros().mark(Data).gap(40);
        let shows = "a whole sector and one that passes the end are 22";
        Trap::new("B10", shows, &sketch).nowhere(1, 22).answers(&[(2, 1, Second)])
    });
    let same = in_both(|start| {
        let sketch = start.sector(1).sector(1).sector(1).gap(4);
        Trap::new("B10", "the same sector three times, always right, is 22", &sketch).nowhere(1, 22)
    });
    [without, cut, same].into_iter().flatten().collect()
}

/// B12: after a block that passes the end the walk ends.
fn past_the_end() -> Vec<Trap> {
    let hidden = in_both(|start| {
        let address = start.track.address(3);
        let sketch = start.identifier(1).gap(11).zeros().mark(Data).gap(4).identifier(2).gap(4).zeros();
        let sketch = sketch.mark(Identifier).bytes(&address).wrong_edc().gap(4);
        let shows = "identifiers in a block that passes the end: not accepted, not counted";
        Trap::new("B12", shows, &sketch).answers(&[(1, 24, First)])
    });
    let one_cell = in_both(|start| {
        let sketch = start.blank(1).sector(2).identifier(1).gap(11).block(Control, 1).without(1);
        Trap::new("B12", "one cell of the block's EDC is missing", &sketch).answers(&[(2, 1, First), (1, 24, Second)])
    });
    let exact = in_both(|start| {
        let answer = of_control(start.track);
        let sketch = start.sector(2).identifier(1).gap(11).block(Control, 1);
        Trap::new("B12", "the block's EDC ends the image", &sketch).answers(&[(2, 1, First), (1, answer, Second)])
    });
    [hidden, one_cell, exact].into_iter().flatten().collect()
}

/// B11: 24 before 25, 25 before 26.
fn open_marks() -> Vec<Trap> {
    let right = in_both(|start| {
        let sketch = start.identifier(1).gap(11).block(Open, 1).gap(4).sector(2);
        Trap::new("B11", "an open mark before a right EDC is 25", &sketch).answers(&[(1, 25, First), (2, 1, Second)])
    });
    let wrong = in_both(|start| {
        let bytes = contents(start.track, 1);
        let sketch = start.identifier(1).gap(11).zeros().mark(Open).bytes(&bytes).wrong_edc().gap(4).sector(2);
        Trap::new("B11", "an open mark before a wrong EDC is 25", &sketch).answers(&[(1, 25, First), (2, 1, Second)])
    });
    let past = in_both(|start| {
        let sketch = start.identifier(1).gap(11).zeros().mark(Open).gap(4);
        Trap::new("B11", "an open mark whose block passes the end is 24", &sketch).answers(&[(1, 24, First)])
    });
    [right, wrong, past].into_iter().flatten().collect()
}

/// 26 is about the EDC that the mark and the bytes want.
fn wrong_edc() -> Vec<Trap> {
    let last_bit = in_both(|start| {
        let bytes = contents(start.track, 1);
        let sketch = start.identifier(1).gap(11).zeros().mark(Data).bytes(&bytes).wrong_edc().gap(4).sector(2);
        Trap::new("edc", "the last bit of an EDC is wrong", &sketch).answers(&[(1, 26, First), (2, 1, Second)])
    });
    let other_mark = in_both(|start| {
        // only the mark becomes another, as if a rewrite had forgotten that the EDC covers it
        let (bytes, control) = (contents(start.track, 1), cells_of(Control.image(start.track.mode())));
        let sketch = start.identifier(1).gap(11).zeros();
        let mark = sketch.cells.len();
        let mut sketch = sketch.field(Data, &bytes).gap(4);
        sketch.cells[mark..mark + control.len()].copy_from_slice(&control);
        let clocks = in_mfm(sketch.track);
        Trap::new("edc", "a control mark over the EDC of a data mark", &sketch)
            .answers(&[(1, 26, First)])
            .doubtful(1, clocks)
    });
    [last_bit, other_mark].into_iter().flatten().collect()
}
