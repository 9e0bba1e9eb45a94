//! Which identifiers are counted, and which are accepted.
use super::super::sketch::*;
use super::Mark::First;
use super::{in_both, Trap};
use crate::reference::coding::Mode;

pub fn all() -> Vec<Trap> {
    [cut_short(), identifier_first(), marks_in_an_address(), bad_before_foreign(), whole_bytes(), clocks()]
        .into_iter()
        .flatten()
        .collect()
}

/// B4: an identifier that fewer than 96 cells follow ends the walk.
fn cut_short() -> Vec<Trap> {
    let right = in_both(|start| {
        let sketch = start.blank(1).sector(1).identifier(2).without(1);
        Trap::new("B4", "95 cells after an identifier mark: the walk ends, nothing counts", &sketch)
            .answers(&[(1, 1, First)])
    });
    let bad = in_both(|start| {
        let address = start.track.address(2);
        let sketch = start.blank(1).sector(1).zeros().mark(Identifier).bytes(&address).wrong_edc();
        let shows = "95 cells after the mark of a bad identifier: it is not counted";
        Trap::new("B4", shows, &sketch.without(1)).answers(&[(1, 1, First)])
    });
    let enough = in_both(|start| {
        let sketch = start.sector(1).identifier(2);
        Trap::new("B4", "96 cells: it is accepted", &sketch).nowhere(2, 23).answers(&[(1, 1, First)])
    });
    let enough_bad = in_both(|start| {
        let address = start.track.address(2);
        let sketch = start.sector(1).zeros().mark(Identifier).bytes(&address).wrong_edc();
        Trap::new("B4", "96 cells after the mark of a bad one: it is counted", &sketch)
            .answers(&[(1, 1, First)])
            .counts(1, 0)
    });
    [right, bad, enough, enough_bad].into_iter().flatten().collect()
}

/// B5: any identifier mark that comes first leaves the sector without a block.
fn identifier_first() -> Vec<Trap> {
    let bad = in_both(|start| {
        let address = start.track.address(2);
        let sketch = start.identifier(1).gap(4).zeros().mark(Identifier).bytes(&address).wrong_edc();
        let sketch = sketch.gap(2).block(Data, 1).gap(4);
        Trap::new("B5", "a bad identifier before the block: counted once", &sketch).nowhere(1, 23).counts(1, 0)
    });
    let foreign = in_both(|start| {
        let sketch = start.identifier(1).gap(4).zeros().field(Identifier, &[74, 1, 2, 3]);
        let sketch = sketch.gap(2).block(Data, 1).gap(4);
        let shows = "a foreign identifier before the block: counted once";
        Trap::new("B5", shows, &sketch).nowhere(1, 23).counts(0, 1)
    });
    let cut = in_both(|start| {
        let sketch = start.identifier(1).gap(4).zeros().mark(Identifier).gap(5);
        Trap::new("B5", "an identifier that is cut short: not counted", &sketch).nowhere(1, 23)
    });
    [bad, foreign, cut].into_iter().flatten().collect()
}

/// B7: the six bytes of a foreign identifier are not searched, those of a bad one are.
fn marks_in_an_address() -> Vec<Trap> {
    // FM: the mark stands in the place of the sector number; MFM: it fills the address
    let address = |start: Sketch| {
        let mark = Identifier.image(start.track.mode());
        let sketch = start.zeros().mark(Identifier);
        match sketch.track.mode() {
            Mode::Fm => sketch.bytes(&[0, 0]).octets(mark).bytes(&[0]),
            Mode::Mfm => sketch.octets(mark),
        }
    };
    let foreign = in_both(|start| {
        let sketch = address(start).edc().gap(8).sector(2);
        let shows = "an identifier mark in the address of a foreign identifier is not met";
        Trap::new("B7", shows, &sketch).answers(&[(2, 1, First)]).counts(0, 1)
    });
    let bad = in_both(|start| {
        let sketch = address(start).wrong_edc().gap(8).sector(2);
        let shows = "an identifier mark in the address of a bad identifier is met, here as a bad one too";
        Trap::new("B7", shows, &sketch).answers(&[(2, 1, First)]).counts(2, 0)
    });
    [foreign, bad].into_iter().flatten().collect()
}

/// B13: the EDC is looked at first.
fn bad_before_foreign() -> Vec<Trap> {
    in_both(|start| {
        let sketch = start.zeros().mark(Identifier).bytes(&[74, 1, 2, 3]).wrong_edc().gap(8).sector(2);
        Trap::new("B13", "a wrong EDC behind a foreign address: bad only", &sketch)
            .answers(&[(2, 1, First)])
            .counts(1, 0)
    })
}

/// B14: address bytes are compared as whole bytes.
fn whole_bytes() -> Vec<Trap> {
    let high = in_both(|start| {
        let [cylinder, side, sector, fourth] = start.track.address(1);
        let others = [
            [cylinder | 128, side, sector, fourth],
            [cylinder, side | 2, sector, fourth],
            [cylinder, side, sector | 128, fourth],
            [cylinder, side, sector, fourth | 128],
        ];
        let sketch = others.iter().fold(start, |sketch, address| {
            let bytes = contents(sketch.track, 1);
            sketch.zeros().field(Identifier, address).gap(11).zeros().field(Data, &bytes).gap(4)
        });
        Trap::new("B14", "a high bit in any address byte makes it foreign", &sketch).counts(0, 4)
    });
    let numbers = in_both(|start| {
        let [cylinder, side, _, fourth] = start.track.address(1);
        let others = [0, 27, 255].map(|sector| [cylinder, side, sector, fourth]);
        let sketch = others.iter().fold(start, |sketch, address| sketch.zeros().field(Identifier, address).gap(4));
        let sketch = sketch.sector(26).gap(4);
        Trap::new("B14", "sector numbers 0, 27 and 255 are foreign, 26 is not", &sketch)
            .answers(&[(26, 1, First)])
            .counts(0, 3)
    });
    [high, numbers].into_iter().flatten().collect()
}

/// In fields only data cells count; and the most that the sum of a block's doubtful clocks can be.
fn clocks() -> Vec<Trap> {
    in_both(|start| {
        let mut sketch = start;
        for field in [Identifier, Data] {
            let bytes = if field == Data { contents(sketch.track, 1) } else { sketch.track.address(1).to_vec() };
            sketch = sketch.gap(11).zeros().mark(field);
            let from = sketch.cells.len();
            sketch = sketch.bytes(&bytes).edc();
            sketch.cells[from..].iter_mut().step_by(2).for_each(|clock| *clock ^= true);
        }
        let (size, sketch) = (sketch.track.layout().size as u32, sketch.gap(4));
        Trap::new("clocks", "every clock cell in address and block is wrong, and none matters", &sketch)
            .answers(&[(1, 1, First)])
            .doubtful(1, 8 * (size + 2))
    })
}
