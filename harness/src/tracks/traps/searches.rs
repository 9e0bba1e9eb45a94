//! What is a mark, where it may begin, and from where on it is looked for.
use super::super::sketch::*;
use super::Mark::{First, Second};
use super::{in_both, of_control, Trap, FM, MFM};
use crate::reference::coding::Mode;

pub fn all() -> Vec<Trap> {
    [counted_a1(), index_mark(), inside_a_mark(), distances(), cut_marks(), out_of_an_address()]
        .into_iter()
        .flatten()
        .collect()
}

/// A3: three A1* and the mark byte are one mark.
fn counted_a1() -> Vec<Trap> {
    let a1 = [0x44, 0x89];
    let start = || Sketch::new(MFM).gap(4).zeros();
    let address = MFM.address(1);
    let fewer = |count: usize| {
        let sketch = start().octets(&a1.repeat(count)).octets(&[0x55, 0x54]).bytes(&address);
        sketch.bytes(&[0x12, 0x34]).gap(11).block(Data, 1).sector(2)
    };
    let more = |count: usize| {
        let sketch = start().octets(&a1.repeat(count - 3)).field(Identifier, &address).gap(11).zeros();
        sketch.octets(&a1.repeat(count - 3)).field(Data, &contents(MFM, 1)).gap(4)
    };
    vec![
        Trap::new("A3", "one A1* before FE is no mark", &fewer(1)).answers(&[(2, 1, Second)]),
        Trap::new("A3", "two A1* before FE are no mark", &fewer(2)).answers(&[(2, 1, Second)]),
        Trap::new("A3", "four A1* hold one mark, of the last three", &more(4)).answers(&[(1, 1, First)]),
        Trap::new("A3", "five A1* hold one mark, of the last three", &more(5)).answers(&[(1, 1, First)]),
    ]
}

/// A4: index marks are not searched for.
fn index_mark() -> Vec<Trap> {
    in_both(|start| {
        let sketch = start.identifier(1).gap(2).mark(Index).gap(2).block(Data, 1).gap(4);
        Trap::new("A4", "an index mark between address and data does not stop the search", &sketch)
            .answers(&[(1, 1, First)])
    })
}

/// B1: after a bad identifier the walk goes on behind its mark.
fn inside_a_mark() -> Vec<Trap> {
    let inside = |start: Sketch, cells, words: &str| {
        let address = start.track.address(1);
        let sketch = start.gap(4).zeros().mark(Identifier).overlapping(cells, Identifier).bytes(&address).edc();
        let sketch = sketch.gap(11).block(Data, 1).gap(4);
        let shows = format!("an identifier mark that begins {words} before the end of a bad one is not met");
        Trap::new("B1", &shows, &sketch).counts(1, 0)
    };
    let inside = vec![
        inside(Sketch::new(MFM), 1, "1 cell"),
        inside(Sketch::new(MFM), 4, "4 cells"),
        inside(Sketch::new(FM), 5, "5 cells"),
    ];
    let next = in_both(|start| {
        let address = start.track.address(1);
        let sketch = start.zeros().mark(Identifier).field(Identifier, &address).gap(11).block(Data, 1).gap(4);
        let shows = "an identifier mark right behind the mark of a bad one is met";
        Trap::new("B1", shows, &sketch).answers(&[(1, 1, First)]).counts(1, 0)
    });
    [inside, next].into_iter().flatten().collect()
}

/// As many gap bytes before the (00)-bytes of a mark let it begin at the window's last cell.
fn to_the_window(sketch: &Sketch) -> (usize, usize) {
    match sketch.track.mode() {
        Mode::Fm => (544, 34 - 6),
        Mode::Mfm => (1_088, 68 - 12),
    }
}

/// B2: a mark may begin 0 to 1,088 cells (FM: 544) after the EDC.
fn distances() -> Vec<Trap> {
    let at_once = in_both(|start| {
        let bytes = contents(start.track, 1);
        let sketch = start.identifier(1).field(Data, &bytes).gap(4);
        Trap::new("B2", "a data mark at distance 0 is found", &sketch).answers(&[(1, 1, First)])
    });
    let last = in_both(|start| {
        let ((window, gap), answer) = (to_the_window(&start), of_control(start.track));
        let sketch = start.identifier(1).gap(gap).block(Control, 1).gap(4);
        let shows = format!("a control mark at distance {window} is found");
        Trap::new("B2", &shows, &sketch).answers(&[(1, answer, First)])
    });
    let past = in_both(|start| {
        let (window, gap) = to_the_window(&start);
        let sketch = start.identifier(1).blank(1).gap(gap).block(Data, 1).gap(4);
        Trap::new("B2", &format!("a data mark at distance {} is not", window + 1), &sketch).nowhere(1, 23)
    });
    [at_once, last, past].into_iter().flatten().collect()
}

/// B3: a mark lies wholly in the image.
fn cut_marks() -> Vec<Trap> {
    let short = in_both(|start| {
        let sketch = start.blank(1).identifier(1).gap(11).zeros().mark(Control).without(1);
        let shows = "a control mark whose last cell, a 0, is missing is none";
        Trap::new("B3", shows, &sketch).nowhere(1, 23)
    });
    let whole = in_both(|start| {
        let sketch = start.identifier(1).gap(11).zeros().mark(Data);
        Trap::new("B3", "a data mark that ends the image is one", &sketch).answers(&[(1, 24, First)])
    });
    let identifier = in_both(|start| {
        let sketch = start.blank(1).sector(1).zeros().mark(Identifier).without(1);
        Trap::new("B3", "a cut identifier mark ends the walk and is not counted", &sketch).answers(&[(1, 1, First)])
    });
    [short, whole, identifier].into_iter().flatten().collect()
}

/// B6: a mark that begins in the address and reaches out of it is not seen.
fn out_of_an_address() -> Vec<Trap> {
    // the last cells of an EDC can be a mark's first ones: FM 1111, MFM 01
    let overlap = |sketch: &Sketch| if sketch.track.mode() == Mode::Fm { 4 } else { 2 };
    let identified = |start: Sketch| {
        let with = |sector| start.clone().identifier(sector);
        let ends = |sketch: &Sketch| sketch.cells.iter().rev().take(overlap(sketch)).step_by(2).all(|&cell| cell);
        let sector = (1..=20).find(|&sector| ends(&with(sector))).expect("an EDC that ends so");
        (sector, with(sector))
    };
    let data = in_both(|start| {
        let (sector, sketch) = identified(start);
        let bytes = contents(sketch.track, sector);
        let sketch = sketch.clone().overlapping(overlap(&sketch), Data).bytes(&bytes).edc().gap(4);
        Trap::new("B6", "a data mark that begins in the address EDC is not seen", &sketch).nowhere(sector, 23)
    });
    let identifier = in_both(|start| {
        let (sector, sketch) = identified(start);
        let address = sketch.track.address(21);
        let sketch = sketch.clone().overlapping(overlap(&sketch), Identifier).bytes(&address).edc();
        let sketch = sketch.gap(11).block(Data, 21).gap(4);
        let shows = "nor an identifier mark that begins there: the block behind it is taken";
        Trap::new("B6", shows, &sketch).answers(&[(sector, 1, First)]).holds(sector, &contents(sketch.track, 21))
    });
    [data, identifier].into_iter().flatten().collect()
}
