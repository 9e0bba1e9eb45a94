//! What the first byte behind a mark says, on cylinder 0 and elsewhere (02, request 04; 004, 7.4.2.4.3).
use super::super::letters::{lettered, CYLINDER_0, OTHERS};
use super::super::sketch::*;
use super::Mark::{First, Second};
use super::{in_mfm, rewritten, Track, Trap};

pub fn all() -> Vec<Trap> {
    let groups = [
        wrong_edc_elsewhere(),
        others_first("H1", &OTHERS, b'F', 3),
        f_on_cylinder_0(),
        right_edc_elsewhere(),
        other_letters(),
        others_first("H4", &CYLINDER_0, b'E', 27),
        rewritten_elsewhere(),
        rewritten_on_cylinder_0(),
        data_records(),
        callers_cylinder(),
    ];
    groups.into_iter().flatten().collect()
}

/// The same trap on some tracks.
fn on(tracks: &[Track], trap: impl Fn(Sketch) -> Trap) -> Vec<Trap> {
    tracks.iter().map(|&track| trap(Sketch::new(track).gap(4))).collect()
}

fn on_all(trap: impl Fn(Sketch) -> Trap) -> Vec<Trap> {
    on(&[&CYLINDER_0[..], &OTHERS].concat(), trap)
}

/// How a block ends.
type Edc = fn(Sketch) -> Sketch;
const RIGHT: Edc = Sketch::edc;
const WRONG: Edc = Sketch::wrong_edc;

/// A sector whose block begins with a letter.
fn record(sketch: Sketch, sector: u8, kind: Kind, letter: u8, edc: Edc) -> Sketch {
    let bytes = lettered(sketch.track, sector, letter);
    edc(sketch.identifier(sector).gap(11).zeros().mark(kind).bytes(&bytes)).gap(8)
}

/// H1: with F the EDC may be wrong.
fn wrong_edc_elsewhere() -> Vec<Trap> {
    on(&OTHERS, |start| {
        let sketch = record(start, 1, Control, b'F', WRONG).sector(2);
        let shows = "a control record with F and a wrong EDC is 3, not 26";
        Trap::new("H1", shows, &sketch).answers(&[(1, 3, First), (2, 1, Second)])
    })
}

/// H1 and H4: a record's own answer comes behind 22, 23, 24 and 25; without an identifier it is nobody's.
fn others_first(name: &'static str, tracks: &[Track], letter: u8, answer: u32) -> Vec<Trap> {
    let words = format!("a control record with {}", char::from(letter));
    let nobodys = on(tracks, |start| {
        let (address, bytes) = (start.track.address(1), lettered(start.track, 1, letter));
        let sketch = start.zeros().mark(Identifier).bytes(&address).wrong_edc().gap(11);
        let sketch = sketch.zeros().field(Control, &bytes).gap(4);
        Trap::new(name, &format!("{words} behind a bad identifier: 21, not {answer}"), &sketch).counts(1, 0)
    });
    let twice = on(tracks, |start| {
        let sketch = record(record(start, 1, Control, letter, RIGHT), 1, Control, letter, RIGHT);
        Trap::new(name, &format!("{words} twice: 22, not {answer}"), &sketch).nowhere(1, 22)
    });
    let identifier_first = on(tracks, |start| {
        let sketch = record(start.identifier(1).gap(4), 2, Control, letter, RIGHT);
        let shows = format!("{words} behind the next identifier: 23, and {answer} for the next");
        Trap::new(name, &shows, &sketch).nowhere(1, 23).answers(&[(2, answer, First)])
    });
    let cut = on(tracks, |start| {
        let bytes = lettered(start.track, 1, letter);
        let sketch = start.sector(2).identifier(1).gap(11).zeros().mark(Control).bytes(&bytes[..100]);
        let shows = format!("{words} that passes the end: 24, not {answer}");
        Trap::new(name, &shows, &sketch).answers(&[(2, 1, First), (1, 24, Second)])
    });
    let open = on(tracks, |start| {
        let mut sketch = record(start, 1, Control, letter, RIGHT).sector(2);
        let (mark, open) = (sketch.blocks[0], cells_of(Open.image(sketch.track.mode())));
        sketch.cells[mark..mark + open.len()].copy_from_slice(&open);
        let shows = format!("{words} under an open mark: 25, not {answer}");
        // the first clock is coded after F8, which ends with ZERO
        let clocks = in_mfm(sketch.track);
        Trap::new(name, &shows, &sketch).answers(&[(1, 25, First), (2, 1, Second)]).doubtful(1, clocks)
    });
    [nobodys, twice, identifier_first, cut, open].into_iter().flatten().collect()
}

/// H2: never 3 on cylinder 0.
fn f_on_cylinder_0() -> Vec<Trap> {
    let f = |edc, answer, shows: &str| {
        on(&CYLINDER_0, |start| {
            let sketch = record(start, 1, Control, b'F', edc).sector(2);
            Trap::new("H2", shows, &sketch).answers(&[(1, answer, First), (2, 1, Second)])
        })
    };
    let wrong = f(WRONG, 26, "a control record with F and a wrong EDC is 26 on cylinder 0");
    let right = f(RIGHT, 27, "a control record with F and a right EDC is 27 on cylinder 0");
    [wrong, right].into_iter().flatten().collect()
}

/// H3: the other bytes are not handed out, though the EDC is right.
fn right_edc_elsewhere() -> Vec<Trap> {
    on(&OTHERS, |start| {
        let sketch = record(start, 1, Control, b'F', RIGHT).sector(2);
        let shows = "a control record with F and a right EDC is 3, F and zeros";
        Trap::new("H3", shows, &sketch).answers(&[(1, 3, First), (2, 1, Second)])
    })
}

/// H4: other letters than F. On cylinder 0 only D is right.
fn other_letters() -> Vec<Trap> {
    let right = |tracks: &[Track], answer, shows: &str| {
        on(tracks, |start| {
            let sketch = record(record(start, 1, Control, b'E', RIGHT), 2, Control, b'D', RIGHT);
            let [e, d] = [lettered(sketch.track, 1, b'E'), lettered(sketch.track, 2, b'D')];
            let trap = Trap::new("H4", shows, &sketch).answers(&[(1, answer, First), (2, 2, Second)]).holds(2, &d);
            if answer == 2 {
                trap.holds(1, &e)
            } else {
                trap
            }
        })
    };
    let wrong = on_all(|start| {
        let sketch = record(record(start, 1, Control, b'E', WRONG), 2, Control, b'D', WRONG);
        let shows = "control records with E and with D and wrong EDCs are 26";
        Trap::new("H4", shows, &sketch).answers(&[(1, 26, First), (2, 26, Second)])
    });
    let on_cylinder_0 = right(&CYLINDER_0, 27, "a control record with E is 27 on cylinder 0, one with D is 2");
    let elsewhere = right(&OTHERS, 2, "a control record with E is 2 where the cylinder is not 0, as one with D");
    [on_cylinder_0, elsewhere, wrong].into_iter().flatten().collect()
}

/// H5: what a rewrite leaves is read like everything else.
fn rewritten_elsewhere() -> Vec<Trap> {
    let f = |missing, answer, clocks, shows: &str| {
        on(&OTHERS, |start| {
            let bytes = lettered(start.track, 1, b'F');
            let trap = rewritten(Trap::new("H5", shows, &start.sector(1).sector(2)), 0xF8, &bytes, missing);
            trap.answers(&[(1, answer, First), (2, 1, Second)]).doubtful(1, clocks)
        })
    };
    let whole = f(0, 3, 0, "a data record rewritten as a control record with F is 3");
    let cut_off = f(1, 25, 1, "a rewrite as a control record with F that lacks its last store is 25");
    let away = on(&OTHERS, |start| {
        let bytes = contents(start.track, 1);
        let sketch = record(start, 1, Control, b'F', WRONG).sector(2);
        let trap = Trap::new("H5", "a control record with F rewritten as a data record is 1", &sketch);
        rewritten(trap, 0xFB, &bytes, 0).answers(&[(1, 1, First), (2, 1, Second)])
    });
    [whole, cut_off, away].into_iter().flatten().collect()
}

/// H5: no request lets F be written on cylinder 0, but a step does not know the cylinder.
fn rewritten_on_cylinder_0() -> Vec<Trap> {
    let f = on(&CYLINDER_0, |start| {
        let bytes = lettered(start.track, 1, b'F');
        let shows = "steps that were handed a control record with F on cylinder 0 leave 27";
        let trap = Trap::new("H5", shows, &start.sector(1).sector(2));
        rewritten(trap, 0xF8, &bytes, 0).answers(&[(1, 27, First), (2, 1, Second)])
    });
    let away = on(&CYLINDER_0, |start| {
        let bytes = lettered(start.track, 1, b'D');
        let sketch = record(start, 1, Control, b'F', RIGHT).sector(2);
        let trap = Trap::new("H5", "a control record with F rewritten as one with D is 2 on cylinder 0", &sketch);
        rewritten(trap, 0xF8, &bytes, 0).answers(&[(1, 2, First), (2, 1, Second)]).holds(1, &bytes)
    });
    [f, away].into_iter().flatten().collect()
}

/// H6: behind a data mark F is a byte as any other.
fn data_records() -> Vec<Trap> {
    on_all(|start| {
        let sketch = record(record(start, 1, Data, b'F', RIGHT), 2, Data, b'F', WRONG);
        let bytes = lettered(sketch.track, 1, b'F');
        let shows = "a data record with F is 1 with its bytes, and 26 with a wrong EDC";
        Trap::new("H6", shows, &sketch).answers(&[(1, 1, First), (2, 26, Second)]).holds(1, &bytes)
    })
}

/// H7: the cylinder is the one that was asked for.
fn callers_cylinder() -> Vec<Trap> {
    let answer = |track: Track| if track.cylinder == 0 { 27 } else { 3 };
    // the same address, but 0 for another cylinder and 1 for 0
    let other = |track: Track, sector: u8| {
        let [cylinder, side, sector, fourth] = track.address(sector);
        [u8::from(cylinder == 0), side, sector, fourth]
    };
    let behind = on_all(|start| {
        let (address, bytes) = (other(start.track, 1), lettered(start.track, 1, b'F'));
        let sketch = start.zeros().field(Identifier, &address).gap(11).zeros().field(Control, &bytes).gap(8);
        let sketch = record(sketch, 2, Control, b'F', RIGHT);
        let shows = "a control record with F behind another cylinder's identifier, and one behind the own";
        Trap::new("H7", shows, &sketch).answers(&[(2, answer(sketch.track), Second)]).counts(0, 1)
    });
    let claimed = on_all(|start| {
        let (address, bytes) = (other(start.track, 2), lettered(start.track, 2, b'F'));
        let sketch = start.identifier(1).gap(2).zeros().mark(Identifier).turned(1).bytes(&address).bytes(&[0x12, 0x34]);
        let sketch = sketch.gap(2).zeros().field(Control, &bytes).gap(4);
        let shows = "a control record with F whose own identifier, another cylinder's, is spoilt: sector 1 takes it";
        Trap::new("H7", shows, &sketch).answers(&[(1, answer(sketch.track), First)])
    });
    [behind, claimed].into_iter().flatten().collect()
}
