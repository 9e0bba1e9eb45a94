//! How much room the library takes, and that no table of the EDC is in it: the program memory of a station is nearly full
//! (02, request 02).
mod archive;
mod tables;

use archive::{sections, Kind, Section};
use harness::rng::Rng;
use std::fs;
use tables::{written, Form, Search, FORMS};

fn library() -> Vec<Section> {
    let path = concat!(env!("CARGO_MANIFEST_DIR"), "/../target/staticlib/libstation.a");
    sections(&fs::read(path).unwrap_or_else(|error| panic!("{path}: {error}")))
}

#[test]
fn no_array_of_the_edc_in_the_room() {
    let sections = library();
    let size = |kind| sections.iter().filter(|section| section.kind == kind).map(|section| section.size).sum::<usize>();
    let (code, constants) = (size(Kind::Code), size(Kind::Constant));
    assert!(code > 0, "an archive without code");
    assert_eq!(size(Kind::Writable), 0, "bytes that a table could be worked out into");
    let search = Search::new();
    for Section { name, bytes, .. } in &sections {
        assert_eq!(search.arrays(bytes), vec![], "of the EDC, in {name}: where, and how it is written");
    }
    println!("room: {code} bytes of code and {constants} of constants, none of them an array of the EDC");
}

/// What the look at the library would find: each array in each form, and where its numbers are split, one of the halves.
#[test]
fn an_array_in_the_room_would_be_found() {
    let (mut rng, search) = (Rng::new(1), Search::new());
    let tables = tables::all();
    for table in &tables {
        let mut is_found = |form| {
            let (before, behind) = (rng.bytes(301), rng.bytes(57));
            let found = search.arrays(&[&before[..], &written(form, table), &behind].concat());
            found.contains(&(before.len(), form))
        };
        let (halves, whole): (Vec<Form>, Vec<Form>) = FORMS.into_iter().partition(|&form| form.is_half());
        for form in whole {
            assert!(is_found(form), "{form:?} of {table:04X?}");
        }
        assert!(halves.into_iter().any(|half| is_found(half)), "the halves of {table:04X?}");
    }
    println!("room: {} arrays in {} forms would be found", tables.len(), FORMS.len());
}

/// And what it would not.
#[test]
fn other_bytes_in_the_room_are_no_array() {
    let search = Search::new();
    assert_eq!(search.arrays(&Rng::new(2).bytes(100_000)), vec![]);
    assert_eq!(search.arrays(&[0; 1_000]), vec![]);
    // the numbers from 0 on, and the powers of two, as vector code has them
    let counted: Vec<u16> = (0..256).collect();
    let powers: Vec<u16> = (0..16).map(|bit| 1 << bit).collect();
    for form in FORMS {
        assert_eq!(search.arrays(&written(form, &counted)), vec![], "{form:?}");
        assert_eq!(search.arrays(&written(form, &powers)), vec![], "{form:?}");
    }
}
