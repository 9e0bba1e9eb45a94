//! The traps of `harness::tracks::traps`, each with the outcome that 01 and 02 want.
use harness::compare::read::{agrees, compare, Call, Outcome};
use harness::rng::Rng;
use harness::tally::Tally;
use harness::tracks::damage::shifted;
use harness::tracks::traps::{all, Trap};

/// Springs the traps of a name: as they stand, and where nothing hangs on the image's end at every other cell too.
fn spring(name: &str, count: usize) {
    let mut rng = Rng::new(20);
    let mut tally = Tally::new("read", &format!("trap ({name})"));
    let traps: Vec<Trap> = all().into_iter().filter(|trap| trap.name == name).collect();
    assert_eq!(traps.len(), count, "traps of the name {name}");
    for Trap { shows, track, image, reading, area, .. } in traps {
        let outcome = Outcome { number: 0, reading, area };
        let mut images = vec![image];
        if !["B3", "B4", "B5", "B10", "B11", "B12"].contains(&name) {
            let longer = [&images[0][..], &[0; 2]].concat();
            images.extend((1..16).map(|by| shifted(&mut rng, &longer, by)));
        }
        for (by, image) in images.into_iter().enumerate() {
            let (call, expected) = (Call::new(track, image), outcome.clone().later(by));
            let found = compare(&mut tally, &mut rng, &call);
            if found != expected {
                println!("{shows}:");
            }
            agrees(&call, &found, &expected);
        }
    }
    tally.report();
}

#[test]
fn a3_three_a1_are_a_mark() {
    spring("A3", 4);
}

#[test]
fn a4_index_marks_are_not_searched_for() {
    spring("A4", 2);
}

#[test]
fn b1_the_walk_goes_on_behind_a_bad_mark() {
    spring("B1", 5);
}

#[test]
fn b2_where_a_block_may_begin() {
    spring("B2", 6);
}

#[test]
fn b3_a_mark_lies_in_the_image() {
    spring("B3", 6);
}

#[test]
fn b4_identifiers_at_the_end() {
    spring("B4", 8);
}

#[test]
fn b5_any_identifier_first() {
    spring("B5", 6);
}

#[test]
fn b6_marks_that_begin_in_an_address() {
    spring("B6", 4);
}

#[test]
fn b7_marks_in_an_address() {
    spring("B7", 4);
}

#[test]
fn b8_a_block_is_not_searched() {
    spring("B8", 6);
}

#[test]
fn b9_the_neighbours_block() {
    spring("B9", 2);
}

#[test]
fn b10_twice_comes_first() {
    spring("B10", 6);
}

#[test]
fn b11_open_marks() {
    spring("B11", 6);
}

#[test]
fn b12_the_walk_ends_with_a_block_past_the_end() {
    spring("B12", 6);
}

#[test]
fn b13_bad_before_foreign() {
    spring("B13", 2);
}

#[test]
fn b14_whole_address_bytes() {
    spring("B14", 4);
}

#[test]
fn clock_cells_in_fields() {
    spring("clocks", 2);
}

#[test]
fn wrong_edc() {
    spring("edc", 4);
}

#[test]
fn h1_3_before_26_and_others_before_3() {
    spring("H1", 36);
}

#[test]
fn h2_never_3_on_cylinder_0() {
    spring("H2", 4);
}

#[test]
fn h3_f_and_zeros_with_a_right_edc() {
    spring("H3", 6);
}

#[test]
fn h4_other_letters() {
    spring("H4", 26);
}

#[test]
fn h5_rewritten_records() {
    spring("H5", 22);
}

#[test]
fn h6_data_records_with_f() {
    spring("H6", 8);
}

#[test]
fn h7_the_callers_cylinder() {
    spring("H7", 16);
}

#[test]
fn j1_the_sum_of_a_whole_block() {
    spring("J1", 18);
}

#[test]
fn j2_the_bit_before_is_the_found_marks_last() {
    spring("J2", 24);
}

#[test]
fn j3_which_clocks_count() {
    spring("J3", 4);
}

#[test]
fn j4_a_rewrite_under_way() {
    spring("J4", 8);
}

#[test]
fn every_trap_has_a_test() {
    assert_eq!(all().len(), 255);
}
