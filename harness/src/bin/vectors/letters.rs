//! The kept vectors of 02, request 04: control records by their first byte, on cylinder 0 and elsewhere.
use crate::kept::{read, trap};
use crate::Vector;
use harness::rng::Rng;
use harness::tracks::damage::shifted;
use harness::tracks::letters::{lay, lettered, mixed, CYLINDER_0, OTHERS};
use harness::tracks::sketch::{Control, Data, Kind};
use harness::tracks::traps::{of_letters, Trap};
use harness::tracks::{random, worn, Track};

/// A block: its mark, its first byte, and whether its EDC is right. There are as many as layout 3 has sectors.
const BLOCKS: [(Kind, u8, bool); 8] = [
    (Control, b'F', true),
    (Control, b'F', false),
    (Control, b'D', true),
    (Control, b'D', false),
    (Control, b'E', true),
    (Control, b'E', false),
    (Data, b'F', true),
    (Data, b'F', false),
];

pub fn all() -> Vec<Vector> {
    let rng = &mut Rng::new(2028);
    let groups = [each_block(rng), formatted(rng), traps(), of_other_stations(rng)];
    groups.into_iter().flatten().collect()
}

/// All blocks on each track, by turns from sector 1 on.
fn each_block(rng: &mut Rng) -> Vec<Vector> {
    let write = |track: Track| {
        let (mut image, ..) = track.plain(rng);
        let blocks = BLOCKS.into_iter().cycle().take(track.layout().sectors);
        for (sector, (kind, letter, is_right)) in (1..).zip(blocks) {
            lay(&mut image, track, sector.into(), kind, &lettered(track, sector, letter), is_right);
        }
        read("F8 with F, D and E, and FB with F, by turns a right EDC and a wrong one", track, &image)
    };
    CYLINDER_0.into_iter().chain(OTHERS).map(write).collect()
}

fn formatted(rng: &mut Rng) -> Vec<Vector> {
    let format = |track: Track| read("as formatted, some control records with F", track, &track.random(rng).0);
    OTHERS.into_iter().step_by(2).map(format).collect()
}

/// Each trap on one of its tracks: the first, the second and so on by turns.
fn traps() -> Vec<Vector> {
    let mut groups: Vec<Vec<Trap>> = Vec::new();
    for trap in of_letters() {
        match groups.last_mut() {
            Some(group) if group[0].shows == trap.shows => group.push(trap),
            _ => groups.push(vec![trap]),
        }
    }
    groups.iter().enumerate().map(|(turn, group)| trap(&group[turn % group.len()])).collect()
}

fn of_other_stations(rng: &mut Rng) -> Vec<Vector> {
    let [first, second] = CYLINDER_0;
    let [low, high, ..] = OTHERS;
    let image = mixed(rng, high);
    vec![
        read("control records with any letter, EDCs right and wrong", first, &mixed(rng, first)),
        read("the same, and some cells turned over", second, &worn::turned(rng, second)),
        read(
            "control records with any letter, the whole track shifted by 5 of 8 cells",
            high,
            &shifted(rng, &image, 5),
        ),
        read("the same, cells turned over, lost, put in and doubled", high, &worn::wear(rng, &image)),
        read("control records with any letter twice in one capture: all 22", first, &mixed(rng, first).repeat(2)),
        read("random fields with any letter", first, &random::fields(rng, first)),
        read("random fields with any letter", second, &random::fields(rng, second)),
        read("random fields with any letter", low, &random::fields(rng, low)),
        read("random fields with any letter", high, &random::fields(rng, high)),
    ]
}
