//! A few tracks to try the program on, and a file of some: what a bench meets.
use crate::flux::dropout;
use harness::captures::Turn;
use harness::files::{entry, Contents};
use harness::reference::read::read;
use harness::reference::records::has_bytes;
use harness::rng::Rng;
use harness::station::Reading;
use harness::tracks::damage::turn;
use harness::tracks::letters::lay;
use harness::tracks::sketch::Control;
use harness::tracks::{Track, FM};

const TRACK: Track = Track { layout: 3, cylinder: 5, side: 1 };

/// The other side of cylinder 0.
const SECOND: Track = Track { layout: 1, cylinder: 0, side: 1 };

pub fn all() -> Vec<(&'static str, Vec<u8>)> {
    let image = TRACK.formatted(&program(), &[0xFB; 8]);
    vec![
        ("clean.in", TRACK.input(&image)),
        ("worn.in", TRACK.input(&worn(&image))),
        ("cut.in", TRACK.input(&image[..TRACK.places(6).1 + 700])),
        ("other-cylinder.in", Track { cylinder: 6, ..TRACK }.input(&image)),
        ("open.in", TRACK.input(&open(&image))),
        ("first-track.in", FM.input(&first_track())),
        ("defect.in", TRACK.input(&defect())),
        ("forbidden.in", FM.input(&forbidden())),
    ]
}

/// What the board makes of the clean track on a drive that slows down a little, its counter running over half way round; and
/// the beginning of that, with a transition lost.
pub fn captures() -> [(&'static str, Vec<u8>); 2] {
    let turn = Turn { ticks: 480, first: u32::MAX - 20_000_000, jitter: 30, drift: 25 };
    let capture = turn.capture(&mut Rng::new(5), &TRACK.formatted(&program(), &[0xFB; 8]));
    let short = dropout(capture.clone(), 1_000, 200);
    [("capture.flux", capture.input(TRACK)), ("dropout.flux", short.input(TRACK))]
}

/// Part of a program for a milling machine, as long as a track.
fn program() -> Vec<u8> {
    let size = TRACK.layout().area_bytes();
    let mut text = String::from("%\r\nO0047 (COVER PLATE)\r\nG21 G17 G40 G90\r\nT03 M06\r\nS1800 M03\r\n");
    for block in 1..1_000 {
        let (x, y) = (block * 37 % 2_400, block * 53 % 1_600);
        let (depth, feed) = (block / 40, 120 + block % 7 * 30);
        text += &format!("N{:04} G01 X{}.{:02} Y{}.{:02} ", 10 * block, x / 10, x % 10 * 10, y / 10, y % 10 * 10);
        text += &format!("Z-{}.{} F{feed}\r\n", depth / 10, depth % 10);
    }
    text.into_bytes().into_iter().take(size).collect()
}

/// The track after some years.
fn worn(image: &[u8]) -> Vec<u8> {
    let mut worn = image.to_vec();
    let cell = |sector: usize, from: fn((usize, usize)) -> usize| 8 * from(TRACK.places(sector));
    // a data cell in the block of sector 2, and one in the EDC of sector 7
    turn(&mut worn, cell(2, |(_, data)| data + 8 + 600) + 5);
    turn(&mut worn, cell(7, |(_, data)| data + 8 + 2 * 1_024) + 3);
    // clock cells in the block of sector 3 do not matter to its answer
    turn(&mut worn, cell(3, |(_, data)| data + 8 + 77));
    turn(&mut worn, cell(3, |(_, data)| data + 8 + 79) + 2);
    // the data mark of sector 4, and the address of sector 6
    turn(&mut worn, cell(4, |(_, data)| data + 3));
    turn(&mut worn, cell(6, |(identifier, _)| identifier + 8 + 4) + 1);
    // a scratch through the gap before sector 8
    let (gap, _) = TRACK.places(8);
    worn[gap - 60..gap - 40].fill(0x00);
    worn
}

/// A rewrite of sector 3 that somebody cut off after 401 stores: the open mark, and 200 new bytes.
fn open(image: &[u8]) -> Vec<u8> {
    let mut data = program();
    data[2 * 1_024..3 * 1_024].reverse();
    let new = TRACK.formatted(&data, &[0xFB; 8]);
    let (_, mark) = TRACK.places(3);
    let mut open = image.to_vec();
    open[mark + 7] = 0x49;
    open[mark + 8..][..400].copy_from_slice(&new[mark + 8..][..400]);
    open
}

/// The program on a disk with bad spots under sectors 3 and 6: these are control records with F, and it goes on behind them.
/// At 3 the EDC is right all the same, at 6 the spot has spoilt a cell of the block.
fn defect() -> Vec<u8> {
    let (text, size) = (program(), TRACK.layout().size);
    let (mut marks, mut rest) = ([0xFB; 8], text.chunks(size));
    let mut data = Vec::new();
    for sector in 1..=marks.len() {
        if [3, 6].contains(&sector) {
            marks[sector - 1] = 0xF8;
            data.extend(padded("F", size).bytes());
        } else {
            data.extend(rest.next().expect("the program is as long as the track"));
        }
    }
    let mut image = TRACK.formatted(&data, &marks);
    turn(&mut image, 8 * (TRACK.places(6).1 + 8 + 2 * 300) + 7);
    image
}

/// The first track with two control records that some other station wrote over its own, with right EDCs: one with F, since it
/// took cylinder 0 for any other, and one with the letter of a label.
fn forbidden() -> Vec<u8> {
    let mut image = first_track();
    for (sector, text) in [(20, "F"), (24, "HDR1UNUSED24")] {
        lay(&mut image, FM, sector, Control, padded(text, FM.layout().size).as_bytes(), true);
    }
    image
}

/// A text, and spaces up to a sector's length.
fn padded(text: &str, size: usize) -> String {
    format!("{text:<size$}")
}

/// Cylinder 0, side 0, with text in some sectors; the last eight are control records, which begin with D.
fn first_track() -> Vec<u8> {
    let text = |sector: usize| match sector {
        5 => "ERMAP".to_string(),
        7 => "VOL1SHOP47".to_string(),
        8 => "HDR1COVERPLATE".to_string(),
        _ if sector > 18 => format!("DDR1UNUSED{sector:02}"),
        _ => String::new(),
    };
    labels(FM, 18, text)
}

/// Cylinder 0, side 1: labels of files that there are, and of none. A cell in the block of sector 4 is wrong.
fn second_track() -> Vec<u8> {
    let text = |sector: usize| match sector {
        1 => "HDR1AXISTABLE".to_string(),
        2 => "HDR1TOOLS".to_string(),
        3..=22 => format!("HDR1PART{sector:02}"),
        _ => format!("DDR1UNUSED{sector:02}"),
    };
    let mut image = labels(SECOND, 22, text);
    turn(&mut image, 8 * (SECOND.places(4).1 + 8 + 2 * 5) + 1);
    image
}

/// A track of texts, with control marks behind so many sectors.
fn labels(track: Track, data: usize, text: impl Fn(usize) -> String) -> Vec<u8> {
    let layout = track.layout();
    let mut marks = vec![0xFB; layout.sectors];
    marks[data..].fill(0xF8);
    let sectors = (1..=layout.sectors).map(|sector| padded(&text(sector), layout.size));
    track.formatted(&sectors.collect::<String>().into_bytes(), &marks)
}

/// What goes to a second bench: three tracks of a cartridge as they were read, the last of them worn.
pub fn cartridge() -> Contents {
    let worn = worn(&TRACK.formatted(&program(), &[0xFB; 8]));
    let mut contents = Contents::default().labelled(b"LATHE 3, AXIS TABLE");
    for (track, image) in [(FM, first_track()), (SECOND, second_track()), (TRACK, worn)] {
        let layout = track.layout();
        let (mut area, mut reading) = (vec![0; layout.area_bytes()], Reading::default());
        assert_eq!(read(track.layout, track.cylinder, track.side, &image, &mut area, &mut reading), 0);
        contents.tracks.extend(entry(track));
        for (slot, record) in area.chunks(layout.size).zip(reading.records) {
            contents.answers.push(record.answer as u8);
            contents.data.extend(slot.iter().filter(|_| has_bytes(record.answer)));
        }
    }
    contents
}
