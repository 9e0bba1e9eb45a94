//! Prints for each exported function the ratio Rattle / Rust: of executed instructions and, on an x86-64 processor, of
//! time too (under an emulator a time says nothing). `bench --steps`: instructions only.
mod file;
mod flux;
mod measure;

use harness::reference;
use harness::reference::coding::{code, Mode};
use harness::reference::dump::Reader;
use harness::reference::records::{at, nowhere};
use harness::reference::rewrite::{Request, Step};
use harness::rng::Rng;
use harness::station::{self, Pass, Reading, Record};
use harness::tracks::damage::{false_beginnings, shifted};
use harness::tracks::worn::LONGEST;
use harness::tracks::{Track, EACH, FM, MFM};
use measure::{hidden, Case};
use std::cell::RefCell;
use std::process::Command;
use std::slice::from_raw_parts;

fn main() {
    let machine = said_by("uname", &["-m"]);
    let native = machine == "x86_64";
    let processor = if native { model() } else { format!("{} ({machine}), emulating x86-64", model()) };
    println!("Rust: {}; Rattle: {}", env!("HARNESS_COMPILER"), said_by("rt", &["version"]));
    println!("processor: {processor}");

    let with_time = native && !std::env::args().any(|word| word == "--steps");
    let times = match (with_time, native) {
        (true, _) => "and of time (the median of 21 pairs)",
        (false, true) => "alone, as asked",
        (false, false) => "alone: under an emulator a time says nothing",
    };
    println!("ratios Rattle / Rust of executed instructions {times}");
    edc(with_time);
    coding(with_time);
    data_byte(with_time);
    format(with_time);
    read(with_time);
    pick(with_time);
    rewrite(with_time);
    edc_steps(with_time);
    file::write(with_time);
    file::read(with_time);
    flux::flux(with_time);
}

/// What a program writes. Also under an emulator the program is the machine's own.
fn output(program: &str, words: &[&str]) -> String {
    let output = Command::new(program).args(words).output().map(|output| output.stdout).unwrap_or_default();
    String::from_utf8_lossy(&output).into_owned()
}

/// The first line of it.
fn said_by(program: &str, words: &[&str]) -> String {
    output(program, words).lines().next().unwrap_or("unknown").to_string()
}

/// The processor's name: the kernel has one on x86-64; for Arm `lscpu` knows it by its numbers.
fn model() -> String {
    let said = [output("cat", &["/proc/cpuinfo"]), output("lscpu", &[])];
    let name = |line: &str| {
        let (field, name) = line.split_once(':')?;
        field.trim().eq_ignore_ascii_case("model name").then(|| name.trim().to_string())
    };
    said.iter().find_map(|said| said.lines().find_map(name)).unwrap_or_else(|| "unknown".to_string())
}

fn edc(with_time: bool) {
    // a block with its EDC, and an address
    for length in [1026, 4] {
        let bytes = Rng::new(1).bytes(length);
        let drive = |f: fn(&[u8]) -> u16| {
            hidden(f(&bytes));
        };
        let name = &format!("edc, {length} bytes");
        let (rattle, rust) = (station::edc, reference::edc::edc);
        Case { name, drive: &drive, rattle, rust, idle: |_| 0 }.report(with_time);
    }
}

fn coding(with_time: bool) {
    type Code = fn(u8, u8) -> u16;
    let bytes = Rng::new(2).bytes(256);
    let drive = |f: Code| {
        let mut before = 0;
        for &byte in &bytes {
            hidden(f(before, byte));
            before = byte & 1;
        }
    };
    let report = |name, rattle: Code, rust: Code| {
        Case { name, drive: &drive, rattle, rust, idle: |_, _| 0 }.report(with_time);
    };
    report("code_fm, 256 bytes", station::code_fm, |before, byte| code(Mode::Fm, before != 0, byte));
    report("code_mfm, 256 bytes", station::code_mfm, |before, byte| code(Mode::Mfm, before != 0, byte));
}

fn data_byte(with_time: bool) {
    let image = Rng::new(3).bytes(2 * 1024 + 1);
    let drive = |f: fn(&[u8], usize) -> u8| {
        for byte in 0..1024 {
            // five cells on, as a track need not begin with a byte
            hidden(f(&image, 16 * byte + 5));
        }
    };
    let (rattle, rust) = (station::data_byte, reference::coding::data_byte);
    Case { name: "data_byte, 1024 bytes", drive: &drive, rattle, rust, idle: |_, _| 0 }.report(with_time);
}

fn format(with_time: bool) {
    type Format = fn(u32, u32, u32, &[u8], &[u8], &mut [u8]) -> u8;
    // cylinder, sectors, data bytes of a sector, image bytes
    let layouts = [(0, 26, 128, 10_416), (1, 26, 256, 20_832), (1, 15, 512, 20_832), (1, 8, 1_024, 20_832)];
    for (layout, (cylinder, sectors, size, image)) in (0..).zip(layouts) {
        let data = Rng::new(4).bytes(sectors * size);
        let marks = vec![0xFB; sectors];
        let image = RefCell::new(vec![0; image]); // one for all calls
        let drive = |f: Format| assert_eq!(f(layout, cylinder, 0, &data, &marks, &mut image.borrow_mut()), 0);
        let name = &format!("format, layout {layout}");
        let (rattle, rust) = (station::format, reference::format::format);
        Case { name, drive: &drive, rattle, rust, idle: |_, _, _, _, _, _| 0 }.report(with_time);
    }
}

fn read(with_time: bool) {
    let rng = &mut Rng::new(5);
    for track in EACH {
        let (image, ..) = track.plain(rng);
        read_image(&format!("read, layout {}", track.layout), track, &image, with_time);
    }
    let (image, ..) = MFM.plain(rng);
    read_image("read, layout 1, shifted", MFM, &shifted(rng, &image, 3), with_time);
    for (name, track) in [("FM", FM), ("MFM", MFM)] {
        read_image(&format!("read, noise, {name}"), track, &rng.bytes(LONGEST), with_time);
        let dense = false_beginnings(rng, track.mode(), LONGEST);
        read_image(&format!("read, dense noise, {name}"), track, &dense, with_time);
    }
}

fn read_image(name: &str, track: Track, image: &[u8], with_time: bool) {
    let Track { layout, cylinder, side } = track;
    // one for all calls
    let lent = RefCell::new((vec![0; track.layout().area_bytes()], Reading::default()));
    let drive = |f: Reader| {
        let (area, reading) = &mut *lent.borrow_mut();
        assert_eq!(f(layout, cylinder, side, image, area, reading), 0);
    };
    let (rattle, rust) = (station::read, reference::read::read);
    Case { name, drive: &drive, rattle, rust, idle: |_, _, _, _, _, _| 0 }.report(with_time);
}

/// A pick as the header declares it, since for so short a call a wrapper would count: layout, sector, both passes, each an
/// area with its length and records, what is taken, and the record that is handed on.
type Pick = unsafe extern "C" fn(
    u32,
    u32,
    *const u8,
    usize,
    *const [Record; 26],
    *const u8,
    usize,
    *const [Record; 26],
    *mut [u32; 3],
    *mut Record,
) -> u8;

/// The reference's, called in the same way.
#[inline(never)]
unsafe extern "C" fn reference_pick(
    layout: u32,
    sector: u32,
    first: *const u8,
    first_length: usize,
    first_records: *const [Record; 26],
    second: *const u8,
    second_length: usize,
    second_records: *const [Record; 26],
    taken: *mut [u32; 3],
    record: *mut Record,
) -> u8 {
    let first = Pass { area: from_raw_parts(first, first_length), records: &*first_records };
    let second = Pass { area: from_raw_parts(second, second_length), records: &*second_records };
    reference::pick::taken(layout, sector, first, second, &mut *taken, &mut *record)
}

unsafe extern "C" fn no_pick(
    _: u32,
    _: u32,
    _: *const u8,
    _: usize,
    _: *const [Record; 26],
    _: *const u8,
    _: usize,
    _: *const [Record; 26],
    _: *mut [u32; 3],
    _: *mut Record,
) -> u8 {
    0
}

fn pick(with_time: bool) {
    let rng = &mut Rng::new(6);
    let (first, second) = (rng.bytes(26 * 256), rng.bytes(26 * 256));
    // the first pass, the second and neither by turns
    let records = |turns: [Record; 3]| -> [Record; 26] { std::array::from_fn(|sector| turns[sector % 3]) };
    let first_records = records([at(1, 3_232), at(26, 9_184), at(26, 15_136)]);
    let second_records = records([at(2, 3_233), at(2, 9_185), nowhere(21)]);
    let drive = |f: Pick| {
        for sector in 1..=26 {
            let (mut taken, mut record) = ([0; 3], Record::default());
            // SAFETY: each pointer and length are those of one live slice, array or record; `taken` and `record` alone are
            // written.
            hidden(unsafe {
                f(
                    1,
                    sector,
                    first.as_ptr(),
                    first.len(),
                    &first_records,
                    second.as_ptr(),
                    second.len(),
                    &second_records,
                    &mut taken,
                    &mut record,
                )
            });
        }
    };
    let (rattle, rust): (Pick, Pick) = (station::station_pick, reference_pick);
    Case { name: "pick, 26 sectors", drive: &drive, rattle, rust, idle: no_pick }.report(with_time);
}

/// A request and all its steps.
fn rewrite(with_time: bool) {
    type Rewrite = (Request, Step);
    let rng = &mut Rng::new(7);
    for track in EACH {
        let Track { layout, cylinder, side } = track;
        let size = track.layout().size;
        let stores = 2 * size + if track == FM { 6 } else { 7 };
        let contents = rng.bytes(size);
        let image = RefCell::new(track.plain(rng).0); // one for all calls
        let drive = |(request, step): Rewrite| {
            let (mut plan, image) = ([0; 4], &mut *image.borrow_mut());
            assert_eq!(request(layout, cylinder, side, 5, 0xFB, &contents, image, &mut plan), 0);
            (0..stores).for_each(|_| assert_eq!(step(&mut plan, 0xFB, &contents, image), 0));
        };
        let name = &format!("rewrite, layout {layout}");
        let rattle: Rewrite = (station::request, station::step);
        let rust: Rewrite = (reference::rewrite::request, reference::rewrite::step);
        let idle: Rewrite = (|_, _, _, _, _, _, _, _| 0, |_, _, _, _| 0);
        Case { name, drive: &drive, rattle, rust, idle }.report(with_time);
    }
}

/// The five steps of a rewrite in MFM that go over all the contents: four store the EDC's cells, the last the byte behind the block.
fn edc_steps(with_time: bool) {
    let rng = &mut Rng::new(8);
    for track in EACH.into_iter().filter(|&track| track != FM) {
        let Track { layout, cylinder, side } = track;
        let contents = rng.bytes(track.layout().size);
        let (mut image, ..) = track.plain(rng);
        let mut plan = [0; 4];
        assert_eq!(station::request(layout, cylinder, side, 5, 0xFB, &contents, &image, &mut plan), 0);
        // the byte behind the block is looked at with its first data cell 0, as 4E has it: only then the EDC's last bit counts
        plan[2] = 2 * contents.len() as u32 + 1;
        let image = RefCell::new(&mut image); // one for all calls
        let drive = |step: Step| {
            let mut plan = plan;
            (0..5).for_each(|_| assert_eq!(step(&mut plan, 0xFB, &contents, &mut image.borrow_mut()), 0));
        };
        let name = &format!("edc steps, layout {layout}");
        let (rattle, rust): (Step, Step) = (station::step, reference::rewrite::step);
        Case { name, drive: &drive, rattle, rust, idle: |_, _, _, _| 0 }.report(with_time);
    }
}
