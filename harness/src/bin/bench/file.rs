//! The file of a whole cartridge, and a small one.
use super::measure::Case;
use harness::files::{pairs, Contents};
use harness::reference::file::{self, Reader, Writer};
use harness::rng::Rng;
use harness::station::{self, Sections};
use harness::tracks::{Track, MFM};
use std::cell::RefCell;

/// Each with its name: all tracks of a cartridge in the layout with the longest sectors, every one of them read, and none of
/// them, so that next to nothing is copied; and two tracks of which every third sector was not.
fn cases() -> [(&'static str, Contents); 3] {
    let rng = &mut Rng::new(9);
    let takes = |cylinder, side| if cylinder == 0 { side } else { 3 };
    let tracks = pairs().into_iter().map(|(cylinder, side)| Track { layout: takes(cylinder, side), cylinder, side });
    let tracks: Vec<Track> = tracks.collect();
    let (whole, unread) = (Contents::all(rng, &tracks, 1), Contents::all(rng, &tracks, 21));
    let mixed = [1, 2, 26].into_iter().cycle().take(2 * 26).collect();
    let small = Contents::answered(rng, &[Track { side: 0, ..MFM }, MFM], mixed);
    let label = b"LATHE 3, AXIS TABLE";
    [
        ("150 tracks", whole.labelled(label)),
        ("150 tracks, no data", unread.labelled(label)),
        ("2 tracks", small.labelled(label)),
    ]
}

/// Into an area just as long as the file. The reference copies by the C library's function, which on some processors moves
/// all bytes by one instruction that counts once for each: there the time says more than the instructions.
pub fn write(with_time: bool) {
    for (name, Contents { label, tracks, answers, data }) in cases() {
        let length = 4 * 4 + label.len() + tracks.len() + answers.len() + data.len();
        let area = RefCell::new(vec![0; length]); // one for all calls
        let drive = |f: Writer| {
            assert_eq!(f(&label, &tracks, &answers, &data, &mut area.borrow_mut(), &mut [0]), 0);
        };
        let name = &format!("file_write, {name}");
        let (rattle, rust): (Writer, Writer) = (station::file_write, file::write);
        Case { name, drive: &drive, rattle, rust, idle: |_, _, _, _, _, _| 0 }.report(with_time);
    }
}

pub fn read(with_time: bool) {
    for (name, contents) in cases() {
        let file = contents.file();
        let drive = |f: Reader| assert_eq!(f(&file, &mut Sections::default()), 0);
        let name = &format!("file_read, {name}");
        let (rattle, rust): (Reader, Reader) = (station::file_read, file::read);
        Case { name, drive: &drive, rattle, rust, idle: |_, _| 0 }.report(with_time);
    }
}
