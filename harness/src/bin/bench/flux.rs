//! Whole tracks as a board captures them.
use super::measure::Case;
use harness::captures::{Capture, Turn};
use harness::reference::flux::{self, Flux};
use harness::rng::Rng;
use harness::station::{self, FluxResult};
use harness::tracks::{Track, MFM};
use std::cell::RefCell;

/// Each with its name: a track of the layout with the smallest sectors, all of one byte as on a new disk, captured nominally
/// and with jitter and drift; and one of the layout with the longest, full of random bytes.
fn cases() -> [(&'static str, Track, Capture); 3] {
    let rng = &mut Rng::new(10);
    let longest = Track { layout: 3, ..MFM };
    let nominal = Turn::nominal(500, u32::MAX - 1_000_000);
    let real = Turn { jitter: 35, drift: 30, ..nominal };
    let formatted = |track: Track, data: &[u8]| track.formatted(data, &vec![0xFB; track.layout().sectors]);
    let image = formatted(MFM, &vec![0xE5; MFM.layout().area_bytes()]);
    let noise = formatted(longest, &rng.bytes(longest.layout().area_bytes()));
    [
        ("layout 1", MFM, nominal.capture(rng, &image)),
        ("layout 1, jitter", MFM, real.capture(rng, &image)),
        ("layout 3, noise", longest, real.capture(rng, &noise)),
    ]
}

/// Into an image as long as the track's.
pub fn flux(with_time: bool) {
    for (name, track, Capture { ticks, stamps }) in cases() {
        let image = RefCell::new(vec![0; track.layout().image_bytes()]); // one for all calls
        let drive = |f: Flux| {
            assert_eq!(f(ticks, &stamps, &mut image.borrow_mut(), &mut FluxResult::default()), 0);
        };
        let name = &format!("flux, {name}");
        let (rattle, rust): (Flux, Flux) = (station::flux, flux::flux);
        let case = Case { name, drive: &drive, rattle, rust, idle: |_, _, _, _| 0 };
        case.report_each(with_time, stamps.len() - 1, "interval");
    }
}
