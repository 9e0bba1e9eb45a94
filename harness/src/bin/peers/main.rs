//! Takes formatted tracks to a program that nobody here wrote, and its tracks back; bin/peers runs that program.
//! `peers make FOLDER` writes our disks, `peers compare FOLDER` looks at what the peer made of them.
mod compare;
mod containers;
mod disks;
mod inflate;
mod mfi;

use compare::Tracks;
use disks::{Disk, Written, DISKS};
use harness::reference::coding::Mode;
use std::error::Error;
use std::fs;
use std::path::{Path, PathBuf};

fn main() -> Result<(), Box<dyn Error>> {
    let words: Vec<String> = std::env::args().skip(1).collect();
    match words.iter().map(String::as_str).collect::<Vec<_>>()[..] {
        ["make", folder] => DISKS.iter().try_for_each(|disk| make(disk, Path::new(folder))),
        ["compare", folder] => {
            let mut is_equal = true;
            for disk in &DISKS {
                is_equal &= compared(disk, Path::new(folder))?;
            }
            if is_equal {
                Ok(())
            } else {
                Err("the peer and the library differ".into())
            }
        }
        _ => Err("usage: peers make FOLDER | peers compare FOLDER".into()),
    }
}

/// The disk as cells, as a flat image, and as sectors with their marks.
fn make(disk: &Disk, folder: &Path) -> Result<(), Box<dyn Error>> {
    let tracks = disk.tracks();
    fs::write(named(folder, disk, "mfm"), containers::hxcmfm(disk, &tracks))?;
    fs::write(named(folder, disk, "img"), disks::flat(&tracks))?;
    fs::write(named(folder, disk, "imd"), containers::imd(&tracks))?;
    Ok(())
}

fn named(folder: &Path, disk: &Disk, ending: &str) -> PathBuf {
    folder.join(format!("{}.{ending}", disk.format))
}

/// Prints what is equal; true if all is.
fn compared(disk: &Disk, folder: &Path) -> Result<bool, Box<dyn Error>> {
    let (written, mode) = (disk.tracks(), disk.layout().mode);
    let file = |ending| fs::read(named(folder, disk, ending)).map_err(|error| format!("{ending}: {error}"));
    let name = format!("layout {} ({})", disk.layout, disk.format);

    let count = compare::flat(disk, &written, &file("read.img")?);
    println!("{name}: {} of {} sectors equal", count.equal, count.all);
    let mut is_equal = count.is_full();

    // a flat image has no marks: the peer writes data marks only
    let plain: Vec<Written> = written.iter().map(Written::with_data_marks).collect();
    let from_flat = compare::tracks(disk, &plain, &mfi::tracks(&file("flat.mfi")?, mode)?, true);
    is_equal &= told(&format!("{name}, its tracks from a flat image"), &from_flat);
    is_equal &= from_flat.whole.is_full() || !disk.has_our_gaps;
    let cells = mfi::tracks(&file("imd.mfi")?, mode)?;
    is_equal &= told(&format!("{name}, its tracks from IMD"), &compare::tracks(disk, &written, &cells, false));
    if mode == Mode::Fm {
        // in MFM the peer's files of this kind lack half of the cells
        let images = containers::hxcmfm_tracks(&file("flat.mfm")?)?;
        let cells: Vec<_> = images.iter().map(|image| compare::unpacked(image)).collect();
        is_equal &= told(&format!("{name}, its tracks in HXCMFM"), &compare::tracks(disk, &plain, &cells, true));
    }
    Ok(is_equal)
}

fn told(name: &str, found: &Tracks) -> bool {
    let Tracks { read, stretches, blocks, whole } = found;
    print!("{name}: on {} tracks {} of {} sectors read, ", whole.all, read.equal, read.all);
    print!("{} of {} stretches equal, {} whole tracks", stretches.equal, stretches.all, whole.equal);
    if blocks.all > 0 {
        print!("; on the others {} of {} blocks equal", blocks.equal, blocks.all);
    }
    println!();
    read.is_full() && stretches.is_full() && blocks.equal == blocks.all
}
