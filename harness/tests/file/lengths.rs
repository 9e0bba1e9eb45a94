//! Slices whose lengths do not fit 32 bits: nothing but the count of a section has to. Their bytes are zeros that no
//! machine has to have in its memory as long as nobody looks at them, so they are not copied.
use harness::reference::file;
use harness::rng::Rng;
use harness::station::{self, Sections};
use harness::tally::met::Row;
use harness::tally::Tally;

/// The first length that 32 bits do not hold.
const RUN_OVER: usize = 1 << 32;

/// So many and a few more, if the machine gives them.
fn zeros() -> Option<Vec<u8>> {
    const LENGTH: usize = RUN_OVER + 1_024;
    Vec::<u8>::new().try_reserve_exact(LENGTH).ok()?;
    Some(vec![0; LENGTH])
}

fn read(tally: &mut Tally, file: &[u8], number: u8) {
    for reader in [file::read, station::file_read] {
        let mut sections = Sections { label_place: 99, data_count: 99, ..Sections::default() };
        assert_eq!(reader(file, &mut sections), number, "file of {} bytes", file.len());
        assert_eq!(sections, Sections::default(), "file of {} bytes", file.len());
    }
    tally.input();
    tally.met(Row::FileRead, number);
}

fn write(tally: &mut Tally, rng: &mut Rng, [label, tracks, answers, data]: [&[u8]; 4], number: u8) {
    let lengths = [label, tracks, answers, data].map(<[u8]>::len);
    for writer in [file::write, station::file_write] {
        let (mut area, mut length) = (rng.bytes(64), [99]);
        assert_eq!(writer(label, tracks, answers, data, &mut area, &mut length), number, "lengths {lengths:?}");
        assert_eq!((area, length), (vec![0; 64], [0]), "lengths {lengths:?}");
    }
    tally.input();
    tally.met(Row::FileWrite, number);
}

#[test]
fn lengths_above_32_bits() {
    let (mut rng, mut tally) = (Rng::new(100), Tally::new("file", "lengths that 32 bits do not hold"));
    let zeros = match zeros() {
        Some(zeros) => zeros,
        None => return tally.not_run("the machine has no room for so many zeros"),
    };
    for more in [0, 1, 4, 15, 16, 17, 100] {
        read(&mut tally, &zeros[..RUN_OVER + more], 35);
        write(&mut tally, &mut rng, [&zeros[..RUN_OVER + more], &[], &[], &[]], 32);
        // threes of bytes or not, and those of no track or one
        for length in [RUN_OVER - 1, RUN_OVER, RUN_OVER + 2, RUN_OVER + 3, RUN_OVER + 3 * more] {
            write(&mut tally, &mut rng, [&[], &zeros[..length], &[], &[]], 32);
        }
        write(&mut tally, &mut rng, [&[], &[], &zeros[..RUN_OVER + more], &[]], 33);
        write(&mut tally, &mut rng, [&[], &[], &[], &zeros[..RUN_OVER + more]], 34);
    }
    // the first track, with no sector read, or one
    let track = [0, 0, 0];
    write(&mut tally, &mut rng, [&[], &track, &zeros[..RUN_OVER + 26], &[]], 33);
    write(&mut tally, &mut rng, [&[], &track, &[21; 26], &zeros[..RUN_OVER]], 34);
    let one = [&[1][..], &[21; 25]].concat();
    write(&mut tally, &mut rng, [&[], &track, &one, &zeros[..RUN_OVER + 128]], 34);
    tally.report();
}
