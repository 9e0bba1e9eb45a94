//! Runs of bytes whose EDC is kept: around each number of whole words, with a single bit at each end of a word, and the
//! fields of a track.
use harness::rng::Rng;

pub fn all() -> Vec<Vec<u8>> {
    let rng = &mut Rng::new(20);
    let mut runs = vec![b"123456789".to_vec()];
    // every length up to three words and a byte
    runs.extend((0..=25).map(|length| rng.bytes(length)));
    // one bit, the first or the last of a byte, with words and single bytes before and behind it
    for length in [7, 8, 9, 16, 19] {
        for at in (0..length).filter(|at| at % 8 == 0 || at % 8 == 7 || at + 1 == length) {
            for bit in [0x80, 0x01] {
                let mut run = vec![0x00; length];
                run[at] = bit;
                runs.push(run);
            }
        }
    }
    // an address and a block of layout 1, an address of layout 0: each behind its mark
    let mark = |byte| [0xA1, 0xA1, 0xA1, byte].to_vec();
    runs.push([mark(0xFE), vec![5, 1, 26, 1]].concat());
    runs.push([mark(0xFB), rng.bytes(256)].concat());
    runs.push(vec![0xFE, 0, 0, 26, 0]);
    runs
}
