//! The files that the peer takes: HXCMFM, which holds tracks as cells, and IMD, which holds sectors with their marks.
use crate::disks::{Disk, Written};
use harness::reference::coding::Mode;
use harness::reference::marks::DATA;

/// HXCMFM, numbers with the low byte first. The cells of a byte stand as in our images, the most significant bit first.
pub fn hxcmfm(disk: &Disk, tracks: &[Written]) -> Vec<u8> {
    const HEADER: usize = 19;
    const ENTRY: usize = 11;
    let (rpm, kilobits, interface) = (360_u16, 500_u16, 4);
    let mut file = b"HXCMFM\0".to_vec();
    file.extend((disk.cylinders as u16).to_le_bytes());
    file.push(disk.sides as u8);
    file.extend(rpm.to_le_bytes());
    file.extend(kilobits.to_le_bytes());
    file.push(interface);
    file.extend((HEADER as u32).to_le_bytes());

    let mut from = HEADER + ENTRY * tracks.len();
    for Written { place: (cylinder, side), image, .. } in tracks {
        file.extend((*cylinder as u16).to_le_bytes());
        file.push(*side as u8);
        file.extend((image.len() as u32).to_le_bytes());
        file.extend((from as u32).to_le_bytes());
        from += image.len();
    }
    tracks.iter().for_each(|written| file.extend(&written.image));
    file
}

/// The tracks of an HXCMFM file, as image bytes.
pub fn hxcmfm_tracks(file: &[u8]) -> Result<Vec<Vec<u8>>, String> {
    let bytes = |at: usize, count: usize| file.get(at..at + count).ok_or("HXCMFM file cut short");
    let number =
        |at, count| bytes(at, count).map(|of| of.iter().rev().fold(0, |sum, &byte| sum << 8 | usize::from(byte)));
    if bytes(0, 7)? != b"HXCMFM\0" {
        return Err("no HXCMFM file".into());
    }
    let (count, list) = (number(7, 2)? * number(9, 1)?, number(15, 4)?);
    let track = |entry| Ok(bytes(number(list + 11 * entry + 7, 4)?, number(list + 11 * entry + 3, 4)?)?.to_vec());
    (0..count).map(track).collect()
}

/// IMD: its sectors carry their mark, and its tracks the address that their identifiers are to hold.
pub fn imd(tracks: &[Written]) -> Vec<u8> {
    const OTHER_CYLINDER: u8 = 0x80;
    const OTHER_SIDE: u8 = 0x40;
    let mut file = b"IMD 1.18: 01/01/2000 00:00:00\r\n\x1A".to_vec();
    for Written { place: (cylinder, side), track, data, marks, .. } in tracks {
        let layout = track.layout();
        // 500 kbit/s in FM or MFM
        let mode = if layout.mode == Mode::Fm { 0 } else { 3 };
        let flags = OTHER_CYLINDER | OTHER_SIDE;
        file.extend([mode, *cylinder as u8, *side as u8 | flags, layout.sectors as u8, layout.fourth]);
        file.extend(1..=layout.sectors as u8);
        file.extend(vec![track.cylinder as u8; layout.sectors]);
        file.extend(vec![track.side as u8; layout.sectors]);
        for (bytes, mark) in data.chunks_exact(layout.size).zip(marks) {
            file.push(if *mark == DATA { 1 } else { 3 });
            file.extend(bytes);
        }
    }
    file
}
