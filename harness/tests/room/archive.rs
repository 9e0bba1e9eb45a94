//! The sections of the objects in an archive: what a program that links it takes into its memory. Archive and objects are
//! little-endian ELF for x86-64, as rt writes them on every machine.

/// A section that a program loads.
pub struct Section {
    pub name: String,
    pub kind: Kind,
    /// Its length, also where the file has no bytes of it.
    pub size: usize,
    pub bytes: Vec<u8>,
}

#[derive(Clone, Copy, Debug, PartialEq, Eq)]
pub enum Kind {
    Code,
    /// Constants, the tables of jumps among them.
    Constant,
    /// What a debugger or an unwinder reads, and the program itself does not.
    Unwinding,
    Writable,
}

/// The number of as many bytes at a place.
fn number(bytes: &[u8], at: usize, width: usize) -> usize {
    bytes[at..at + width].iter().rev().fold(0, |number, &byte| number << 8 | usize::from(byte))
}

/// The loaded sections of all objects.
pub fn sections(archive: &[u8]) -> Vec<Section> {
    const MAGIC: &[u8] = b"!<arch>\n";
    const HEADER: usize = 60;
    assert!(archive.starts_with(MAGIC), "not an archive");
    let (mut sections, mut at) = (Vec::new(), MAGIC.len());
    while at < archive.len() {
        let header = std::str::from_utf8(&archive[at..at + HEADER]).expect("a member's header");
        let size: usize = header[48..58].trim().parse().expect("a member's size");
        let member = &archive[at + HEADER..at + HEADER + size];
        // the archive's own index of symbols and list of names are no objects
        if !header.starts_with('/') || header[1..].starts_with(|c: char| c.is_ascii_digit()) {
            sections.extend(of_object(member));
        }
        at += HEADER + size + size % 2;
    }
    sections
}

fn of_object(object: &[u8]) -> Vec<Section> {
    assert!(object.starts_with(b"\x7FELF\x02\x01"), "not a 64-bit little-endian object");
    let (table, width, count) = (number(object, 0x28, 8), number(object, 0x3A, 2), number(object, 0x3C, 2));
    let header = |index: usize| &object[table + index * width..][..width];
    let names = number(header(number(object, 0x3E, 2)), 0x18, 8);
    (0..count).filter_map(|index| section(object, header(index), names)).collect()
}

/// A section by its header, if a program loads it.
fn section(object: &[u8], header: &[u8], names: usize) -> Option<Section> {
    const NO_BITS: usize = 8;
    let [write, load, execute] = [1, 2, 4].map(|flag| number(header, 0x08, 8) & flag != 0);
    let name = object[names + number(header, 0x00, 4)..].iter().take_while(|&&byte| byte != 0);
    let name: String = name.map(|&byte| char::from(byte)).collect();
    let kind = match name.as_str() {
        _ if write => Kind::Writable,
        _ if execute => Kind::Code,
        ".eh_frame" => Kind::Unwinding,
        _ => Kind::Constant,
    };
    let (from, size) = (number(header, 0x18, 8), number(header, 0x20, 8));
    let bytes = if number(header, 0x04, 4) == NO_BITS { vec![] } else { object[from..from + size].to_vec() };
    load.then_some(Section { name, kind, size, bytes })
}
