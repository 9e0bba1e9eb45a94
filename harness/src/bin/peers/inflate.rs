//! Unpacks zlib's format (RFC 1950, RFC 1951), in which the peer's own container keeps each track.

struct Bits<'a> {
    bytes: &'a [u8],
    /// How many bits have been taken, the lowest of each byte first.
    taken: usize,
}

impl Bits<'_> {
    fn bit(&mut self) -> Result<usize, String> {
        let byte = self.bytes.get(self.taken / 8).ok_or("packed track cut short")?;
        let bit = byte >> (self.taken % 8) & 1;
        self.taken += 1;
        Ok(usize::from(bit))
    }

    /// A number, its lowest bit first.
    fn number(&mut self, bits: u8) -> Result<usize, String> {
        (0..bits).try_fold(0, |number, place| Ok(number | self.bit()? << place))
    }
}

/// A Huffman code: how many words there are of each length, and the symbols by word.
struct Code {
    counts: [usize; 16],
    symbols: Vec<usize>,
}

impl Code {
    fn new(lengths: &[u8]) -> Code {
        let mut counts = [0; 16];
        lengths.iter().for_each(|&length| counts[usize::from(length)] += 1);
        counts[0] = 0;
        let mut symbols: Vec<usize> = (0..lengths.len()).filter(|&symbol| lengths[symbol] > 0).collect();
        symbols.sort_by_key(|&symbol| lengths[symbol]); // stable: by symbol where the length is the same
        Code { counts, symbols }
    }

    fn symbol(&self, bits: &mut Bits) -> Result<usize, String> {
        let (mut word, mut first, mut index) = (0, 0, 0);
        for count in &self.counts[1..] {
            word |= bits.bit()?;
            if word < first + count {
                return Ok(self.symbols[index + word - first]);
            }
            index += count;
            first = (first + count) << 1;
            word <<= 1;
        }
        Err("no such word in a packed track".into())
    }
}

/// The bytes that are packed in a zlib stream, whose sum at the end has to be right.
pub fn unpacked(stream: &[u8]) -> Result<Vec<u8>, String> {
    let mut bits = Bits { bytes: stream, taken: 16 };
    let mut bytes = Vec::new();
    loop {
        let is_last = bits.bit()? == 1;
        match bits.number(2)? {
            0 => stored(&mut bits, &mut bytes)?,
            1 => {
                let literals = [[8; 144].as_slice(), &[9; 112], &[7; 24], &[8; 8]].concat();
                block(&mut bits, &Code::new(&literals), &Code::new(&[5; 30]), &mut bytes)?;
            }
            2 => {
                let (literals, distances) = own_codes(&mut bits)?;
                block(&mut bits, &literals, &distances, &mut bytes)?;
            }
            _ => return Err("no such block in a packed track".into()),
        }
        if is_last {
            break;
        }
    }
    let at = (bits.taken + 7) / 8;
    let sum = stream.get(at..at + 4).ok_or("packed track cut short")?;
    if adler(&bytes).to_be_bytes() != *sum {
        return Err("a packed track's sum is wrong".into());
    }
    Ok(bytes)
}

fn stored(bits: &mut Bits, bytes: &mut Vec<u8>) -> Result<(), String> {
    bits.taken = (bits.taken + 7) / 8 * 8;
    let length = bits.number(16)?;
    bits.number(16)?;
    for _ in 0..length {
        bytes.push(bits.number(8)? as u8);
    }
    Ok(())
}

/// The codes that a block brings with it.
fn own_codes(bits: &mut Bits) -> Result<(Code, Code), String> {
    const ORDER: [usize; 19] = [16, 17, 18, 0, 8, 7, 9, 6, 10, 5, 11, 4, 12, 3, 13, 2, 14, 1, 15];
    let (literals, distances, words) = (257 + bits.number(5)?, 1 + bits.number(5)?, 4 + bits.number(4)?);
    let mut lengths = [0; 19];
    for &place in &ORDER[..words] {
        lengths[place] = bits.number(3)? as u8;
    }
    let code = Code::new(&lengths);
    let mut lengths: Vec<u8> = Vec::new();
    while lengths.len() < literals + distances {
        let (length, times) = match code.symbol(bits)? {
            16 => (*lengths.last().ok_or("nothing to repeat in a packed track")?, 3 + bits.number(2)?),
            17 => (0, 3 + bits.number(3)?),
            18 => (0, 11 + bits.number(7)?),
            length => (length as u8, 1),
        };
        lengths.extend(vec![length; times]);
    }
    Ok((Code::new(&lengths[..literals]), Code::new(&lengths[literals..])))
}

fn block(bits: &mut Bits, literals: &Code, distances: &Code, bytes: &mut Vec<u8>) -> Result<(), String> {
    loop {
        let symbol = literals.symbol(bits)?;
        match symbol {
            0..=255 => bytes.push(symbol as u8),
            256 => return Ok(()),
            _ => {
                let length = 3 + match symbol - 257 {
                    28 => 255,
                    step => stepped(bits, step, 4)?,
                };
                let step = distances.symbol(bits)?;
                let distance = 1 + stepped(bits, step, 2)?;
                let from = bytes.len().checked_sub(distance).ok_or("a packed track looks back too far")?;
                (from..from + length).for_each(|at| bytes.push(bytes[at]));
            }
        }
    }
}

/// A length or distance from its symbol: after the first two groups of `group` symbols each group has a bit more.
fn stepped(bits: &mut Bits, step: usize, group: usize) -> Result<usize, String> {
    if step < 2 * group {
        return Ok(step);
    }
    let more = step / group - 1;
    Ok(((group + step % group) << more) + bits.number(more as u8)?)
}

fn adler(bytes: &[u8]) -> u32 {
    let (low, high) = bytes.iter().fold((1, 0), |(low, high), &byte| {
        let low = (low + u32::from(byte)) % 65_521;
        (low, (high + low) % 65_521)
    });
    high << 16 | low
}
