//! A track put together field by field, or cell by cell where no field would do.
use super::damage::image_of;
use super::Track;
use crate::reference::coding::{code, Mode};
use crate::reference::edc::edc;
use crate::reference::marks::{FM, MFM};

#[derive(Clone, Copy, Debug, PartialEq, Eq)]
pub enum Kind {
    Index,
    Identifier,
    Data,
    Control,
    Open,
}

pub use Kind::*;

impl Kind {
    /// The mark's image bytes.
    pub fn image(self, mode: Mode) -> &'static [u8] {
        match (mode, self) {
            (Mode::Fm, Index) => &FM.index.image,
            (Mode::Fm, Identifier) => &FM.identifier.image,
            (Mode::Fm, Data) => &FM.data.image,
            (Mode::Fm, Control) => &FM.control.image,
            (Mode::Fm, Open) => &FM.open.image,
            (Mode::Mfm, Index) => &MFM.index.image,
            (Mode::Mfm, Identifier) => &MFM.identifier.image,
            (Mode::Mfm, Data) => &MFM.data.image,
            (Mode::Mfm, Control) => &MFM.control.image,
            (Mode::Mfm, Open) => &MFM.open.image,
        }
    }
}

/// The cells of image bytes.
pub fn cells_of(image: &[u8]) -> Vec<bool> {
    image.iter().flat_map(|octet| (0..8).map(move |cell| octet << cell & 0x80 != 0)).collect()
}

/// The bytes in the data cells.
pub fn bytes_of(cells: &[bool]) -> Vec<u8> {
    let byte = |cells: &[bool]| cells.chunks(2).fold(0, |byte, cells| byte << 1 | u8::from(cells[1]));
    cells.chunks_exact(16).map(byte).collect()
}

#[derive(Clone)]
pub struct Sketch {
    pub track: Track,
    pub cells: Vec<bool>,
    /// Where the last mark begins.
    mark: usize,
    /// Where the data, control and open marks begin.
    pub blocks: Vec<usize>,
}

impl Sketch {
    /// A track without a cell.
    pub fn new(track: Track) -> Sketch {
        Sketch { track, cells: Vec::new(), mark: 0, blocks: Vec::new() }
    }

    /// Cells 0, so that the fields behind them stand elsewhere.
    pub fn blank(mut self, cells: usize) -> Self {
        self.cells.extend(vec![false; cells]);
        self
    }

    /// Image bytes as they are, whatever they stand for.
    pub fn octets(mut self, octets: &[u8]) -> Self {
        self.cells.extend(cells_of(octets));
        self
    }

    /// Bytes, coded after the last data cell.
    pub fn bytes(mut self, bytes: &[u8]) -> Self {
        let mode = self.track.mode();
        for &byte in bytes {
            let before = self.cells.last().copied().unwrap_or(false);
            let cells = code(mode, before, byte);
            self.cells.extend((0..16).rev().map(|cell| cells >> cell & 1 == 1));
        }
        self
    }

    /// As many bytes of a gap.
    pub fn gap(self, bytes: usize) -> Self {
        let gap = if self.track.mode() == Mode::Fm { 0xFF } else { 0x4E };
        self.bytes(&vec![gap; bytes])
    }

    /// The (00)-bytes before a mark.
    pub fn zeros(self) -> Self {
        let zeros = if self.track.mode() == Mode::Fm { 6 } else { 12 };
        self.bytes(&vec![0x00; zeros])
    }

    pub fn mark(mut self, kind: Kind) -> Self {
        self.mark = self.cells.len();
        if [Data, Control, Open].contains(&kind) {
            self.blocks.push(self.mark);
        }
        let mode = self.track.mode();
        self.octets(kind.image(mode))
    }

    /// A mark that begins among the last cells, which are as its first ones.
    pub fn overlapping(mut self, cells: usize, kind: Kind) -> Self {
        let last = self.cells.split_off(self.cells.len() - cells);
        let sketch = self.mark(kind);
        assert_eq!(sketch.cells[sketch.mark..][..cells], last, "the last {cells} cells");
        sketch
    }

    /// The EDC of the last mark and all after it, as a number.
    fn right_edc(&self) -> u16 {
        edc(&bytes_of(&self.cells[self.mark..]))
    }

    /// The EDC of the last mark and all after it, as cells.
    pub fn edc(self) -> Self {
        let edc = self.right_edc();
        self.bytes(&edc.to_be_bytes())
    }

    /// The same with its last bit wrong.
    pub fn wrong_edc(self) -> Self {
        let edc = self.right_edc() ^ 1;
        self.bytes(&edc.to_be_bytes())
    }

    /// A mark, bytes and their EDC.
    pub fn field(self, kind: Kind, bytes: &[u8]) -> Self {
        self.mark(kind).bytes(bytes).edc()
    }

    /// The identifier of a sector of this track, from its (00)-bytes on.
    pub fn identifier(self, sector: u8) -> Self {
        let address = self.track.address(sector);
        self.zeros().field(Identifier, &address)
    }

    /// The block of a sector, from its (00)-bytes on.
    pub fn block(self, kind: Kind, sector: u8) -> Self {
        let bytes = contents(self.track, sector);
        self.zeros().field(kind, &bytes)
    }

    /// Identifier, gap and block of a sector.
    pub fn sector(self, sector: u8) -> Self {
        self.identifier(sector).gap(11).block(Data, sector).gap(8)
    }

    /// Turns a cell over, counted back from the last, which is 1.
    pub fn turned(mut self, back: usize) -> Self {
        let at = self.cells.len() - back;
        self.cells[at] ^= true;
        self
    }

    /// Takes the last cells away.
    pub fn without(mut self, cells: usize) -> Self {
        self.cells.truncate(self.cells.len() - cells);
        self
    }

    /// The image. Its last byte is filled up with cells 0.
    pub fn image(&self) -> Vec<u8> {
        image_of(&self.cells)
    }
}

/// Data bytes of a sector, other ones for each.
pub fn contents(track: Track, sector: u8) -> Vec<u8> {
    (0..track.layout().size).map(|at| (at * at / 7 + at * usize::from(sector)) as u8 ^ 0x5A).collect()
}
