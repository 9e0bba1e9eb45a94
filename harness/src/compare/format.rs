//! Calls of a formatter, and how the two sides are held against each other on one of them.
use super::{among_others, difference};
use crate::reference::format::format;
use crate::rng::Rng;
use crate::station;
use crate::tally::met::Row;
use crate::tally::Tally;
use crate::tracks::{letters, Track};
use std::fmt;

/// All that is handed to a formatter.
#[derive(Clone)]
pub struct Call {
    pub track: Track,
    pub data: Vec<u8>,
    pub marks: Vec<u8>,
    pub image: Vec<u8>,
}

impl Call {
    /// Random contents that the track may hold, of the layout's lengths, and an image full of anything.
    pub fn new(rng: &mut Rng, track: Track) -> Call {
        let (data, marks) = letters::contents(rng, track);
        Call { track, data, marks, image: rng.bytes(track.layout().image_bytes()) }
    }

    /// On cylinder 0 a control mark may stand only before the letter D.
    pub fn with_letter_d(mut self) -> Call {
        let size = self.track.layout().size;
        for (bytes, &mark) in self.data.chunks_mut(size).zip(&self.marks) {
            if self.track.cylinder == 0 && mark == 0xF8 {
                bytes[0] = 0x44;
            }
        }
        self
    }
}

impl fmt::Debug for Call {
    fn fmt(&self, f: &mut fmt::Formatter) -> fmt::Result {
        let (data, count, image) = (self.data.len(), self.marks.len(), self.image.len());
        write!(f, "{:?}, image of {image} bytes, ", self.track)?;
        write!(f, "{data} data bytes, {count} marks {:02X?}", self.marks)
    }
}

/// Holds the two sides against each other on one call, and hands back their answer. Everything around what is lent has
/// to stay as it is, data and marks too, and in a refused call the image.
pub fn compare(tally: &mut Tally, rng: &mut Rng, call: &Call) -> u8 {
    let Track { layout, cylinder, side } = call.track;
    let (image, part) = among_others(rng, &call.image);

    let mut expected = image.clone();
    let number = format(layout, cylinder, side, &call.data, &call.marks, &mut expected[part.clone()]);
    assert!(number == 0 || expected == image, "reference: refused by {number}, but the image changed: {call:?}");

    let (data, data_part) = among_others(rng, &call.data);
    let (marks, marks_part) = among_others(rng, &call.marks);
    let (lent_data, lent_marks, mut found) = (data.clone(), marks.clone(), image);
    let (data_part, marks_part) = (&lent_data[data_part], &lent_marks[marks_part]);
    let answer = station::format(layout, cylinder, side, data_part, marks_part, &mut found[part.clone()]);
    assert_eq!(answer, number, "answer and the reference's: {call:?}");
    assert!(found == expected, "{}, where the image is {part:?}: {call:?}", difference(&found, &expected));
    assert!(lent_data == data && lent_marks == marks, "data or marks changed: {call:?}");
    tally.input();
    tally.met(Row::Format, number);
    number
}
