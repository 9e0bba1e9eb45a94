//! Rewrites, and how the two sides are held against each other on one of them.
use super::read::Outcome;
use super::{among_others, difference, read_back};
use crate::reference::plain_clocks::of_block;
use crate::reference::records::{at, doubtful};
use crate::reference::rewrite::{self, Plan, Request};
use crate::reference::stores::stores;
use crate::rng::Rng;
use crate::station;
use crate::tally::met::Row;
use crate::tally::Tally;
use crate::tracks::{letters, Track};
use std::fmt;
use std::ops::Range;

/// All that is handed over for a rewrite, but the plan.
#[derive(Clone)]
pub struct Call {
    pub track: Track,
    pub sector: u32,
    pub mark: u32,
    pub contents: Vec<u8>,
    pub image: Vec<u8>,
}

impl Call {
    /// Either mark and random contents, as the track may hold them.
    pub fn new(rng: &mut Rng, track: Track, sector: usize, image: &[u8]) -> Call {
        let (mark, contents) = letters::record(rng, track);
        Call { track, sector: sector as u32, mark: mark.into(), contents, image: image.to_vec() }
    }

    /// The same sector of the same image with other contents, perhaps after the other mark.
    pub fn other(&self, rng: &mut Rng) -> Call {
        Call::new(rng, self.track, self.sector as usize, &self.image)
    }

    /// What comes of the request on one side: number and plan, which held something else before.
    pub fn asked(&self, rng: &mut Rng, request: Request) -> (u8, Plan) {
        let Track { layout, cylinder, side } = self.track;
        let (contents, contents_part) = among_others(rng, &self.contents);
        let (image, part) = among_others(rng, &self.image);
        let lent = (contents.clone(), image.clone());
        let mut plan = [0; 4].map(|_: u32| rng.bits() as u32 | 1);
        let (bytes, octets) = (&lent.0[contents_part], &lent.1[part]);
        let number = request(layout, cylinder, side, self.sector, self.mark, bytes, octets, &mut plan);
        assert!(lent == (contents, image), "contents or image changed by a request: {self:?}");
        (number, plan)
    }

    /// Holds the two sides against each other on the request.
    pub fn request(&self, tally: &mut Tally, rng: &mut Rng) -> (u8, Plan) {
        let expected = self.asked(rng, rewrite::request);
        assert_eq!(self.asked(rng, station::request), expected, "number and plan of the request: {self:?}");
        tally.met(Row::Request, expected.0);
        expected
    }

    /// The plan of a request that both sides have to accept.
    pub fn plan(&self, tally: &mut Tally, rng: &mut Rng) -> Plan {
        let (number, plan) = self.request(tally, rng);
        assert_eq!(number, 0, "refusal of the request: {self:?}");
        plan
    }

    /// The whole rewrite after an accepted request, by both sides and by the list of stores, which have to agree on the
    /// image and the plan after each step. `cut` gets each number of stores and the image with them. Hands back the
    /// last image.
    pub fn rewritten(
        &self,
        tally: &mut Tally,
        rng: &mut Rng,
        plan: Plan,
        mut cut: impl FnMut(usize, &[u8]),
    ) -> Vec<u8> {
        let [layout, place, _, all] = plan;
        let stores = stores(self.track.layout, &self.image, place as usize, self.mark, &self.contents);
        assert_eq!(plan, [self.track.layout, place, 0, stores.len() as u32], "the plan: {self:?}");
        let (mut sides, mut listed, mut now) = (Sides::new(rng, &self.image), self.image.clone(), plan);
        cut(0, &listed);
        for (made, (at, octet)) in (1..).zip(stores) {
            assert_eq!(sides.step(tally, &mut now, self.mark, &self.contents), 0, "step {made}: {self:?}");
            listed[at] = octet;
            sides.agree(&listed);
            assert_eq!(now, [layout, place, made, all], "the plan after step {made}: {self:?}");
            cut(made as usize, &listed);
        }
        assert_eq!(sides.step(tally, &mut now, self.mark, &self.contents), 12, "a step after the last: {self:?}");
        sides.agree(&listed);
        listed
    }

    /// The whole rewrite by the library alone.
    pub fn done(&self) -> Vec<u8> {
        let Track { layout, cylinder, side } = self.track;
        let (mut plan, mut image) = ([0; 4], self.image.clone());
        let number =
            station::request(layout, cylinder, side, self.sector, self.mark, &self.contents, &image, &mut plan);
        assert_eq!(number, 0, "refusal of the request: {self:?}");
        for made in 0..plan[3] {
            let number = station::step(&mut plan, self.mark, &self.contents, &mut image);
            assert_eq!(number, 0, "after {made} stores: {self:?}");
        }
        image
    }

    /// What the library reads before the first store of a plan, which has to note the place in the sector's record.
    pub fn before(&self, plan: Plan) -> Outcome {
        let before = Outcome::of_image(self.track, &self.image);
        assert_eq!(before.reading.records[self.sector as usize - 1].place, plan[1], "the noted place: {self:?}");
        before
    }

    /// What has to be read after some stores of `all`, if before the first of them `before` was, and they left this image:
    /// every other sector as it was, with its place and its doubtful clocks, and the named one at its old place too. At the
    /// end none of its clocks is doubtful; on the way they are what they are, since the new mark does not stand there yet.
    pub fn expected(&self, before: &Outcome, made: usize, all: usize, image: &[u8]) -> Outcome {
        let mut after = before.clone();
        let (index, size) = (self.sector as usize - 1, self.contents.len());
        let (place, slot) = (before.reading.records[index].place as usize, &mut after.area[index * size..][..size]);
        if made == all {
            let (answer, bytes) = read_back(self.track.cylinder, self.mark, &self.contents);
            after.reading.records[index] = at(answer, place);
            slot.copy_from_slice(&bytes);
        } else if made > 0 {
            after.reading.records[index] = doubtful(25, place, of_block(self.track.layout(), image, place));
            slot.fill(0);
        }
        after
    }
}

impl fmt::Debug for Call {
    fn fmt(&self, f: &mut fmt::Formatter) -> fmt::Result {
        let Call { track, sector, mark, contents, image } = self;
        write!(f, "{track:?}, sector {sector}, mark {mark:02X}, {} data bytes, ", contents.len())?;
        write!(f, "image of {} bytes", image.len())?;
        if image.len() <= 4_096 {
            write!(f, ": ")?;
            image.iter().try_for_each(|octet| write!(f, "{octet:02X}"))?;
        }
        Ok(())
    }
}

/// An image in the hands of both sides, among other bytes.
pub struct Sides {
    ours: Vec<u8>,
    reference: Vec<u8>,
    part: Range<usize>,
}

impl Sides {
    pub fn new(rng: &mut Rng, image: &[u8]) -> Sides {
        let (ours, part) = among_others(rng, image);
        Sides { reference: ours.clone(), ours, part }
    }

    pub fn image(&self) -> &[u8] {
        &self.reference[self.part.clone()]
    }

    /// Changes the image on both sides, as if somebody else wrote to it.
    pub fn change(&mut self, mut write: impl FnMut(&mut [u8])) {
        write(&mut self.ours[self.part.clone()]);
        write(&mut self.reference[self.part.clone()]);
    }

    /// A step on both sides, which have to agree on number, plan and image. A refused one has to leave the plan as it
    /// was.
    pub fn step(&mut self, tally: &mut Tally, plan: &mut Plan, mark: u32, contents: &[u8]) -> u8 {
        let (before, mut expected) = (*plan, *plan);
        let number = rewrite::step(&mut expected, mark, contents, &mut self.reference[self.part.clone()]);
        let found = station::step(plan, mark, contents, &mut self.ours[self.part.clone()]);
        assert_eq!((found, *plan), (number, expected), "number and plan of a step from {before:?}");
        assert!(number == 0 || *plan == before, "refused by {number}, but the plan changed: {plan:?}");
        if !are_same(&self.ours, &self.reference) {
            panic!("{}, where the image is {:?}", difference(&self.ours, &self.reference), self.part);
        }
        tally.met(Row::Step, number);
        number
    }

    /// The image has to be this one.
    pub fn agree(&self, image: &[u8]) {
        assert!(are_same(self.image(), image), "{}", difference(self.image(), image));
    }
}

/// Whether bytes are the same: a word at a time, since under an emulator that is faster than what is made for vectors.
fn are_same(one: &[u8], other: &[u8]) -> bool {
    let (words, others) = (one.chunks_exact(8), other.chunks_exact(8));
    let (rest, other_rest) = (words.remainder(), others.remainder());
    let word = |octets: &[u8]| u64::from_ne_bytes(octets.try_into().expect("eight of them"));
    words.map(word).eq(others.map(word)) && rest == other_rest
}
