//! The Rattle library `station` beside a second implementation of the same papers, so that tests, the long run and the
//! benchmark can hold one against the other.
pub mod captures;
pub mod compare;
pub mod files;
pub mod reference;
pub mod rng;
pub mod station;
pub mod tally;
pub mod tracks;
