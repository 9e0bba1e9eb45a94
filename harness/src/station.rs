//! The functions that the Rattle crate `station` exports, as every program in Rust has them.
#[path = "../../include/station.rs"]
mod declared;

pub use declared::*;
