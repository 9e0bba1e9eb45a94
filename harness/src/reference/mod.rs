//! The papers' rules once more in Rust: written from documents 01 and 02 and ISO 7065-2 ("004"), not from the Rattle
//! code.
pub mod annex;
pub mod clocks;
pub mod coding;
pub mod dump;
pub mod edc;
pub mod file;
pub mod flux;
pub mod flux_track;
pub mod format;
pub mod layouts;
pub mod marks;
pub mod pick;
pub mod plain;
pub mod plain_clocks;
pub mod plain_file;
pub mod plain_flux;
pub mod read;
pub mod records;
pub mod rewrite;
mod search;
pub mod stores;
mod walk;
