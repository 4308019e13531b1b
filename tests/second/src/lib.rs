//! A second, independent reader of the JSSR PSG common format, versions 000100, 000110,
//! 000200 and 000300 (both forms, frame data, one file), written from document 01 and
//! requests 1, 2, 3, 4, 6, 7, 8, 9, 12 and 14 of document 02, and used to test another implementation.

pub mod ask;
pub mod bytes;
pub mod compare;
pub mod corpus;
pub mod fnv;
pub mod generate;
pub mod header;
pub mod index;
pub mod judge;
pub mod lines;
pub mod listing;
pub mod model;
pub mod overview;
pub mod place;
pub mod questions;
pub mod random;
pub mod record;
pub mod refusal;
pub mod rewrite;
pub mod run;
pub mod table;
pub mod teach;
pub mod track;
pub mod turn;

/// Positions and lengths are `usize`; a recording may exceed 32 bits.
const _: () = assert!(usize::BITS >= 64);
