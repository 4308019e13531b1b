//! Refusals: a number and a position.

use std::fmt;

pub const FILE_SHORT: u8 = 1;
pub const IDENTIFIER: u8 = 2;
pub const VERSION: u8 = 3;
pub const FORM: u8 = 4;
pub const ORDER: u8 = 5;
pub const SCRIPT: u8 = 6;
pub const RECORDINGS: u8 = 7;
pub const SPACES: u8 = 8;
pub const CODE: u8 = 9;
pub const SIZE: u8 = 10;
pub const MULTIPLIER: u8 = 11;
pub const SERIAL: u8 = 12;
pub const VALUE: u8 = 13;
pub const DISAGREEMENT: u8 = 14;
pub const PADDING: u8 = 15;
pub const BYTES_AFTER: u8 = 16;
pub const OUTPUT_SHORT: u8 = 17;
pub const MAKER: u8 = 18;
pub const QUESTION: u8 = 19;

#[derive(Clone, Copy, Debug, PartialEq, Eq, PartialOrd, Ord)]
pub struct Refusal {
    pub number: u8,
    pub at: usize,
}

impl Refusal {
    pub const fn new(number: u8, at: usize) -> Refusal {
        Refusal { number, at }
    }
}

impl fmt::Display for Refusal {
    /// The form of an answer line; `listing` has its own.
    fn fmt(&self, out: &mut fmt::Formatter<'_>) -> fmt::Result {
        write!(out, "refused {} {}", self.number, self.at)
    }
}

/// Refuses with `number` at `at` unless the test passed.
pub fn require(passed: bool, number: u8, at: usize) -> Result<(), Refusal> {
    if passed {
        Ok(())
    } else {
        Err(Refusal::new(number, at))
    }
}

/// An output of `room` must hold `needed`; the refusal's position is the length needed.
pub fn require_room(room: u64, needed: usize) -> Result<(), Refusal> {
    require(room >= needed as u64, OUTPUT_SHORT, needed)
}
