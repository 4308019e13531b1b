//! Refusals: document 01's number and the position, and what the number means in words.

use std::error::Error;
use std::fmt;

/// Why a call has no answer.
#[derive(Clone, Copy, Debug, PartialEq, Eq, Hash, PartialOrd, Ord)]
pub struct Refusal {
    /// Document 01's number, 1 to 19.
    pub number: u8,
    /// The position in the file; for 17 the length needed.
    pub position: usize,
}

impl Refusal {
    /// What document 01 says of the number.
    pub const fn meaning(&self) -> &'static str {
        match self.number {
            1 => "the file is under 32 bytes long",
            2 => "the file begins with neither JSSR-SPG nor JSSR-PSG",
            3 => "the version is none that is read: 000100, 000110, 000200 and 000300 are",
            4 => "the form is neither 00 nor 01, or not one of the version",
            5 => "the byte order is neither L nor B",
            6 => "the script letter is none of S, J, E and U, or not one of the version",
            7 => "the number of recordings is not 1 to 64",
            8 => "the header does not end in spaces",
            9 => "a record's code is not allowed here",
            10 => "a record has no room, or breaks a size rule",
            11 => "a multiplier is out of range, or not 0 where it has to be",
            12 => "a record has the wrong serial",
            13 => "a field is outside its stated values",
            14 => "a field disagrees with another",
            15 => "padding is not zero",
            16 => "bytes stand after the last recording",
            17 => "the buffer is too short; the position is the length needed",
            18 => "a maker's record stands in the way",
            19 => "the question is outside its range",
            _ => "not a number of document 01",
        }
    }
}

impl fmt::Display for Refusal {
    fn fmt(&self, out: &mut fmt::Formatter<'_>) -> fmt::Result {
        write!(
            out,
            "refused {} at {}: {}",
            self.number,
            self.position,
            self.meaning()
        )
    }
}

impl Error for Refusal {}
