//! The two spellings of the identifier that a file begins with.

/// Which identifier a file begins with. Turning and rewriting keep it.
#[derive(Clone, Copy, Debug, PartialEq, Eq, Hash)]
pub enum Spelling {
    /// JSSR-SPG, as the standard has it; the number is 0.
    Spg,
    /// JSSR-PSG, by the society's abbreviation; the number is 1.
    Psg,
}

impl Spelling {
    /// The spelling that a number names, if it names one.
    pub const fn from_number(number: u32) -> Option<Spelling> {
        match number {
            0 => Some(Spelling::Spg),
            1 => Some(Spelling::Psg),
            _ => None,
        }
    }

    /// The number, as the library answers it.
    pub const fn number(self) -> u32 {
        match self {
            Spelling::Spg => 0,
            Spelling::Psg => 1,
        }
    }

    /// The first eight bytes of a file.
    pub const fn identifier(self) -> &'static [u8; 8] {
        match self {
            Spelling::Spg => b"JSSR-SPG",
            Spelling::Psg => b"JSSR-PSG",
        }
    }
}
