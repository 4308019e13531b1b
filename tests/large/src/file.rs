//! The file: the smallest one with samples, its one channel at a million samples a second, and its 140 with twenty
//! frames of a minute. It is not canonical: frames are padded, the multipliers are one larger than the smallest, and
//! the reserve of the 140 is not zero.

use std::fs::File;
use std::io::{self, Seek, SeekFrom, Write};

const SMALLEST: &[u8] = include_bytes!("../../../crates/listing/stdin");

/// Where the records stand in it, and where fields stand in them.
const RECORDING: u64 = 32;
const FRAMES_OF_BASIC: u64 = 48 + 24;
const RATE_OF_CHANNEL: u64 = 208 + 32;
const SIGNALS: u64 = 488;

const SECONDS: u32 = 60;
const RATE: u32 = 1_000_000;
const COUNT: u32 = 20;

/// The samples of a frame, of 16 bits.
pub const SAMPLES: usize = (SECONDS * RATE) as usize;
pub const WIDTH: usize = 2;

/// A frame's bytes up to its padding: head, clock, reserve, samples.
pub const BEFORE_SAMPLES: usize = 24;
const FILLED: u64 = (BEFORE_SAMPLES + WIDTH * SAMPLES) as u64;

/// The size and the multiplier of a record that holds so many bytes, and less than a multiplier of padding.
#[derive(Clone, Copy)]
pub struct Grouped {
    size: u32,
    multiplier: u32,
}

impl Grouped {
    fn holding(bytes: u64, multiplier: u32) -> Grouped {
        Grouped {
            size: bytes.div_ceil(multiplier.into()) as u32,
            multiplier,
        }
    }

    pub fn length(self) -> u64 {
        u64::from(self.size) * u64::from(self.multiplier)
    }

    fn head(self, code: u32, serial: u32) -> [u32; 4] {
        [self.size, code, serial, self.multiplier]
    }
}

fn frame() -> Grouped {
    Grouped::holding(FILLED, 7)
}

pub fn signals() -> Grouped {
    Grouped::holding(32 + u64::from(COUNT) * frame().length(), 3)
}

fn recording() -> Grouped {
    Grouped::holding(SIGNALS - RECORDING + signals().length() + 16, 3)
}

/// Where the frames stand.
pub fn frames() -> Vec<u64> {
    (0..u64::from(COUNT))
        .map(|before| SIGNALS + 32 + before * frame().length())
        .collect()
}

/// Writes it, with holes where it is zero.
pub fn make(path: &str) -> io::Result<()> {
    let mut file = File::create(path)?;
    file.write_all(&SMALLEST[..SIGNALS as usize])?;
    file.set_len(RECORDING + recording().length())?;
    let mut put = |at: u64, numbers: &[u32]| -> io::Result<()> {
        file.seek(SeekFrom::Start(at))?;
        numbers
            .iter()
            .try_for_each(|number| file.write_all(&number.to_le_bytes()))
    };
    put(RECORDING, &recording().head(10, 1))?;
    put(FRAMES_OF_BASIC, &[COUNT])?;
    put(RATE_OF_CHANNEL, &[RATE])?;
    put(SIGNALS, &signals().head(140, 0))?;
    let length = frame().length() as u32;
    put(SIGNALS + 16, &[SECONDS, length, COUNT, 0x5A5A5A5A])?;
    for (serial, at) in (1..).zip(frames()) {
        put(at, &frame().head(145, serial))?;
        // Some samples that are not zero, the last one among them.
        put(at + BEFORE_SAMPLES as u64, &[0x0201 * serial])?;
        put(at + FILLED - 4, &[0x0403 * serial])?;
    }
    Ok(())
}

/// The size and the multiplier of the 140 of a canonical form.
pub fn canonical_signals(file: &[u8]) -> (u32, u32) {
    let number = |at: usize| {
        let bytes: [u8; 4] = file[at..at + 4].try_into().expect("four bytes");
        match file[16] {
            b'B' => u32::from_be_bytes(bytes),
            _ => u32::from_le_bytes(bytes),
        }
    };
    (number(SIGNALS as usize), number(SIGNALS as usize + 12))
}
