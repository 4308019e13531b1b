//! Buffers lent to a call, with marks, and what the call came to.

use crate::refused;
use second::header::MOST_RECORDINGS;
use second::index::ENTRY_NUMBERS;
use second::lines::{counted, joined, listed, written};
use second::overview::{EPOCH_NUMBERS, EPOCH_SECONDS};
use second::record::{frame, frames, MOST_MULTIPLIER};
use second::refusal::Refusal;
use second::table::ROW_NUMBERS;
use std::fmt::Display;

/// What a call came to.
#[derive(Debug, PartialEq, Eq)]
pub struct Answer {
    /// The values in the corpus' form, or the refusal.
    pub values: Result<String, Refusal>,
    /// The first place of the lent buffer that was written though the answer does not say so.
    pub stray: Option<usize>,
}

/// What stands in a buffer before a call, by place, so that a value moved from elsewhere in it shows.
fn mark<T: From<u8>>(at: usize) -> T {
    T::from((at * 31 + 7) as u8)
}

pub fn marked<T: From<u8>>(length: usize) -> Vec<T> {
    (0..length).map(mark).collect()
}

/// What a call that writes floats answers; they are lent by their bits, so that these are compared and not the floats.
pub fn by_bits<R>(bits: &mut [u32], call: impl FnOnce(&mut [f32]) -> R) -> R {
    let mut floats: Vec<f32> = bits.iter().copied().map(f32::from_bits).collect();
    let answer = call(&mut floats);
    for (bits, float) in bits.iter_mut().zip(floats) {
        *bits = float.to_bits();
    }
    answer
}

/// Room that no answer takes: padding may make each recording's canonical form longer, twice by less than a multiplier.
const SPARE: usize = 2 * MOST_RECORDINGS * MOST_MULTIPLIER as usize;

/// The most numbers that an overview has for each byte of a file, which has a head at least for each of its frames.
const NUMBERS_A_BYTE: usize =
    EPOCH_NUMBERS * (frames::MOST_SECONDS as usize / EPOCH_SECONDS as usize) / frame::SAMPLES;

/// Room beyond the numbers of an overview.
const BEYOND: usize = 9;

pub struct Lent<T> {
    pub buffer: Vec<T>,
}

impl<T: From<u8> + PartialEq> Lent<T> {
    /// As much room as is asked for, but no more than the answer can depend on.
    pub fn new(file: &[u8], room: u64) -> Lent<T> {
        Lent::up_to(file.len() + SPARE, room)
    }

    /// The same for a run: a channel has fewer samples than the file has bytes.
    pub fn for_run(file: &[u8], room: u64) -> Lent<T> {
        Lent::up_to(file.len(), room)
    }

    /// The same for the index: it has fewer entries than the file has bytes.
    pub fn for_index(file: &[u8], room: u64) -> Lent<T> {
        Lent::up_to(ENTRY_NUMBERS * file.len(), room)
    }

    /// The same for an overview of so many epochs: no more than they need and than the file can have, and some.
    pub fn for_epochs(file: &[u8], number: usize, room: u64) -> Lent<T> {
        let most = number.saturating_mul(EPOCH_NUMBERS);
        Lent::up_to(most.min(NUMBERS_A_BYTE * file.len()) + BEYOND, room)
    }

    fn up_to(most: usize, room: u64) -> Lent<T> {
        let room = usize::try_from(room).map_or(most, |room| room.min(most));
        Lent {
            buffer: marked(room),
        }
    }

    /// What the call came to, if it answered with so many values at the buffer's start.
    fn answer(
        &self,
        count: Result<usize, psg::Refusal>,
        values: impl Fn(&[T]) -> String,
    ) -> Answer {
        let from = count.unwrap_or(0);
        Answer {
            values: refused(count).map(|count| values(&self.buffer[..count])),
            stray: (from..self.buffer.len()).find(|&at| self.buffer[at] != mark(at)),
        }
    }
}

impl<T: Display + From<u8> + PartialEq> Lent<T> {
    /// What a call that writes samples came to.
    pub fn numbers(&self, count: Result<usize, psg::Refusal>) -> Answer {
        self.answer(count, joined)
    }
}

impl Lent<i64> {
    /// What `table` came to.
    pub fn listed(&self, rows: Result<usize, psg::Refusal>) -> Answer {
        self.answer(rows.map(|rows| ROW_NUMBERS * rows), |numbers| {
            listed(numbers.len() / ROW_NUMBERS, numbers.iter())
        })
    }

    /// What `index` came to.
    pub fn indexed(&self, entries: Result<usize, psg::Refusal>) -> Answer {
        self.counted(entries, ENTRY_NUMBERS)
    }

    /// What `overview_range` came to.
    pub fn overviewed(&self, epochs: Result<usize, psg::Refusal>) -> Answer {
        self.counted(epochs, EPOCH_NUMBERS)
    }

    /// What a call came to that writes so many numbers for each that it counts.
    fn counted(&self, count: Result<usize, psg::Refusal>, each: usize) -> Answer {
        self.answer(count.map(|count| each * count), |numbers| {
            counted(numbers.len() / each, numbers)
        })
    }
}

impl Lent<u8> {
    /// What a call that writes bytes came to.
    pub fn written(&self, length: Result<usize, psg::Refusal>) -> Answer {
        self.answer(length, written)
    }
}
