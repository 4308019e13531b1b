//! The thirty-second overview of recordings in the JSSR PSG common format: the smallest and the largest sample of a
//! channel, and how many there are, epoch by epoch, by a proved library above the one of crate `psg`.
//!
//! Epochs are asked for from 0, recordings and channels from 1. An epoch has the frames that start in its thirty
//! seconds, counted from the start of the first frame: those whose number less one, times T, lies from 30 times the
//! epoch up to but not including 30 more. It is empty where no frame starts in it, or where the channel has no samples.
//!
//! Refusals, in order: the file's; 19 for a recording or a channel that is not there, for a channel of format 4, even
//! without samples, and for an epoch that starts at or after F times T; 17, of [`overview_range`] alone, with the
//! numbers needed. Each call of the library judges the file once.
//!
//! ```
//! use overview::Envelope;
//!
//! let file = std::fs::read("../../crates/listing/stdin").unwrap();
//! // One frame of one second, with one sample.
//! let whole = Envelope { smallest: 32767, largest: 32767, count: 1 };
//! assert_eq!(overview::overview(&file, 1, 1, 0)?, Some(whole));
//! assert_eq!(overview::epochs(&file, 1, 1)?, [Some(whole)]);
//! let behind = overview::overview(&file, 1, 1, 1).unwrap_err();
//! assert_eq!((behind.number, behind.position), (19, 0));
//! # Ok::<(), overview::Refusal>(())
//! ```

#![warn(missing_docs)]

mod calls;

pub use psg::Refusal;

/// The seconds of an epoch.
pub const SECONDS: usize = 30;

/// How many numbers an epoch has in a lent buffer: smallest, largest, count.
pub const NUMBERS: usize = 3;

/// The samples of an epoch that has some.
#[derive(Clone, Copy, Debug, PartialEq, Eq)]
pub struct Envelope {
    /// The smallest sample.
    pub smallest: i64,
    /// The largest sample.
    pub largest: i64,
    /// How many samples there are: 1 or more.
    pub count: usize,
}

impl Envelope {
    /// None where there are no samples.
    fn new(smallest: i64, largest: i64, count: usize) -> Option<Envelope> {
        (count > 0).then_some(Envelope {
            smallest,
            largest,
            count,
        })
    }
}

/// The samples of a channel in an epoch; nothing where it is empty.
pub fn overview(
    file: &[u8],
    recording: usize,
    channel: usize,
    epoch: usize,
) -> Result<Option<Envelope>, Refusal> {
    let found = calls::overview(file, recording, channel, epoch).answer()?;
    let count = found.count as usize;
    Ok(Envelope::new(found.smallest, found.largest, count))
}

/// Writes three numbers an epoch into `out` (smallest, largest, count), `number` epochs from the epoch `first` on: how
/// many. An empty epoch has 0 0 0. 0 epochs are none to write, and the first may then start at F times T as well; 17
/// has the numbers needed.
pub fn overview_range(
    file: &[u8],
    recording: usize,
    channel: usize,
    first: usize,
    number: usize,
    out: &mut [i64],
) -> Result<usize, Refusal> {
    let counted = calls::overview_range(file, recording, channel, first, number, out).answer()?;
    Ok(counted.count as usize)
}

/// All epochs of a recording, in a vector. A convenience of this crate and not a call of the library: how many there
/// are is worked out here, by what [`psg::track`] says of the recording, and the file is judged twice.
pub fn epochs(
    file: &[u8],
    recording: usize,
    channel: usize,
) -> Result<Vec<Option<Envelope>>, Refusal> {
    let track = psg::track(file, recording, channel)?;
    let seconds = track.frames as usize * track.seconds as usize;
    let number = seconds.div_ceil(SECONDS);
    let mut numbers = vec![0; NUMBERS * number];
    overview_range(file, recording, channel, 0, number, &mut numbers)?;
    let epochs = numbers.chunks_exact(NUMBERS);
    Ok(epochs
        .map(|epoch| Envelope::new(epoch[0], epoch[1], epoch[2] as usize))
        .collect())
}
