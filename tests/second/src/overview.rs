//! The thirty-second overview (request 14 of document 02): the smallest and the largest sample of a channel of whole
//! numbers, and how many there are, epoch by epoch. Epochs are asked for from 0. Seconds are counted in 128 bits, which
//! hold the start of any epoch.

use crate::bytes::Order;
use crate::judge::judge;
use crate::model::{Frame, FrameBlock, Model, Slot};
use crate::questions::{slot_of, OUTSIDE};
use crate::refusal::{require_room, Refusal};

/// The seconds of an epoch.
pub const EPOCH_SECONDS: u64 = 30;

/// The numbers of an epoch in a range: smallest, largest, count.
pub const EPOCH_NUMBERS: usize = 3;

/// The samples of an epoch that has some.
#[derive(Clone, Copy, Debug, PartialEq, Eq)]
pub struct Envelope {
    pub smallest: i64,
    pub largest: i64,
    pub count: u64,
}

impl Envelope {
    pub fn numbers(self) -> [i64; EPOCH_NUMBERS] {
        [self.smallest, self.largest, self.count as i64]
    }
}

/// So many epochs of a channel, from the first one on.
#[derive(Clone, Copy, Debug, PartialEq, Eq)]
pub struct Epochs {
    pub recording: u64,
    pub channel: u64,
    pub first: u64,
    pub number: u64,
}

/// The samples of the frames that start in the epoch; nothing where no frame does, or the channel has no samples.
pub fn overview(
    file: &[u8],
    recording: u64,
    channel: u64,
    epoch: u64,
) -> Result<Option<Envelope>, Refusal> {
    let model = judge(file)?;
    let channel = Whole::of(&model, file, recording, channel)?;
    let epoch = u128::from(epoch);
    if start(epoch) >= channel.end() {
        return Err(OUTSIDE);
    }
    Ok(channel.envelope(epoch))
}

/// The numbers of each epoch, 0 where one is empty, if `room` numbers hold them.
pub fn overview_range(file: &[u8], epochs: Epochs, room: u64) -> Result<Vec<i64>, Refusal> {
    let model = judge(file)?;
    let channel = Whole::of(&model, file, epochs.recording, epochs.channel)?;
    let [first, number] = [epochs.first, epochs.number].map(u128::from);
    let inside = match number {
        // Where no epoch is asked for, the first may also start where the recording ends.
        0 => start(first) <= channel.end(),
        _ => start(first + number - 1) < channel.end(),
    };
    if !inside {
        return Err(OUTSIDE);
    }
    require_room(room, EPOCH_NUMBERS * number as usize)?;
    let epochs = (first..first + number).map(|epoch| channel.envelope(epoch));
    let numbers = epochs.flat_map(|samples| samples.map_or([0; EPOCH_NUMBERS], Envelope::numbers));
    Ok(numbers.collect())
}

/// The seconds of all frames of a recording.
pub fn end_of(block: &FrameBlock) -> u64 {
    block.frames.len() as u64 * block.seconds as u64
}

/// How many epochs start before its end.
pub fn epochs_of(block: &FrameBlock) -> u64 {
    end_of(block).div_ceil(EPOCH_SECONDS)
}

/// The second at which an epoch starts.
fn start(epoch: u128) -> u128 {
    u128::from(EPOCH_SECONDS) * epoch
}

/// A channel of whole numbers in the frames of a recording.
struct Whole<'a> {
    file: &'a [u8],
    order: Order,
    block: &'a FrameBlock,
    slot: &'a Slot,
}

impl<'a> Whole<'a> {
    /// Floats are outside, samples or none.
    fn of(
        model: &'a Model,
        file: &'a [u8],
        recording: u64,
        channel: u64,
    ) -> Result<Whole<'a>, Refusal> {
        let (block, slot) = slot_of(model, recording, channel)?;
        if slot.format.is_float() {
            return Err(OUTSIDE);
        }
        Ok(Whole {
            file,
            order: model.order,
            block,
            slot,
        })
    }

    fn seconds(&self) -> u128 {
        self.block.seconds as u128
    }

    fn end(&self) -> u128 {
        end_of(self.block).into()
    }

    fn envelope(&self, epoch: u128) -> Option<Envelope> {
        let [first, end] = [epoch, epoch + 1].map(|epoch| self.before(start(epoch)));
        let frames = self.block.frames[first..end].iter();
        let samples: Vec<i64> = frames.flat_map(|frame| self.samples(frame)).collect();
        Some(Envelope {
            smallest: *samples.iter().min()?,
            largest: *samples.iter().max()?,
            count: samples.len() as u64,
        })
    }

    /// How many frames start before so many seconds: the one behind n others starts at n times T.
    fn before(&self, seconds: u128) -> usize {
        let frames = seconds.div_ceil(self.seconds());
        frames.min(self.block.frames.len() as u128) as usize
    }

    fn samples(&self, frame: &Frame) -> impl Iterator<Item = i64> + '_ {
        let (span, width) = (frame.samples(self.slot), self.slot.format.width());
        let places = (span.at..span.at + span.length).step_by(width);
        places.map(move |at| i64::from(self.order.signed_at(self.file, at, width)))
    }
}
