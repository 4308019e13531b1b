//! Questions about the header, and about one recording, channel, item, frame or
//! sample. Recordings, channels, items and frames are asked for from 1, samples
//! from 0; whatever is outside is refused with 19, after the file's own refusals.

use crate::bytes::Order;
use crate::header::Header;
use crate::judge::judge;
use crate::model::{Frame, FrameBlock, Item, Model, Sample, Slot, Sub};
use crate::record::Format;
use crate::refusal::{self, Refusal};

pub const OUTSIDE: Refusal = Refusal::new(refusal::QUESTION, 0);

/// The header's values. Nothing is outside its range.
pub fn header(file: &[u8]) -> Result<Header, Refusal> {
    Ok(judge(file)?.header())
}

/// A recording's M, F and T.
#[derive(Clone, Copy, Debug, PartialEq, Eq)]
pub struct Facts {
    pub channels: i32,
    pub frames: i32,
    pub seconds: i32,
}

pub fn facts(file: &[u8], recording: u64) -> Result<Facts, Refusal> {
    let model = judge(file)?;
    let recording = nth(&model.recordings, recording)?;
    Ok(Facts {
        channels: recording.overview.channels,
        frames: recording.overview.frames,
        seconds: recording.block.seconds,
    })
}

/// A channel, or an electrode, of the list that holds for the recording.
pub fn channel(file: &[u8], recording: u64, channel: u64) -> Result<Sub, Refusal> {
    let model = judge(file)?;
    let recording = nth(&model.recordings, recording)?;
    Ok(nth(&recording.channels, channel)?.sub)
}

/// How many montage channels the recording has: none without a 350.
pub fn montage_count(file: &[u8], recording: u64) -> Result<usize, Refusal> {
    let model = judge(file)?;
    Ok(nth(&model.recordings, recording)?.montage.len())
}

pub fn montage(file: &[u8], recording: u64, channel: u64) -> Result<Sub, Refusal> {
    let model = judge(file)?;
    let recording = nth(&model.recordings, recording)?;
    nth(&recording.montage, channel).copied()
}

/// An item of the 130 that holds for the recording.
pub fn patient_item(file: &[u8], recording: u64, item: u64) -> Result<Item, Refusal> {
    let model = judge(file)?;
    let recording = nth(&model.recordings, recording)?;
    nth(&recording.patient, item).copied()
}

pub fn event_item(file: &[u8], recording: u64, item: u64) -> Result<Item, Refusal> {
    let model = judge(file)?;
    let recording = nth(&model.recordings, recording)?;
    nth(&recording.events, item).copied()
}

/// A frame's hour, minute and second.
pub fn clock(file: &[u8], recording: u64, frame: u64) -> Result<[u16; 3], Refusal> {
    let model = judge(file)?;
    let recording = nth(&model.recordings, recording)?;
    Ok(nth(&recording.block.frames, frame)?.clock)
}

pub fn sample(
    file: &[u8],
    recording: u64,
    frame: u64,
    channel: u64,
    sample: u64,
) -> Result<Sample, Refusal> {
    let model = judge(file)?;
    let (frame, slot) = samples_of(&model, recording, frame, channel)?;
    if sample >= slot.count {
        return Err(OUTSIDE);
    }
    let at = frame.samples(slot).at + sample as usize * slot.format.width();
    Ok(sample_at(model.order, file, at, slot.format))
}

/// The sample at `at`, as its format has it.
pub fn sample_at(order: Order, file: &[u8], at: usize, format: Format) -> Sample {
    let value = order.signed_at(file, at, format.width());
    match format {
        Format::Float32 => Sample::Float(value as u32),
        _ => Sample::Whole(value),
    }
}

/// Where the samples of a channel stand in a frame.
pub fn samples_of(
    model: &Model,
    recording: u64,
    frame: u64,
    channel: u64,
) -> Result<(&Frame, &Slot), Refusal> {
    let (block, slot) = slot_of(model, recording, channel)?;
    Ok((nth(&block.frames, frame)?, slot))
}

/// The frames of a recording, and where the samples of a channel stand in each of them.
pub fn slot_of(
    model: &Model,
    recording: u64,
    channel: u64,
) -> Result<(&FrameBlock, &Slot), Refusal> {
    let block = &nth(&model.recordings, recording)?.block;
    Ok((block, nth(&block.slots, channel)?))
}

/// The entry asked for from 1.
fn nth<T>(list: &[T], number: u64) -> Result<&T, Refusal> {
    number
        .checked_sub(1)
        .and_then(|index| usize::try_from(index).ok())
        .and_then(|index| list.get(index))
        .ok_or(OUTSIDE)
}
