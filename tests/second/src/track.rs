//! Where the samples of a channel stand in every frame of a recording, which the overview (request 14 of document 02)
//! needs to know: their place in frame 1, and how far it is from one frame to the next, the frame length that the 140
//! says.

use crate::bytes::Order;
use crate::judge::judge;
use crate::place::{place_in, Place};
use crate::questions::slot_of;
use crate::record::Format;
use crate::refusal::Refusal;

#[derive(Clone, Copy, Debug, PartialEq, Eq)]
pub struct Track {
    pub order: Order,
    pub format: Format,
    /// The place in frame 1.
    pub first: Place,
    /// The bytes from one frame's samples to the next frame's.
    pub step: u64,
    pub frames: u64,
    pub seconds: u64,
}

impl Track {
    /// The values in the corpus' form, the order as its letter.
    pub fn numbers(&self) -> [u64; 8] {
        [
            self.order.letter().into(),
            self.format.number() as u64,
            self.first.position,
            self.first.width,
            self.first.count,
            self.step,
            self.frames,
            self.seconds,
        ]
    }
}

pub fn track(file: &[u8], recording: u64, channel: u64) -> Result<Track, Refusal> {
    let model = judge(file)?;
    let (block, slot) = slot_of(&model, recording, channel)?;
    Ok(Track {
        order: model.order,
        format: slot.format,
        first: place_in(&block.frames[0], slot),
        step: block.frame_length as u64,
        frames: block.frames.len() as u64,
        seconds: block.seconds as u64,
    })
}
