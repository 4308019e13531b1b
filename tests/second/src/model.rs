//! What an accepted file holds: its reading, with the position of every part.

use crate::bytes::Order;
use crate::header::{Form, Header, Spelling, Version};
use crate::record::{frames, Format, Kind, Rate, HEAD};
use std::rc::Rc;

/// A record as its head has it; `length` already counts the multiplier.
#[derive(Clone, Copy, Debug, PartialEq, Eq)]
pub struct Record {
    pub kind: Kind,
    pub at: usize,
    pub length: usize,
    pub code: i32,
    pub serial: i32,
    pub multiplier: i32,
}

impl Record {
    pub fn end(&self) -> usize {
        self.at + self.length
    }
}

/// A part of the file: a text, or the samples of a channel.
#[derive(Clone, Copy, Debug, PartialEq, Eq)]
pub struct Span {
    pub at: usize,
    pub length: usize,
}

#[derive(Clone, Debug)]
pub struct Model {
    pub spelling: Spelling,
    pub version: Version,
    pub form: Form,
    pub order: Order,
    pub script: u8,
    pub recordings: Vec<Recording>,
    /// Every record with a head, by position: the rows of the table.
    pub records: Vec<Record>,
}

impl Model {
    pub fn header(&self) -> Header {
        Header {
            spelling: self.spelling,
            version: self.version,
            form: self.form,
            order: self.order,
            script: self.script,
            recordings: self.recordings.len(),
        }
    }

    pub fn first_maker(&self) -> Option<&Record> {
        self.records.iter().find(|r| r.kind == Kind::Maker)
    }
}

#[derive(Clone, Debug)]
pub struct Recording {
    pub record: Record,
    pub overview: Overview,
    /// The 120 or 320 that holds here: its own, or the nearest earlier one.
    pub channels: Rc<Vec<Channel>>,
    /// The 130 that holds here.
    pub patient: Rc<Vec<Item>>,
    /// Empty too when the recording has no 200: that one is not inherited.
    pub events: Vec<Item>,
    /// Empty when the recording has no 350: that one is not inherited either.
    pub montage: Vec<Sub>,
    pub block: FrameBlock,
    /// The records it holds, makers' records and the delimiter included.
    pub parts: Vec<Record>,
}

impl Recording {
    /// Its bytes without the padding of frames, of 140 and after the delimiter.
    pub fn content(&self) -> u64 {
        let lengths = self.parts.iter().map(|part| match part.kind {
            Kind::Frames => self.block.content(),
            _ => part.length,
        });
        (HEAD + lengths.sum::<usize>()) as u64
    }
}

/// 100.
#[derive(Clone, Copy, Debug, PartialEq, Eq)]
pub struct Overview {
    pub at: usize,
    pub channels: i32,
    pub frames: i32,
    /// Year, month and day; all zero when not recorded.
    pub date: [i32; 3],
    /// Hour, minute and second.
    pub time: [i32; 3],
    pub time_text: Span,
    pub mains: i32,
    pub comment: Span,
}

/// 125, 325 or 355: the fields as they stand.
#[derive(Clone, Copy, Debug, PartialEq, Eq)]
pub struct Sub {
    pub at: usize,
    pub number: i32,
    pub flags: i32,
    pub channel_type: i32,
    pub format: i32,
    pub rate: i32,
    pub calibration: Calibration,
    /// 0 for an electrode, which has none.
    pub calibration_frequency: i32,
    pub filter_low: i32,
    pub filter_high: i32,
    /// 0 for an electrode, which has none.
    pub sensitivity: i32,
    /// G1 and G2, of a montage channel alone.
    pub leads: Option<[i32; 2]>,
    pub label: Span,
    pub unit: Span,
    pub comment: Span,
}

/// 125 or 325, with what its format and rate mean.
#[derive(Clone, Copy, Debug, PartialEq, Eq)]
pub struct Channel {
    pub sub: Sub,
    pub format: Format,
    pub rate: Rate,
}

impl Channel {
    /// The channel of a sub, if its fields pass.
    pub fn new(sub: Sub) -> Option<Channel> {
        Some(Channel {
            sub,
            format: Format::from_number(sub.format)?,
            rate: Rate::from_fields(sub.flags, sub.channel_type, sub.rate)?,
        })
    }
}

/// CAL, CAL AD, Offset AD and Offset CAL; floats as their bits.
#[derive(Clone, Copy, Debug, PartialEq, Eq)]
pub enum Calibration {
    Whole([i32; 4]),
    Float([u32; 4]),
}

/// One item of a 130 or a 200.
#[derive(Clone, Copy, Debug, PartialEq, Eq)]
pub struct Item {
    pub at: usize,
    pub code: i32,
    pub text: Span,
}

impl Item {
    pub fn end(&self) -> usize {
        self.text.at + self.text.length
    }
}

/// 140.
#[derive(Clone, Debug)]
pub struct FrameBlock {
    pub record: Record,
    pub seconds: i32,
    pub frame_length: usize,
    /// Where each channel's samples stand in every frame.
    pub slots: Vec<Slot>,
    /// A frame's bytes without its padding.
    pub frame_content: usize,
    pub frames: Vec<Frame>,
}

impl FrameBlock {
    /// Its bytes without any padding.
    pub fn content(&self) -> usize {
        frames::FIRST + self.frames.len() * self.frame_content
    }
}

/// The place of one channel in a frame.
#[derive(Clone, Copy, Debug, PartialEq, Eq)]
pub struct Slot {
    pub format: Format,
    pub count: u64,
    /// From the frame's start to the channel's first sample.
    pub offset: u64,
}

impl Slot {
    pub fn bytes(&self) -> u64 {
        self.count * self.format.width() as u64
    }
}

/// 145.
#[derive(Clone, Copy, Debug, PartialEq, Eq)]
pub struct Frame {
    pub record: Record,
    /// Hour, minute and second.
    pub clock: [u16; 3],
}

impl Frame {
    /// The samples of one channel in this frame.
    pub fn samples(&self, slot: &Slot) -> Span {
        Span {
            at: self.record.at + slot.offset as usize,
            length: slot.bytes() as usize,
        }
    }
}

/// One sample; a float as its bits.
#[derive(Clone, Copy, Debug, PartialEq, Eq)]
pub enum Sample {
    Whole(i32),
    Float(u32),
}
