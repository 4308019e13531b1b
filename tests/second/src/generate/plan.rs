//! The plan of a file: everything that a rule judges. What no rule judges
//! (texts, reserve, samples, makers' bodies) is drawn when the plan is written.

use crate::bytes::Order;
use crate::header::{self, Form, Spelling, Version};
use crate::record::{channel, channels, frame, frames, items, overview};
use crate::record::{Format, Kind, Rate, HEAD};

pub struct FilePlan {
    pub spelling: Spelling,
    pub version: Version,
    pub form: Form,
    pub order: Order,
    pub script: u8,
    pub digits: [u8; header::RECORDINGS_LENGTH],
    /// All reserve areas are zero.
    pub tidy: bool,
    pub recordings: Vec<RecordingPlan>,
}

#[derive(Clone)]
pub struct RecordingPlan {
    pub multiplier: i32,
    pub parts: Vec<PartPlan>,
    /// What stands after the delimiter.
    pub tail: Vec<u8>,
}

#[derive(Clone)]
pub enum PartPlan {
    Overview(OverviewPlan),
    Channels(ChannelsPlan),
    Items(ItemsPlan),
    Montage(MontagePlan),
    Frames(FramesPlan),
    Maker(MakerPlan),
    Delimiter,
}

#[derive(Clone)]
pub struct OverviewPlan {
    pub channels: i32,
    pub frames: i32,
    pub date: [i32; 3],
    pub time: [i32; 3],
    pub mains: i32,
}

#[derive(Clone)]
pub struct ChannelsPlan {
    /// `Kind::Channels` or `Kind::Electrodes`.
    pub kind: Kind,
    pub count: i32,
    pub channels: Vec<ChannelPlan>,
}

#[derive(Clone)]
pub struct ChannelPlan {
    pub flags: i32,
    pub channel_type: i32,
    pub format: Format,
    pub rate: i32,
}

#[derive(Clone)]
pub struct ItemsPlan {
    /// `Kind::Patient` or `Kind::Events`.
    pub kind: Kind,
    pub count: i32,
    pub items: Vec<ItemPlan>,
    /// Bytes after the last item; none in a valid file.
    pub leftover: usize,
}

#[derive(Clone)]
pub struct ItemPlan {
    pub code: i32,
    pub text: usize,
}

#[derive(Clone)]
pub struct MontagePlan {
    pub count: i32,
    /// G1 and G2 of each montage channel.
    pub leads: Vec<[i32; 2]>,
}

#[derive(Clone)]
pub struct FramesPlan {
    pub multiplier: i32,
    pub seconds: i32,
    pub count: i32,
    pub frame_length: usize,
    /// The samples of each channel, the same in every frame.
    pub samples: Vec<SamplesPlan>,
    pub frames: Vec<FramePlan>,
    pub tail: Vec<u8>,
}

#[derive(Clone, Copy)]
pub struct SamplesPlan {
    pub format: Format,
    pub count: usize,
    /// Whether they are codes of events, that often stay for a while.
    pub codes: bool,
}

#[derive(Clone)]
pub struct FramePlan {
    pub multiplier: i32,
    pub clock: [i32; 3],
    /// The padding; the frame's samples are cut to make room for it.
    pub tail: Vec<u8>,
}

#[derive(Clone)]
pub struct MakerPlan {
    pub code: i32,
    pub serial: i32,
    pub multiplier: i32,
    pub length: usize,
}

impl FilePlan {
    pub fn length(&self) -> usize {
        let lengths = self.recordings.iter().map(RecordingPlan::length);
        header::LENGTH + lengths.sum::<usize>()
    }
}

impl RecordingPlan {
    pub fn content(&self) -> usize {
        HEAD + self.parts.iter().map(PartPlan::length).sum::<usize>()
    }

    pub fn length(&self) -> usize {
        self.content() + self.tail.len()
    }

    /// Gives the recording the padding that its multiplier asks for.
    pub fn settle(&mut self) {
        self.tail = natural_tail(self.content(), self.multiplier);
    }

    pub fn overview(&mut self) -> Option<&mut OverviewPlan> {
        self.parts.iter_mut().find_map(|part| match part {
            PartPlan::Overview(overview) => Some(overview),
            _ => None,
        })
    }

    pub fn channels(&mut self) -> Option<&mut ChannelsPlan> {
        self.parts.iter_mut().find_map(|part| match part {
            PartPlan::Channels(channels) => Some(channels),
            _ => None,
        })
    }

    pub fn items(&mut self, kind: Kind) -> Option<&mut ItemsPlan> {
        self.parts.iter_mut().find_map(|part| match part {
            PartPlan::Items(items) if items.kind == kind => Some(items),
            _ => None,
        })
    }

    pub fn montage(&mut self) -> Option<&mut MontagePlan> {
        self.parts.iter_mut().find_map(|part| match part {
            PartPlan::Montage(montage) => Some(montage),
            _ => None,
        })
    }

    pub fn frames(&mut self) -> Option<&mut FramesPlan> {
        self.parts.iter_mut().find_map(|part| match part {
            PartPlan::Frames(frames) => Some(frames),
            _ => None,
        })
    }
}

impl PartPlan {
    pub fn length(&self) -> usize {
        match self {
            PartPlan::Overview(_) => overview::LENGTH,
            PartPlan::Channels(plan) => list_length(plan.channels.len()),
            PartPlan::Montage(plan) => list_length(plan.leads.len()),
            PartPlan::Items(plan) => plan.length(),
            PartPlan::Frames(plan) => plan.content() + plan.tail.len(),
            PartPlan::Maker(plan) => plan.length,
            PartPlan::Delimiter => HEAD,
        }
    }
}

/// The length of a list of so many subs.
fn list_length(subs: usize) -> usize {
    channels::FIRST + channel::LENGTH * subs
}

impl ItemsPlan {
    fn length(&self) -> usize {
        let lengths = self.items.iter().map(|item| items::ITEM_HEAD + item.text);
        items::FIRST + lengths.sum::<usize>() + self.leftover
    }
}

impl FramesPlan {
    pub fn frame_content(&self) -> usize {
        let bytes = self
            .samples
            .iter()
            .map(|samples| samples.format.width() * samples.count);
        frame::SAMPLES + bytes.sum::<usize>()
    }

    pub fn content(&self) -> usize {
        frames::FIRST + self.frame_length * self.frames.len()
    }

    pub fn settle(&mut self) {
        self.tail = natural_tail(self.content(), self.multiplier);
    }
}

impl ChannelPlan {
    /// Samples in a frame of `seconds`, if its fields allow such a frame.
    pub fn samples(&self, seconds: i32) -> Option<u64> {
        Rate::from_fields(self.flags, self.channel_type, self.rate)?.samples(seconds as u64)
    }
}

/// Zero bytes up to the next multiple of the multiplier.
fn natural_tail(content: usize, multiplier: i32) -> Vec<u8> {
    let times = multiplier.max(1) as usize;
    vec![0; content.next_multiple_of(times) - content]
}
