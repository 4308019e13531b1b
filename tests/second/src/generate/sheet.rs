//! A plan written out as bytes, with the place of every field that a rule
//! judges, so that a damage can be put at a chosen place.

use super::codes::Codes;
use super::plan::{
    ChannelPlan, ChannelsPlan, FilePlan, FramePlan, FramesPlan, ItemsPlan, MakerPlan, MontagePlan,
    OverviewPlan, PartPlan, RecordingPlan, SamplesPlan,
};
use crate::bytes::Order;
use crate::header;
use crate::random::Random;
use crate::record::{self, channel, Kind, HEAD};

/// What a place holds.
#[derive(Clone, Copy, Debug, PartialEq, Eq, PartialOrd, Ord)]
pub enum Field {
    Size(Kind),
    Code(Kind),
    Serial(Kind),
    Multiplier(Kind),
    DataForm,
    ChannelCount,
    TotalFrames,
    Year,
    Month,
    Day,
    Hour,
    Minute,
    Second,
    Mains,
    SubCount(Kind),
    SubSize(Kind),
    ElectrodeCode,
    Flags(Kind),
    Type(Kind),
    Format(Kind),
    Rate(Kind),
    Lead1,
    Lead2,
    ItemCount(Kind),
    ItemSize(Kind),
    ItemCode(Kind),
    Seconds,
    FrameLength,
    FrameCount,
    ClockHour,
    ClockMinute,
    ClockSecond,
}

impl Field {
    pub fn in_head(self) -> bool {
        use Field::{Code, Multiplier, Serial, Size};
        matches!(self, Size(_) | Code(_) | Serial(_) | Multiplier(_))
    }
}

#[derive(Clone, Copy, Debug)]
pub struct Place {
    pub at: usize,
    pub width: usize,
    pub field: Field,
}

#[derive(Clone, Copy, Debug)]
pub struct RecordPlace {
    pub kind: Kind,
    pub at: usize,
    pub length: usize,
    pub parent_end: usize,
}

/// The numbers of a head, as they are planned.
struct Head {
    kind: Kind,
    code: i32,
    serial: i32,
    multiplier: i32,
    length: usize,
    parent_end: usize,
}

impl Head {
    /// The head of a record with the code of its kind, serial 0, multiplier 0.
    fn plain(kind: Kind, length: usize, parent_end: usize) -> Head {
        Head {
            kind,
            code: kind.rules().code,
            serial: 0,
            multiplier: 0,
            length,
            parent_end,
        }
    }

    fn size(&self) -> i32 {
        match self.kind {
            Kind::Delimiter => 0,
            _ => (self.length / self.multiplier.max(1) as usize) as i32,
        }
    }
}

/// The padding behind a record's content; `kind` is the record's.
#[derive(Clone, Copy, Debug)]
pub struct PaddingPlace {
    pub kind: Kind,
    pub at: usize,
    pub length: usize,
}

pub struct Sheet {
    pub order: Order,
    pub bytes: Vec<u8>,
    pub places: Vec<Place>,
    pub records: Vec<RecordPlace>,
    pub paddings: Vec<PaddingPlace>,
    tidy: bool,
    /// For each channel, should it be one of events: they go on from frame to frame and from recording to recording.
    codes: Vec<Codes>,
}

/// Writes the plan; what no rule judges is drawn on the way.
pub fn write(random: &mut Random, plan: &FilePlan) -> Sheet {
    let mut sheet = Sheet {
        order: plan.order,
        bytes: Vec::with_capacity(plan.length()),
        places: Vec::new(),
        records: Vec::new(),
        paddings: Vec::new(),
        tidy: plan.tidy,
        codes: Vec::new(),
    };
    sheet.header(plan);
    let end = plan.length();
    for (index, recording) in plan.recordings.iter().enumerate() {
        sheet.recording(random, recording, index as i32 + 1, end);
    }
    sheet
}

impl Sheet {
    pub fn get(&self, place: &Place) -> i32 {
        self.order.signed_at(&self.bytes, place.at, place.width)
    }

    pub fn set(&mut self, place: &Place, value: i32) {
        self.order
            .put(&mut self.bytes, place.at, place.width, value);
    }

    /// The record whose size field stands at `at`.
    pub fn record_at(&self, at: usize) -> &RecordPlace {
        let found = self.records.iter().find(|record| record.at == at);
        found.expect("a size field starts its record")
    }

    /// The place of a field that starts at `at`.
    pub fn place_at(&self, at: usize) -> Option<&Place> {
        self.places.iter().find(|place| place.at == at)
    }

    fn header(&mut self, plan: &FilePlan) {
        self.raw(plan.spelling.identifier());
        self.raw(plan.version.field());
        self.raw(plan.form.field());
        self.raw(&[plan.order.letter(), plan.script]);
        self.raw(&plan.digits);
        self.raw(&[b' '; header::LENGTH - header::SPACES_AT]);
    }

    fn raw(&mut self, bytes: &[u8]) {
        self.bytes.extend(bytes);
    }

    fn padding(&mut self, kind: Kind, tail: &[u8]) {
        self.paddings.push(PaddingPlace {
            kind,
            at: self.bytes.len(),
            length: tail.len(),
        });
        self.raw(tail);
    }

    fn put(&mut self, width: usize, value: i32) -> usize {
        let at = self.bytes.len();
        self.bytes.resize(at + width, 0);
        self.order.put(&mut self.bytes, at, width, value);
        at
    }

    /// A number no rule judges.
    fn number(&mut self, value: i32) {
        self.put(4, value);
    }

    fn field(&mut self, field: Field, value: i32) {
        let at = self.put(4, value);
        self.places.push(Place {
            at,
            width: 4,
            field,
        });
    }

    fn clock_field(&mut self, field: Field, value: i32) {
        let at = self.put(2, value);
        self.places.push(Place {
            at,
            width: 2,
            field,
        });
    }

    /// Text or reserve up to the offset `to` of the record at `at`.
    fn filler(&mut self, random: &mut Random, at: usize, to: usize) {
        let bytes = random.bytes(at + to - self.bytes.len());
        self.raw(&bytes);
    }

    fn zero_reserve(&mut self, at: usize, kind: Kind) {
        if self.tidy {
            for (offset, length) in kind.rules().reserve {
                self.bytes[at + offset..at + offset + length].fill(0);
            }
        }
    }

    fn head(&mut self, head: &Head) -> usize {
        let at = self.bytes.len();
        let kind = head.kind;
        self.records.push(RecordPlace {
            kind,
            at,
            length: head.length,
            parent_end: head.parent_end,
        });
        self.field(Field::Size(kind), head.size());
        self.field(Field::Code(kind), head.code);
        self.field(Field::Serial(kind), head.serial);
        self.field(Field::Multiplier(kind), head.multiplier);
        at
    }

    fn recording(&mut self, random: &mut Random, plan: &RecordingPlan, serial: i32, end: usize) {
        let at = self.head(&Head {
            serial,
            multiplier: plan.multiplier,
            ..Head::plain(Kind::Recording, plan.length(), end)
        });
        for part in &plan.parts {
            self.part(random, part, at + plan.length());
        }
        self.padding(Kind::Recording, &plan.tail);
    }

    fn part(&mut self, random: &mut Random, part: &PartPlan, end: usize) {
        let length = part.length();
        match part {
            PartPlan::Overview(plan) => self.overview(random, plan, end),
            PartPlan::Channels(plan) => self.channels(random, plan, length, end),
            PartPlan::Items(plan) => self.items(random, plan, length, end),
            PartPlan::Montage(plan) => self.montage(random, plan, length, end),
            PartPlan::Frames(plan) => self.frames(random, plan, length, end),
            PartPlan::Maker(plan) => self.maker(random, plan, end),
            PartPlan::Delimiter => {
                self.head(&Head::plain(Kind::Delimiter, HEAD, end));
            }
        }
    }

    fn overview(&mut self, random: &mut Random, plan: &OverviewPlan, end: usize) {
        use record::overview::{LENGTH, MAINS, YEAR};
        let at = self.head(&Head::plain(Kind::Overview, LENGTH, end));
        self.field(Field::DataForm, 1);
        self.field(Field::ChannelCount, plan.channels);
        self.field(Field::TotalFrames, plan.frames);
        self.filler(random, at, YEAR);
        let dates = [Field::Year, Field::Month, Field::Day];
        let times = [Field::Hour, Field::Minute, Field::Second];
        for (field, value) in dates.into_iter().zip(plan.date) {
            self.field(field, value);
        }
        for (field, value) in times.into_iter().zip(plan.time) {
            self.field(field, value);
        }
        self.filler(random, at, MAINS);
        self.field(Field::Mains, plan.mains);
        self.filler(random, at, LENGTH);
        self.zero_reserve(at, Kind::Overview);
    }

    fn channels(&mut self, random: &mut Random, plan: &ChannelsPlan, length: usize, end: usize) {
        let at = self.list(random, plan.kind, plan.count, length, end);
        for (serial, channel) in (1..).zip(&plan.channels) {
            let sub = self.sub(plan.kind, serial, at + length);
            self.channel(random, channel, &sub);
        }
        self.zero_reserve(at, plan.kind);
    }

    fn channel(&mut self, random: &mut Random, plan: &ChannelPlan, sub: &RecordPlace) {
        let kind = sub.kind;
        match kind {
            Kind::Electrode => self.field(Field::ElectrodeCode, electrode_code(random)),
            _ => self.number(random.bits()),
        }
        self.field(Field::Flags(kind), plan.flags);
        self.field(Field::Type(kind), plan.channel_type);
        self.field(Field::Format(kind), plan.format.number());
        self.field(Field::Rate(kind), plan.rate);
        self.numbers(random, sub.at, channel::NUMBERS_END);
        self.filler(random, sub.at, channel::LENGTH);
        self.zero_reserve(sub.at, kind);
    }

    fn montage(&mut self, random: &mut Random, plan: &MontagePlan, length: usize, end: usize) {
        let at = self.list(random, Kind::Montage, plan.count, length, end);
        for (serial, leads) in (1..).zip(&plan.leads) {
            let sub = self.sub(Kind::Montage, serial, at + length);
            self.montage_channel(random, *leads, &sub);
        }
        self.zero_reserve(at, Kind::Montage);
    }

    fn montage_channel(&mut self, random: &mut Random, leads: [i32; 2], sub: &RecordPlace) {
        self.numbers(random, sub.at, channel::FORMAT);
        let any = random.bits();
        // Whether the calibration is floats is the one thing that the format tells.
        self.number(random.pick(&[0, 1, 4, 4, any]));
        self.numbers(random, sub.at, channel::NUMBERS_END);
        self.filler(random, sub.at, channel::LEADS[0]);
        for (field, lead) in [Field::Lead1, Field::Lead2].into_iter().zip(leads) {
            self.field(field, lead);
        }
        self.filler(random, sub.at, channel::LENGTH);
        self.zero_reserve(sub.at, sub.kind);
    }

    /// The head of a list and its own fields; gives where it stands.
    fn list(
        &mut self,
        random: &mut Random,
        kind: Kind,
        count: i32,
        length: usize,
        end: usize,
    ) -> usize {
        let at = self.head(&Head::plain(kind, length, end));
        self.field(Field::SubCount(kind), count);
        self.field(Field::SubSize(kind), channel::LENGTH as i32);
        self.filler(random, at, record::channels::FIRST);
        at
    }

    /// The head of a sub of such a list.
    fn sub(&mut self, list: Kind, serial: i32, end: usize) -> RecordPlace {
        let kind = list.subs().expect("a list of subs").kind;
        let at = self.head(&Head {
            serial,
            ..Head::plain(kind, channel::LENGTH, end)
        });
        *self.record_at(at)
    }

    /// Numbers that no rule judges, up to the offset `to` of the record at `at`.
    fn numbers(&mut self, random: &mut Random, at: usize, to: usize) {
        while self.bytes.len() < at + to {
            self.number(random.bits());
        }
    }

    fn items(&mut self, random: &mut Random, plan: &ItemsPlan, length: usize, end: usize) {
        let at = self.head(&Head::plain(plan.kind, length, end));
        self.field(Field::ItemCount(plan.kind), plan.count);
        self.filler(random, at, record::items::FIRST);
        for item in &plan.items {
            let size = record::items::ITEM_HEAD + item.text;
            self.field(Field::ItemSize(plan.kind), size as i32);
            self.field(Field::ItemCode(plan.kind), item.code);
            self.raw(&random.bytes(item.text));
        }
        self.filler(random, at, length);
        self.zero_reserve(at, plan.kind);
    }

    fn frames(&mut self, random: &mut Random, plan: &FramesPlan, length: usize, end: usize) {
        let at = self.head(&Head {
            multiplier: plan.multiplier,
            ..Head::plain(Kind::Frames, length, end)
        });
        self.field(Field::Seconds, plan.seconds);
        self.field(Field::FrameLength, plan.frame_length as i32);
        self.field(Field::FrameCount, plan.count);
        self.filler(random, at, record::frames::FIRST);
        for (index, frame) in plan.frames.iter().enumerate() {
            self.frame(random, plan, frame, index as i32 + 1, at + length);
        }
        self.padding(Kind::Frames, &plan.tail);
        self.zero_reserve(at, Kind::Frames);
    }

    fn frame(
        &mut self,
        random: &mut Random,
        block: &FramesPlan,
        plan: &FramePlan,
        serial: i32,
        end: usize,
    ) {
        let length = block.frame_length;
        let at = self.head(&Head {
            serial,
            multiplier: plan.multiplier,
            ..Head::plain(Kind::Frame, length, end)
        });
        let clock = [Field::ClockHour, Field::ClockMinute, Field::ClockSecond];
        for (field, value) in clock.into_iter().zip(plan.clock) {
            self.clock_field(field, value);
        }
        self.filler(random, at, record::frame::SAMPLES);
        for (channel, samples) in block.samples.iter().enumerate() {
            self.samples(random, channel, samples);
        }
        // A damaged plan may leave less room than its samples take.
        let content = length.saturating_sub(plan.tail.len());
        self.bytes.truncate(at + content);
        self.padding(Kind::Frame, &plan.tail);
        self.zero_reserve(at, Kind::Frame);
    }

    fn samples(&mut self, random: &mut Random, channel: usize, plan: &SamplesPlan) {
        if self.codes.len() <= channel {
            self.codes.resize_with(channel + 1, Codes::default);
        }
        for _ in 0..plan.count {
            let value = if plan.codes {
                self.codes[channel].draw(random)
            } else {
                random.bits()
            };
            self.put(plan.format.width(), value);
        }
    }

    fn maker(&mut self, random: &mut Random, plan: &MakerPlan, end: usize) {
        let at = self.head(&Head {
            code: plan.code,
            serial: plan.serial,
            multiplier: plan.multiplier,
            ..Head::plain(Kind::Maker, plan.length, end)
        });
        self.filler(random, at, plan.length);
    }
}

/// A code of the 10-20 system, a user's, or any that is not negative.
fn electrode_code(random: &mut Random) -> i32 {
    match random.below(3) {
        0 => random.between(0, 22),
        1 => random.pick(&[0, 23, i32::MAX]),
        _ => random.between(0, i32::MAX),
    }
}
