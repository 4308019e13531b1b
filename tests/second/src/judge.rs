//! The judgement: from front to back, up to the first refusal.
//!
//! In one record: 10 (room), 9, 11, 10 (length), 12, fields by offset (13
//! before 14), children, padding. Samples are stepped over.

use crate::bytes::Order;
use crate::header::{self, Form, Version};
use crate::model::{
    Calibration, Channel, Frame, FrameBlock, Item, Model, Overview, Record, Recording, Slot, Span,
    Sub,
};
use crate::record::{self, channel, channels, frame, frames, items, overview};
use crate::record::{Area, Extent, Format, Kind, Subs, HEAD};
use crate::refusal::{self, require, Refusal};
use std::ops::RangeInclusive;
use std::rc::Rc;

/// Judges the file: its whole reading, or the first refusal.
pub fn judge(file: &[u8]) -> Result<Model, Refusal> {
    let header = header::judge(file)?;
    let mut walk = Walk {
        file,
        version: header.version,
        form: header.form,
        order: header.order,
        records: Vec::new(),
    };
    let mut recordings: Vec<Recording> = Vec::new();
    let mut at = header::LENGTH;
    for serial in 1..=header.recordings as i32 {
        let recording = walk.recording(at, serial, recordings.last())?;
        at = recording.record.end();
        recordings.push(recording);
    }
    require(at == file.len(), refusal::BYTES_AFTER, at)?;
    Ok(Model {
        spelling: header.spelling,
        version: header.version,
        form: header.form,
        order: header.order,
        script: header.script,
        recordings,
        records: walk.records,
    })
}

/// The walk over the file, with every record met so far.
struct Walk<'a> {
    file: &'a [u8],
    version: Version,
    form: Form,
    order: Order,
    records: Vec<Record>,
}

/// The way through the records that one recording holds.
struct Inside {
    first: bool,
    at: usize,
    end: usize,
    parts: Vec<Record>,
}

impl Walk<'_> {
    fn number(&self, at: usize) -> i32 {
        self.order.i32_at(self.file, at)
    }

    /// The field at `at`, or 13 there.
    fn field(&self, at: usize, passes: impl Fn(i32) -> bool) -> Result<i32, Refusal> {
        let value = self.number(at);
        require(passes(value), refusal::VALUE, at)?;
        Ok(value)
    }

    fn within(&self, at: usize, values: RangeInclusive<i32>) -> Result<i32, Refusal> {
        self.field(at, |value| values.contains(&value))
    }

    /// Room, code, multiplier and length of the record at `at`.
    fn head(&self, at: usize, end: usize, allowed: &[Kind]) -> Result<Record, Refusal> {
        require(end - at >= HEAD, refusal::SIZE, at)?;
        let code = self.number(at + record::CODE_AT);
        let kind = *allowed
            .iter()
            .find(|kind| kind.has_code(code))
            .ok_or(Refusal::new(refusal::CODE, at + record::CODE_AT))?;
        let multiplier = self.multiplier(at, kind)?;
        let size = self.number(at + record::SIZE_AT);
        let length = length(kind, size, multiplier)
            .filter(|length| *length <= end - at)
            .ok_or(Refusal::new(refusal::SIZE, at))?;
        Ok(Record {
            kind,
            at,
            length,
            code,
            serial: self.number(at + record::SERIAL_AT),
            multiplier,
        })
    }

    fn multiplier(&self, at: usize, kind: Kind) -> Result<i32, Refusal> {
        let most = if kind.rules().multiplied && self.version.has_multipliers() {
            record::MOST_MULTIPLIER
        } else {
            0
        };
        let multiplier = self.number(at + record::MULTIPLIER_AT);
        let passes = (0..=most).contains(&multiplier);
        require(passes, refusal::MULTIPLIER, at + record::MULTIPLIER_AT)?;
        Ok(multiplier)
    }

    /// Tests the serial, the last thing in a head, and takes the record down.
    fn enter(&mut self, record: &Record, serial: i32) -> Result<(), Refusal> {
        let passes = record.kind == Kind::Maker || record.serial == serial;
        require(passes, refusal::SERIAL, record.at + record::SERIAL_AT)?;
        self.records.push(*record);
        Ok(())
    }

    /// All bytes from `from` to `to` are zero.
    fn padding(&self, from: usize, to: usize) -> Result<(), Refusal> {
        match self.file[from..to].iter().position(|byte| *byte != 0) {
            None => Ok(()),
            Some(first) => require(false, refusal::PADDING, from + first),
        }
    }

    fn recording(
        &mut self,
        at: usize,
        serial: i32,
        earlier: Option<&Recording>,
    ) -> Result<Recording, Refusal> {
        let record = self.head(at, self.file.len(), &[Kind::Recording])?;
        self.enter(&record, serial)?;
        let mut inside = Inside {
            first: earlier.is_none(),
            at: at + HEAD,
            end: record.end(),
            parts: Vec::new(),
        };
        let recording = self.parts(record, &mut inside, earlier)?;
        require(
            recording.content() <= record::MOST_CONTENT,
            refusal::DISAGREEMENT,
            at + record::SIZE_AT,
        )?;
        let left = record.end() - inside.at;
        let fits = record::padding_fits(left as u64, record.multiplier);
        require(fits, refusal::SIZE, inside.at)?;
        self.padding(inside.at, record.end())?;
        Ok(recording)
    }

    /// 100, 120 or 320, 130, 200, 350, 140 and the delimiter, with makers' records
    /// between.
    fn parts(
        &mut self,
        record: Record,
        inside: &mut Inside,
        earlier: Option<&Recording>,
    ) -> Result<Recording, Refusal> {
        let part = self.part(inside, &[Kind::Overview])?;
        let overview = self.overview(&part)?;

        let mut part = self.part_behind(inside, Kind::Overview)?;
        let own_channels = part.kind == self.form.list();
        let channels = if own_channels {
            let own = self.channels(&part, &overview)?;
            part = self.part_behind(inside, part.kind)?;
            Rc::new(own)
        } else {
            Rc::clone(&nearest(earlier).channels)
        };
        let patient = if part.kind == Kind::Patient {
            let own = self.items(&part, record::is_patient_code)?;
            part = self.part_behind(inside, part.kind)?;
            Rc::new(own)
        } else {
            Rc::clone(&nearest(earlier).patient)
        };
        let mut events = Vec::new();
        if part.kind == Kind::Events {
            events = self.items(&part, record::is_event_code)?;
            part = self.part_behind(inside, part.kind)?;
        }
        let mut montage = Vec::new();
        if part.kind == Kind::Montage {
            montage = self.subs(&part, None, channels.len())?;
            part = self.part_behind(inside, part.kind)?;
        }
        if !own_channels {
            // An inherited list can be held against 100 only now.
            let agrees = overview.channels as usize == channels.len();
            let field = overview.at + overview::CHANNELS;
            require(agrees, refusal::DISAGREEMENT, field)?;
        }
        let block = self.frame_block(&part, &overview, &channels)?;
        self.part_behind(inside, part.kind)?;
        Ok(Recording {
            record,
            overview,
            channels,
            patient,
            events,
            montage,
            block,
            parts: std::mem::take(&mut inside.parts),
        })
    }

    /// Whether a recording may lack such a record. 120, 320 and 130 are inherited
    /// then, so the first recording holds its own; 200 and 350 are not.
    fn may_be_absent(&self, kind: Kind, first: bool) -> bool {
        match kind {
            Kind::Events => !self.version.needs_events(),
            Kind::Montage => true,
            Kind::Channels | Kind::Electrodes | Kind::Patient => !first,
            _ => false,
        }
    }

    /// What may follow a record of this kind: the kinds behind it, up to the first
    /// that may not be absent.
    fn following(&self, kind: Kind, first: bool) -> &'static [Kind] {
        let parts = self.form.parts();
        let at = parts.iter().position(|part| *part == kind);
        let rest = &parts[at.expect("a kind of the form") + 1..];
        let absent = rest
            .iter()
            .take_while(|kind| self.may_be_absent(**kind, first));
        &rest[..=absent.count()]
    }

    /// The next record of a recording, which is of one of these kinds.
    fn part(&mut self, inside: &mut Inside, allowed: &[Kind]) -> Result<Record, Refusal> {
        let part = self.head(inside.at, inside.end, allowed)?;
        self.enter(&part, 0)?;
        inside.at = part.end();
        inside.parts.push(part);
        Ok(part)
    }

    /// The next record that may follow one of this kind, past the makers' records
    /// that may stand before it.
    fn part_behind(&mut self, inside: &mut Inside, kind: Kind) -> Result<Record, Refusal> {
        let allowed = self.following(kind, inside.first);
        let with_makers = [allowed, &[Kind::Maker]].concat();
        loop {
            let part = self.part(inside, &with_makers)?;
            if part.kind != Kind::Maker {
                return Ok(part);
            }
        }
    }

    fn overview(&self, part: &Record) -> Result<Overview, Refusal> {
        let at = part.at;
        self.within(at + overview::DATA_FORM, 1..=1)?;
        let channels = self.within(at + overview::CHANNELS, 1..=record::MOST_CHANNELS)?;
        let frames = self.within(at + overview::FRAMES, 1..=record::MOST_FRAMES)?;
        let date = self.date(at)?;
        let time = [
            self.within(at + overview::HOUR, 0..=23)?,
            self.within(at + overview::MINUTE, 0..=59)?,
            self.within(at + overview::SECOND, 0..=59)?,
        ];
        let mains = self.field(at + overview::MAINS, |mains| [0, 50, 60].contains(&mains))?;
        Ok(Overview {
            at,
            channels,
            frames,
            date,
            time,
            time_text: span(at, overview::TIME_TEXT),
            mains,
            comment: span(at, overview::COMMENT),
        })
    }

    /// All zero, or a Gregorian date with year 1 to 9999.
    fn date(&self, at: usize) -> Result<[i32; 3], Refusal> {
        let year = self.within(at + overview::YEAR, 0..=9999)?;
        let months = if year == 0 { 0..=0 } else { 1..=12 };
        let month = self.within(at + overview::MONTH, months)?;
        let days = if year == 0 {
            0..=0
        } else {
            1..=record::days_in(year, month)
        };
        let day = self.within(at + overview::DAY, days)?;
        Ok([year, month, day])
    }

    /// The channels of a 120, or the electrodes of a 320.
    fn channels(&mut self, part: &Record, overview: &Overview) -> Result<Vec<Channel>, Refusal> {
        // No lead stands in these, so that no electrode is asked for.
        let subs = self.subs(part, Some(overview.channels), 0)?;
        let channels = subs.into_iter().map(Channel::new);
        let judged = "its format and rate were judged";
        Ok(channels.map(|channel| channel.expect(judged)).collect())
    }

    /// The subs of a 120, a 320 or a 350: `counted` is what their count has to agree
    /// with, `electrodes` how many of them a lead may name.
    fn subs(
        &mut self,
        part: &Record,
        counted: Option<i32>,
        electrodes: usize,
    ) -> Result<Vec<Sub>, Refusal> {
        let count_at = part.at + channels::COUNT;
        let count = self.within(count_at, 1..=record::MOST_CHANNELS)?;
        let agrees = counted.is_none_or(|counted| count == counted);
        require(agrees, refusal::DISAGREEMENT, count_at)?;
        let fits = part.length == channels::FIRST + channel::LENGTH * count as usize;
        require(fits, refusal::DISAGREEMENT, count_at)?;
        let sub_size = channel::LENGTH as i32;
        self.within(part.at + channels::SUB_SIZE, sub_size..=sub_size)?;

        let subs = part.kind.subs().expect("a list of subs");
        let mut list = Vec::new();
        let mut at = part.at + channels::FIRST;
        for serial in 1..=count {
            let sub = self.head(at, part.end(), &[subs.kind])?;
            self.enter(&sub, serial)?;
            list.push(self.sub(at, subs, electrodes)?);
            at = sub.end();
        }
        Ok(list)
    }

    fn sub(&self, at: usize, subs: &Subs, electrodes: usize) -> Result<Sub, Refusal> {
        let number = self.field(at + channel::NUMBER, subs.is_number)?;
        let flags = self.number(at + channel::FLAGS);
        let channel_type = self.field(at + channel::TYPE, |kind| {
            (subs.is_type)(self.version, kind)
        })?;
        let format = self.field(at + channel::FORMAT, |format| {
            (subs.is_format)(self.version, format)
        })?;
        let is_rate = |rate| (subs.is_rate)(flags, channel_type, rate);
        let rate = self.field(at + channel::RATE, is_rate)?;
        let calibration = channel::CALIBRATION.map(|offset| self.number(at + offset));
        // 0 where the kind has a reserve area in its place.
        let number_or_zero = |offset| {
            if subs.kind.has_number(offset) {
                self.number(at + offset)
            } else {
                0
            }
        };
        Ok(Sub {
            at,
            number,
            flags,
            channel_type,
            format,
            rate,
            calibration: match Format::from_number(format) {
                Some(Format::Float32) => Calibration::Float(calibration.map(|bits| bits as u32)),
                _ => Calibration::Whole(calibration),
            },
            calibration_frequency: number_or_zero(channel::CALIBRATION_FREQUENCY),
            filter_low: self.number(at + channel::FILTER_LOW),
            filter_high: self.number(at + channel::FILTER_HIGH),
            sensitivity: number_or_zero(channel::SENSITIVITY),
            leads: self.leads(at, subs.kind, electrodes)?,
            label: span(at, channel::LABEL),
            unit: span(at, channel::UNIT),
            comment: span(at, channel::COMMENT),
        })
    }

    /// G1 and G2, where the kind has them.
    fn leads(&self, at: usize, kind: Kind, electrodes: usize) -> Result<Option<[i32; 2]>, Refusal> {
        let [first, second] = channel::LEADS;
        if !kind.has_number(first) {
            return Ok(None);
        }
        let is_lead = |value| record::is_lead(value, electrodes);
        let first = self.field(at + first, is_lead)?;
        let second = self.field(at + second, is_lead)?;
        Ok(Some([first, second]))
    }

    fn items(&self, part: &Record, is_code: fn(i32) -> bool) -> Result<Vec<Item>, Refusal> {
        let count_at = part.at + items::COUNT;
        let count = self.within(count_at, 0..=items::MOST)?;
        let mut list = Vec::new();
        let mut at = part.at + items::FIRST;
        for _ in 0..count {
            let item = self.item(at, part.end(), is_code)?;
            at = item.end();
            list.push(item);
        }
        require(at == part.end(), refusal::DISAGREEMENT, count_at)?;
        Ok(list)
    }

    fn item(&self, at: usize, end: usize, is_code: fn(i32) -> bool) -> Result<Item, Refusal> {
        require(end - at >= items::ITEM_HEAD, refusal::SIZE, at)?;
        let size = self.number(at + items::ITEM_SIZE);
        let least = items::ITEM_HEAD as i64;
        let fits = (least..=(end - at) as i64).contains(&i64::from(size));
        require(fits, refusal::SIZE, at)?;
        let code = self.field(at + items::ITEM_CODE, is_code)?;
        Ok(Item {
            at,
            code,
            text: Span {
                at: at + items::ITEM_HEAD,
                length: size as usize - items::ITEM_HEAD,
            },
        })
    }

    fn frame_block(
        &mut self,
        part: &Record,
        overview: &Overview,
        channels: &[Channel],
    ) -> Result<FrameBlock, Refusal> {
        let seconds_at = part.at + frames::SECONDS;
        let seconds = self.within(seconds_at, 1..=frames::MOST_SECONDS)?;
        let slots = slots(channels, seconds as u64)
            .ok_or(Refusal::new(refusal::DISAGREEMENT, seconds_at))?;
        let content = frame::SAMPLES as u64 + slots.iter().map(Slot::bytes).sum::<u64>();
        let frame_length = self.frame_length(part, content)?;

        let count_at = part.at + frames::COUNT;
        let agrees = self.number(count_at) == overview.frames;
        require(agrees, refusal::DISAGREEMENT, count_at)?;
        let used = frames::FIRST + overview.frames as usize * frame_length;
        let fits = part.length.checked_sub(used);
        let fits = fits.is_some_and(|left| record::padding_fits(left as u64, part.multiplier));
        require(fits, refusal::DISAGREEMENT, count_at)?;

        let mut block = FrameBlock {
            record: *part,
            seconds,
            frame_length,
            slots,
            frame_content: content as usize,
            frames: Vec::new(),
        };
        for serial in 1..=overview.frames {
            let at = part.at + frames::FIRST + block.frames.len() * frame_length;
            let frame = self.frame(at, serial, &block)?;
            block.frames.push(frame);
        }
        self.padding(part.at + used, part.end())?;
        Ok(block)
    }

    /// 140's frame length, against what the samples need.
    fn frame_length(&self, part: &Record, content: u64) -> Result<usize, Refusal> {
        let at = part.at + frames::FRAME_LENGTH;
        let most = content + frames::MOST_FRAME_PADDING;
        u64::try_from(self.number(at))
            .ok()
            .filter(|length| (content..=most).contains(length))
            .map(|length| length as usize)
            .ok_or(Refusal::new(refusal::DISAGREEMENT, at))
    }

    fn frame(&mut self, at: usize, serial: i32, block: &FrameBlock) -> Result<Frame, Refusal> {
        let record = self.head(at, block.record.end(), &[Kind::Frame])?;
        require(record.length == block.frame_length, refusal::SIZE, at)?;
        let padding = (block.frame_length - block.frame_content) as u64;
        let fits = record::padding_fits(padding, record.multiplier);
        require(fits, refusal::SIZE, at)?;
        self.enter(&record, serial)?;
        let clock = self.clock(at)?;
        self.padding(at + block.frame_content, record.end())?;
        Ok(Frame { record, clock })
    }

    fn clock(&self, at: usize) -> Result<[u16; 3], Refusal> {
        const MOST: [u16; 3] = [23, 59, 59];
        let clock = frame::CLOCK.map(|offset| self.order.u16_at(self.file, at + offset));
        for ((value, most), offset) in clock.iter().zip(MOST).zip(frame::CLOCK) {
            require(*value <= most, refusal::VALUE, at + offset)?;
        }
        Ok(clock)
    }
}

/// The recording whose 120 or 130 holds when there is none of its own. What an
/// earlier recording inherited it carries itself, so the last one is enough.
fn nearest(earlier: Option<&Recording>) -> &Recording {
    earlier.expect("the first recording holds its own 120 and 130")
}

/// A record's length by the rules of its kind, before its parent's end is asked.
fn length(kind: Kind, size: i32, multiplier: i32) -> Option<usize> {
    let length = record::length(size, multiplier);
    let passes = match kind.rules().extent {
        Extent::Fixed(fixed) => size == fixed,
        Extent::AtLeast(least) => length >= least,
    };
    match (passes, kind) {
        (false, _) => None,
        (true, Kind::Delimiter) => Some(HEAD),
        (true, _) => Some(length as usize),
    }
}

/// Each channel's place in a frame; nothing when a period leaves no sample.
fn slots(channels: &[Channel], seconds: u64) -> Option<Vec<Slot>> {
    let mut offset = frame::SAMPLES as u64;
    let mut slots = Vec::new();
    for channel in channels {
        let slot = Slot {
            format: channel.format,
            count: channel.rate.samples(seconds)?,
            offset,
        };
        offset += slot.bytes();
        slots.push(slot);
    }
    Some(slots)
}

fn span(at: usize, (offset, length): Area) -> Span {
    Span {
        at: at + offset,
        length,
    }
}
