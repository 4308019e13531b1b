//! Valid plans, drawn by chance.

use super::plan::{
    ChannelPlan, ChannelsPlan, FilePlan, FramePlan, FramesPlan, ItemPlan, ItemsPlan, MakerPlan,
    MontagePlan, OverviewPlan, PartPlan, RecordingPlan, SamplesPlan,
};
use crate::bytes::Order;
use crate::header::{self, Form, Spelling, Version};
use crate::index::EVENT;
use crate::listing;
use crate::random::Random;
use crate::record::{self, frames, items};
use crate::record::{Format, Kind, HEAD, MICROSECONDS, PERIOD_FLAG, PROCESSED};

/// How large and of what sort a file is drawn. Counts are the most of each.
#[derive(Clone, Copy)]
pub struct Shape {
    pub recordings: (i32, i32),
    pub channels: i32,
    pub items: i32,
    pub text: i32,
    pub frames: i32,
    /// Of one channel in one frame.
    pub samples: i32,
    /// The chance of a maker's record at each place, in percent.
    pub makers: usize,
    /// The chance that a later recording inherits its 120 or 320, in percent.
    pub inherits: usize,
    /// The chance of a 350 in a recording of electrodes, in percent.
    pub montages: usize,
    pub montage_channels: i32,
    /// Every multiplier is 2 or more.
    pub padded: bool,
    /// The length of the file at most.
    pub bytes: usize,
}

pub const SMALL: Shape = Shape {
    recordings: (1, 3),
    channels: 3,
    items: 3,
    text: 12,
    frames: 3,
    samples: 6,
    makers: 0,
    inherits: 60,
    montages: 50,
    montage_channels: 2,
    padded: false,
    bytes: 4096,
};

impl Shape {
    fn draw(random: &mut Random) -> Shape {
        let makers = random.pick(&[0, 0, 0, 15, 30, 60]);
        let small = Shape { makers, ..SMALL };
        match random.below(100) {
            0..=45 => small,
            46..=59 => Shape {
                samples: 48,
                ..small
            },
            60..=71 => Shape {
                recordings: (4, 14),
                channels: 1,
                ..small
            },
            72..=78 => Shape {
                channels: 10,
                montage_channels: 10,
                recordings: (1, 2),
                ..small
            },
            79..=85 => Shape {
                items: 40,
                montage_channels: 10,
                recordings: (1, 2),
                ..small
            },
            86..=92 => Shape {
                frames: 60,
                recordings: (1, 2),
                ..small
            },
            93..=95 => Shape {
                samples: 300,
                recordings: (1, 2),
                ..small
            },
            _ => Shape::large(random, small),
        }
    }

    /// Up to what `listing` reads.
    fn large(random: &mut Random, small: Shape) -> Shape {
        let small = Shape {
            bytes: listing::MOST_BYTES,
            ..small
        };
        match random.below(5) {
            0 => Shape {
                recordings: (64, 64),
                channels: 2,
                items: 1,
                inherits: 90,
                ..small
            },
            1 => Shape {
                channels: 125,
                samples: 2,
                recordings: (1, 1),
                ..small
            },
            2 => Shape {
                items: items::MOST,
                montage_channels: 100,
                ..small
            },
            3 => Shape {
                frames: 500,
                ..small
            },
            _ => Shape {
                samples: 4000,
                ..small
            },
        }
    }
}

/// A valid file of any shape.
pub fn draw_any(random: &mut Random) -> FilePlan {
    let shape = Shape::draw(random);
    draw_shaped(random, &shape)
}

/// A valid file of this shape, in either form.
pub fn draw_shaped(random: &mut Random, shape: &Shape) -> FilePlan {
    let form = random.pick(&Form::ALL);
    draw_formed(random, shape, form)
}

/// A valid file of this shape; a simpler one when the shape is hard to meet.
pub fn draw_formed(random: &mut Random, shape: &Shape, form: Form) -> FilePlan {
    const TRIES: usize = 4;
    let version = draw_version(random, shape, form);
    for _ in 0..TRIES {
        let plan = draw_file(random, shape, version, form);
        if plan.length() <= shape.bytes {
            return plan;
        }
    }
    let lesser = Shape {
        channels: 1,
        items: 2,
        text: 6,
        frames: 2,
        samples: 4,
        montage_channels: 1,
        ..*shape
    };
    draw_file(random, &lesser, version, form)
}

/// A valid file of an older version.
pub fn draw_older(random: &mut Random, shape: &Shape) -> FilePlan {
    let version = random.pick(&Version::OLDER);
    let forms = Form::ALL.into_iter().filter(|form| version.has_form(*form));
    let forms: Vec<Form> = forms.collect();
    let form = random.pick(&forms);
    draw_file(random, shape, version, form)
}

/// One that has the form, the newest as often as all others; multipliers are of that one alone.
fn draw_version(random: &mut Random, shape: &Shape, form: Form) -> Version {
    if shape.padded || random.chance(50) {
        return Version::V300;
    }
    let older = Version::OLDER.into_iter();
    let with_form: Vec<Version> = older.filter(|version| version.has_form(form)).collect();
    random.pick(&with_form)
}

/// K's field: its digits, often behind zeros, then spaces.
pub fn digits(random: &mut Random, recordings: usize) -> [u8; header::RECORDINGS_LENGTH] {
    let plain = recordings.to_string();
    let spare = header::RECORDINGS_LENGTH.saturating_sub(plain.len());
    let zeros = if random.chance(30) {
        random.below(spare + 1)
    } else {
        0
    };
    let text = format!("{:0>width$}", plain, width = plain.len() + zeros);
    let mut field = [b' '; header::RECORDINGS_LENGTH];
    field[..text.len()].copy_from_slice(text.as_bytes());
    field
}

fn draw_file(random: &mut Random, shape: &Shape, version: Version, form: Form) -> FilePlan {
    let count = random.between(shape.recordings.0, shape.recordings.1) as usize;
    let mut recordings = Vec::new();
    let mut holding = None;
    for _ in 0..count {
        let (recording, now) = draw_recording(random, shape, form, holding.as_ref());
        recordings.push(recording);
        holding = Some(now);
    }
    let mut plan = FilePlan {
        spelling: random.pick(&Spelling::ALL),
        version,
        form,
        order: random.pick(&[Order::Little, Order::Big]),
        script: random.pick(header::SCRIPTS),
        digits: digits(random, count),
        tidy: random.chance(30),
        recordings,
    };
    if version < Version::V300 {
        age(random, shape, &mut plan);
    }
    plan
}

/// Takes from a plan what its version does not have, and gives it what it needs.
fn age(random: &mut Random, shape: &Shape, plan: &mut FilePlan) {
    let version = plan.version;
    if !version.has_script(plan.script) {
        plan.script = random.pick(b"SJE");
    }
    for recording in &mut plan.recordings {
        recording.multiplier = 0;
        for part in &mut recording.parts {
            match part {
                PartPlan::Channels(list) => age_channels(version, list),
                PartPlan::Frames(block) => age_frames(block),
                PartPlan::Maker(maker) => maker.multiplier = 0,
                _ => {}
            }
        }
        if version.needs_events() && recording.items(Kind::Events).is_none() {
            let events = PartPlan::Items(draw_items(random, shape, Kind::Events));
            let is_frames = |part: &PartPlan| matches!(part, PartPlan::Frames(_));
            let at = recording.parts.iter().position(is_frames);
            recording.parts.insert(at.expect("a 140"), events);
        }
        recording.settle();
    }
}

fn age_channels(version: Version, list: &mut ChannelsPlan) {
    for channel in &mut list.channels {
        channel.format = Format::Signed16;
        if !version.has_type(channel.channel_type) {
            channel.channel_type -= 2;
        }
    }
}

fn age_frames(block: &mut FramesPlan) {
    block.multiplier = 0;
    for samples in &mut block.samples {
        samples.format = Format::Signed16;
    }
    block.frame_length = block.frame_content();
    for frame in &mut block.frames {
        frame.multiplier = 0;
        frame.tail.clear();
    }
    block.settle();
}

/// The channels that hold after a recording, and its seconds a frame.
struct Holding {
    channels: Vec<ChannelPlan>,
    seconds: i32,
}

fn draw_recording(
    random: &mut Random,
    shape: &Shape,
    form: Form,
    earlier: Option<&Holding>,
) -> (RecordingPlan, Holding) {
    let inherited = earlier.filter(|_| random.chance(shape.inherits));
    let holding = match inherited {
        Some(earlier) => Holding {
            channels: earlier.channels.clone(),
            seconds: draw_other_seconds(random, shape, earlier),
        },
        None => draw_holding(random, shape, form),
    };
    let count = random.between(1, shape.frames);
    let channels = holding.channels.len() as i32;

    let mut parts = vec![PartPlan::Overview(draw_overview(random, channels, count))];
    if inherited.is_none() {
        parts.push(PartPlan::Channels(ChannelsPlan {
            kind: form.list(),
            count: channels,
            channels: holding.channels.clone(),
        }));
    }
    if earlier.is_none() || random.chance(40) {
        parts.push(PartPlan::Items(draw_items(random, shape, Kind::Patient)));
    }
    if random.chance(50) {
        parts.push(PartPlan::Items(draw_items(random, shape, Kind::Events)));
    }
    if form == Form::Electrodes && random.chance(shape.montages) {
        parts.push(PartPlan::Montage(draw_montage(random, shape, channels)));
    }
    let block = draw_frames(random, shape, &holding, count);
    parts.push(PartPlan::Frames(block));
    parts.push(PartPlan::Delimiter);
    let mut recording = RecordingPlan {
        multiplier: draw_multiplier(random, shape.padded),
        parts: with_makers(random, shape, parts),
        tail: Vec::new(),
    };
    recording.settle();
    (recording, holding)
}

/// Puts makers' records at the places that allow them: all but the first.
fn with_makers(random: &mut Random, shape: &Shape, parts: Vec<PartPlan>) -> Vec<PartPlan> {
    let mut all = Vec::new();
    for (index, part) in parts.into_iter().enumerate() {
        while index > 0 && random.chance(shape.makers) {
            all.push(PartPlan::Maker(draw_maker(random)));
        }
        all.push(part);
    }
    all
}

pub fn draw_maker(random: &mut Random) -> MakerPlan {
    let multiplier = draw_multiplier(random, false);
    let times = multiplier.max(1) as usize;
    let size = HEAD.div_ceil(times) + random.below(2 + 40 / times);
    let least = record::LEAST_MAKER_CODE;
    let code = match random.below(4) {
        0 => random.pick(&[least, least + 1, 1100, 1155, 4096, i32::MAX]),
        1 => random.between(least, 9999),
        _ => random.between(least, i32::MAX),
    };
    MakerPlan {
        code,
        serial: random.bits(),
        multiplier,
        length: size * times,
    }
}

pub fn draw_multiplier(random: &mut Random, padded: bool) -> i32 {
    match random.below(10) {
        0..=4 if !padded => 0,
        5 if !padded => 1,
        6 => record::MOST_MULTIPLIER,
        7 => random.pick(&[2, 3, 4, 7, 8, 16, 127]),
        _ => random.between(2, record::MOST_MULTIPLIER),
    }
}

fn draw_overview(random: &mut Random, channels: i32, frames: i32) -> OverviewPlan {
    OverviewPlan {
        channels,
        frames,
        date: draw_date(random),
        time: draw_time(random),
        mains: random.pick(&[0, 50, 60]),
    }
}

fn draw_date(random: &mut Random) -> [i32; 3] {
    let year = match random.below(6) {
        0 => return [0, 0, 0],
        1 => return [random.pick(&[4, 1600, 2000, 2024, 2400, 9996]), 2, 29],
        2 => random.pick(&[1, 9999, 1900, 2000, 2100]),
        _ => random.between(1, 9999),
    };
    let month = random.between(1, 12);
    let last = record::days_in(year, month);
    let day = if random.chance(40) {
        last
    } else {
        random.between(1, last)
    };
    [year, month, day]
}

fn draw_time(random: &mut Random) -> [i32; 3] {
    [23, 59, 59].map(|most| match random.below(4) {
        0 => 0,
        1 => most,
        _ => random.between(0, most),
    })
}

fn draw_seconds(random: &mut Random) -> i32 {
    match random.below(10) {
        0..=5 => random.between(1, 4),
        6 | 7 => random.between(1, frames::MOST_SECONDS),
        8 => random.pick(&[5, 10, 30, 60, 3599, frames::MOST_SECONDS]),
        _ => 1,
    }
}

fn draw_holding(random: &mut Random, shape: &Shape, form: Form) -> Holding {
    let mut holding = if random.chance(5) {
        draw_recorder(random)
    } else {
        draw_channels(random, shape)
    };
    if form == Form::Electrodes {
        for channel in &mut holding.channels {
            // Rate 0 is for type OFF alone.
            if channel.rate > 0 && random.chance(20) {
                channel.channel_type = PROCESSED;
            }
        }
    }
    holding
}

fn draw_channels(random: &mut Random, shape: &Shape) -> Holding {
    let seconds = draw_seconds(random);
    let count = random.between(1, shape.channels);
    let channels = (0..count)
        .map(|_| draw_channel(random, seconds, shape.samples))
        .collect();
    Holding { channels, seconds }
}

/// A recorder at 256 Hz that writes its period in whole microseconds.
fn draw_recorder(random: &mut Random) -> Holding {
    let channel = ChannelPlan {
        flags: random.bits() | PERIOD_FLAG,
        channel_type: random.between(0, 18),
        format: random.pick(&Format::ALL),
        rate: 3906,
    };
    Holding {
        channels: vec![channel],
        seconds: 1,
    }
}

/// Other seconds that the inherited channels allow, or the same again.
fn draw_other_seconds(random: &mut Random, shape: &Shape, earlier: &Holding) -> i32 {
    const TRIES: usize = 4;
    let most = 2 * shape.samples as u64;
    for _ in 0..TRIES {
        let seconds = draw_seconds(random);
        let fits = |channel: &ChannelPlan| channel.samples(seconds).is_some_and(|n| n <= most);
        if earlier.channels.iter().all(fits) {
            return seconds;
        }
    }
    earlier.seconds
}

/// Of the channels with samples so many are of events, format and all, beside those that are drawn so by chance.
const EVENTS_PERCENT: usize = 30;

fn draw_channel(random: &mut Random, seconds: i32, most: i32) -> ChannelPlan {
    let format = random.pick(&Format::ALL);
    let flags = random.bits();
    if random.chance(12) {
        return ChannelPlan {
            flags,
            channel_type: 0,
            format,
            rate: 0,
        };
    }
    let (rate, period) = draw_rate(random, seconds, most);
    let flags = if period {
        flags | PERIOD_FLAG
    } else {
        flags & !PERIOD_FLAG
    };
    let (channel_type, format) = if random.chance(EVENTS_PERCENT) {
        (EVENT, Format::Signed16)
    } else {
        (draw_type(random), format)
    };
    ChannelPlan {
        flags,
        channel_type,
        format,
        rate,
    }
}

/// The type of a channel with samples.
fn draw_type(random: &mut Random) -> i32 {
    if random.chance(50) {
        random.pick(&[0, EVENT, 17, 18, record::NEWEST_TYPE])
    } else {
        random.between(0, 18)
    }
}

/// A rate or (true) a period that gives a few samples in a frame.
fn draw_rate(random: &mut Random, seconds: i32, most: i32) -> (i32, bool) {
    if seconds <= most && random.chance(50) {
        (random.between(1, most / seconds), false)
    } else {
        (draw_period(random, seconds, most), true)
    }
}

/// The longest period of so many samples, which may divide the time, the
/// shortest, any between, or a common one.
fn draw_period(random: &mut Random, seconds: i32, most: i32) -> i32 {
    const COMMON: [i32; 5] = [3906, 7812, 300_000, 333_333, 700_000];
    let time = seconds as u64 * MICROSECONDS;
    let samples = random.between(1, most) as u64;
    let longest = (time / samples).min(i32::MAX as u64) as i32;
    let shortest = (time / (samples + 1) + 1) as i32;
    match random.below(5) {
        0 | 1 => longest,
        // No period at all gives some of the large counts.
        2 => shortest.min(longest),
        3 if shortest < longest => random.between(shortest, longest),
        _ => {
            let fits = |period: &i32| (1..=most as u64).contains(&(time / *period as u64));
            let mut common: Vec<i32> = COMMON.into_iter().filter(fits).collect();
            common.push(longest);
            random.pick(&common)
        }
    }
}

fn draw_items(random: &mut Random, shape: &Shape, kind: Kind) -> ItemsPlan {
    let count = random.between(0, shape.items);
    let items = (0..count)
        .map(|_| ItemPlan {
            code: draw_item_code(random, kind),
            text: random.between(0, shape.text) as usize,
        })
        .collect();
    ItemsPlan {
        kind,
        count,
        items,
        leftover: 0,
    }
}

fn draw_item_code(random: &mut Random, kind: Kind) -> i32 {
    const PATIENT: [i32; 15] = [
        0, 1, 11, 14, 21, 26, 101, 104, 107, 201, 210, 220, 301, 350, 399,
    ];
    const EVENTS: [i32; 6] = [0, 4096, 8191, 12_288, 61_440, 65_535];
    const BIT_12: i32 = 4096;
    match kind {
        Kind::Patient => random.pick(&PATIENT),
        _ if random.chance(50) => random.pick(&EVENTS),
        _ => random.between(4096, 65_535) | BIT_12,
    }
}

fn draw_montage(random: &mut Random, shape: &Shape, electrodes: i32) -> MontagePlan {
    let count = random.between(1, shape.montage_channels);
    let mut lead = || draw_lead(random, electrodes);
    MontagePlan {
        count,
        leads: (0..count).map(|_| [lead(), lead()]).collect(),
    }
}

/// The earth, an electrode, the last one often, or a processed potential of any.
fn draw_lead(random: &mut Random, electrodes: i32) -> i32 {
    match random.below(6) {
        0 => 0,
        1 => electrodes,
        2 | 3 => random.between(1, electrodes),
        _ => {
            let any = random.between(0, 0xffff);
            let low = random.pick(&[0, electrodes, electrodes + 1, 0xffff, any]);
            random.between(1, 3) << 16 | low
        }
    }
}

fn draw_frames(random: &mut Random, shape: &Shape, holding: &Holding, count: i32) -> FramesPlan {
    let samples: Vec<SamplesPlan> = holding
        .channels
        .iter()
        .map(|channel| {
            let count = channel.samples(holding.seconds);
            let count = count.expect("rates are drawn for the seconds");
            SamplesPlan {
                format: channel.format,
                count: count as usize,
                codes: channel.channel_type == EVENT,
            }
        })
        .collect();
    let mut plan = FramesPlan {
        multiplier: draw_multiplier(random, shape.padded),
        seconds: holding.seconds,
        count,
        frame_length: 0,
        samples,
        frames: Vec::new(),
        tail: Vec::new(),
    };
    plan.frame_length = draw_frame_length(random, shape, plan.frame_content());
    let padding = plan.frame_length - plan.frame_content();
    let multipliers = frame_multipliers(plan.frame_length, padding);
    for _ in 0..count {
        plan.frames.push(FramePlan {
            multiplier: random.pick(&multipliers),
            clock: draw_time(random),
            tail: vec![0; padding],
        });
    }
    plan.settle();
    plan
}

fn draw_frame_length(random: &mut Random, shape: &Shape, content: usize) -> usize {
    if !shape.padded && random.chance(50) {
        return content;
    }
    let multiplier = draw_multiplier(random, true) as usize;
    content.next_multiple_of(multiplier)
}

/// The multipliers a frame of this length and padding may have.
fn frame_multipliers(length: usize, padding: usize) -> Vec<i32> {
    (0..=record::MOST_MULTIPLIER)
        .filter(|m| *m == 0 || length.is_multiple_of(*m as usize))
        .filter(|m| record::padding_fits(padding as u64, *m))
        .collect()
}
