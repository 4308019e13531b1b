//! Fields that pass by themselves but disagree with others.

use super::padding::resize_frames;
use super::{any_recording, small_plan};
use crate::generate::draw::{self, Shape, SMALL};
use crate::generate::plan::{ChannelPlan, FilePlan, RecordingPlan};
use crate::generate::sheet::{write, Sheet};
use crate::random::Random;
use crate::record::{frame, frames, items, Kind, MICROSECONDS, PERIOD_FLAG};

/// Most later recordings have no 120 of their own.
pub const INHERITING: Shape = Shape {
    inherits: 80,
    ..SMALL
};

/// In microseconds, as a period is.
const SECOND: i32 = MICROSECONDS as i32;

/// The item count and the bytes of the items.
pub fn items_disagree(random: &mut Random) -> Sheet {
    let kind = random.pick(&[Kind::Patient, Kind::Events]);
    let way = random.below(4);
    let mut plan = small_plan(random);
    let mut recordings = plan.recordings.iter_mut();
    let Some(items) = recordings.find_map(|recording| recording.items(kind)) else {
        return write(random, &plan);
    };
    match way {
        0 => items.leftover = random.pick(&[1, 4, 7, 8, 9]),
        1 => {
            // The item announced lacks room for its size and code.
            items.leftover = random.below(items::ITEM_HEAD);
            items.count += 1;
        }
        2 => items.count += 1,
        _ => items.count = (items.count - 1).max(0),
    }
    settle_all(&mut plan);
    write(random, &plan)
}

/// M against 100 and against 120's size, also where 120 is inherited.
pub fn counts_disagree(random: &mut Random) -> Sheet {
    let mut plan = draw::draw_shaped(random, &INHERITING);
    let way = random.below(5);
    let more = random.pick(&[-1, 1, 1, 2]);
    let recording = any_recording(random, &mut plan);
    let in_overview = way != 1;
    let in_channels = way == 1 || way == 2;
    if let Some(overview) = recording.overview().filter(|_| in_overview) {
        overview.channels += more;
    }
    if let Some(channels) = recording.channels().filter(|_| in_channels) {
        channels.count += more;
    }
    if let Some(block) = recording.frames().filter(|_| random.chance(20)) {
        // An inherited M is tested before these.
        block.seconds = random.pick(&[0, frames::MOST_SECONDS + 1]);
    }
    write(random, &plan)
}

/// The frame length, F and 140's length.
pub fn frames_disagree(random: &mut Random) -> Sheet {
    let way = random.below(5);
    let mut plan = small_plan(random);
    let recording = any_recording(random, &mut plan);
    if let Some(block) = recording.frames() {
        match way {
            0 => {
                let more = random.pick(&[127, 128, 129, 130]);
                resize_frames(block, block.frame_content() + more);
            }
            1 => {
                let less = random.pick(&[1, 2, 16]);
                let least = frame::SAMPLES;
                resize_frames(block, (block.frame_content() - less).max(least));
            }
            2 => {
                block.frames.pop();
                block.settle();
            }
            3 => {
                block.frames.push(block.frames[0].clone());
                block.settle();
            }
            _ => block.count += random.pick(&[-1, 1]),
        }
    }
    if way == 2 && random.chance(50) {
        recount_frames(recording);
    }
    recording.settle();
    write(random, &plan)
}

/// The seconds of a frame, also of a recording that inherits its channels:
/// fewer than the longest period, or any.
pub fn seconds_do_not_fit(random: &mut Random) -> Sheet {
    let mut plan = draw::draw_shaped(random, &INHERITING);
    let index = random.below(plan.recordings.len());
    let periods = held(&mut plan.recordings[..=index])
        .iter()
        .filter(|channel| channel.flags & PERIOD_FLAG != 0)
        .map(|channel| channel.rate);
    let too_few = periods.max().map_or(0, |longest| (longest - 1) / SECOND);
    if let Some(block) = plan.recordings[index].frames() {
        block.seconds = if too_few > 0 && random.chance(60) {
            random.between(1, too_few)
        } else {
            random.between(1, frames::MOST_SECONDS)
        };
    }
    write(random, &plan)
}

/// A channel's period, about the time of a frame or any: one sample, none, or
/// other ones than the frames have. An OFF channel is no exception.
pub fn another_period(random: &mut Random) -> Sheet {
    const PERIODS: [i32; 8] = [
        3,
        7,
        3906,
        700_000,
        1_000_003,
        3_600_000,
        2_000_000_011,
        i32::MAX,
    ];
    let mut plan = draw::draw_shaped(random, &INHERITING);
    let index = random.below(plan.recordings.len());
    let seconds = plan.recordings[index]
        .frames()
        .map_or(1, |block| block.seconds);
    let channels = held(&mut plan.recordings[..=index]);
    let any_channel = random.below(channels.len());
    let channel = &mut channels[any_channel];
    channel.flags |= PERIOD_FLAG;
    channel.rate = if random.chance(50) {
        seconds
            .saturating_mul(SECOND)
            .saturating_add(random.between(-1, 2))
    } else {
        random.pick(&PERIODS)
    };
    if random.chance(30) {
        channel.channel_type = 0;
    }
    write(random, &plan)
}

/// One channel's samples rounded up, in frames that have the room.
pub fn a_sample_too_many(random: &mut Random) -> Sheet {
    let mut plan = small_plan(random);
    let recording = any_recording(random, &mut plan);
    if let Some(block) = recording.frames() {
        let index = random.below(block.samples.len());
        block.samples[index].count += 1;
        resize_frames(block, block.frame_content());
    }
    recording.settle();
    write(random, &plan)
}

/// The channels that hold for the last of the recordings.
pub fn held(recordings: &mut [RecordingPlan]) -> &mut [ChannelPlan] {
    let mut lists = recordings
        .iter_mut()
        .rev()
        .filter_map(RecordingPlan::channels);
    let nearest = lists.next().expect("the first recording has its own list");
    &mut nearest.channels
}

fn settle_all(plan: &mut FilePlan) {
    for recording in &mut plan.recordings {
        recording.settle();
    }
}

/// Makes 100 and 140 agree on one frame less, or on none.
fn recount_frames(recording: &mut RecordingPlan) {
    let Some(block) = recording.frames() else {
        return;
    };
    block.count = block.frames.len() as i32;
    let count = block.count;
    if let Some(overview) = recording.overview() {
        overview.frames = count;
    }
}
