//! Damages of older recordings: files of the newest version under an older label, and one thing that a version does not
//! have.

use super::small_plan;
use crate::generate::draw::{self, Shape, SMALL};
use crate::generate::plan::{FilePlan, PartPlan};
use crate::generate::sheet::{write, Sheet};
use crate::header::{Form, Version, UNICODE};
use crate::random::Random;
use crate::record::{Format, Kind, NEWEST_TYPE};

/// Any small file, with another version's label.
pub fn relabelled(random: &mut Random) -> Sheet {
    let mut plan = small_plan(random);
    plan.version = random.pick(&Version::OLDER);
    write(random, &plan)
}

/// An older file with one thing that its version does not have, or without the event table that it needs.
pub fn one_breach(random: &mut Random) -> Sheet {
    let makers = random.pick(&[0, 30]);
    let shape = Shape { makers, ..SMALL };
    let mut plan = draw::draw_older(random, &shape);
    match random.below(6) {
        0 => plan.script = UNICODE,
        1 => plan.form = Form::Electrodes,
        2 => breach_channel(random, &mut plan),
        3 => breach_events(random, &mut plan),
        _ => breach_multiplier(random, &mut plan),
    }
    write(random, &plan)
}

/// Type 20, or a format other than 1.
fn breach_channel(random: &mut Random, plan: &mut FilePlan) {
    let lists = plan.recordings.iter_mut().filter_map(|r| r.channels());
    let mut channels: Vec<_> = lists.flat_map(|list| &mut list.channels).collect();
    let index = random.below(channels.len());
    let channel = &mut channels[index];
    if random.chance(50) && channel.rate > 0 {
        channel.channel_type = NEWEST_TYPE;
    } else {
        channel.format = random.pick(&[Format::Signed24, Format::Signed32, Format::Float32]);
    }
}

fn breach_events(random: &mut Random, plan: &mut FilePlan) {
    let index = random.below(plan.recordings.len());
    let recording = &mut plan.recordings[index];
    let is_events =
        |part: &PartPlan| matches!(part, PartPlan::Items(items) if items.kind == Kind::Events);
    recording.parts.retain(|part| !is_events(part));
    recording.settle();
}

/// The multiplier 1, which changes no length.
fn breach_multiplier(random: &mut Random, plan: &mut FilePlan) {
    let index = random.below(plan.recordings.len());
    let recording = &mut plan.recordings[index];
    let mut all = vec![&mut recording.multiplier];
    for part in &mut recording.parts {
        match part {
            PartPlan::Maker(maker) => all.push(&mut maker.multiplier),
            PartPlan::Frames(block) => {
                all.push(&mut block.multiplier);
                all.extend(block.frames.iter_mut().map(|frame| &mut frame.multiplier));
            }
            _ => {}
        }
    }
    let index = random.below(all.len());
    *all[index] = 1;
}
