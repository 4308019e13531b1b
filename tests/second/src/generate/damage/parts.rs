//! Records of a recording that are out of place.

use super::{any_recording, small_plan};
use crate::generate::draw;
use crate::generate::plan::PartPlan;
use crate::generate::sheet::{write, Sheet};
use crate::random::Random;

pub fn parts_in_disorder(random: &mut Random) -> Sheet {
    let mut plan = small_plan(random);
    let recording = any_recording(random, &mut plan);
    let count = recording.parts.len();
    let (one, other) = (random.below(count), random.below(count));
    match random.below(4) {
        0 => recording.parts.swap(one, other),
        1 => {
            recording.parts.remove(one);
        }
        2 => {
            let twice = recording.parts[one].clone();
            recording.parts.insert(other, twice);
        }
        _ => {
            let moved = recording.parts.remove(one);
            recording.parts.insert(other.min(count - 1), moved);
        }
    }
    recording.settle();
    write(random, &plan)
}

/// Before 100 or after the delimiter.
pub fn maker_misplaced(random: &mut Random) -> Sheet {
    let mut plan = small_plan(random);
    let maker = PartPlan::Maker(draw::draw_maker(random));
    let front = random.chance(50);
    let recording = any_recording(random, &mut plan);
    if front {
        recording.parts.insert(0, maker);
    } else {
        recording.parts.push(maker);
    }
    recording.settle();
    write(random, &plan)
}
