//! Padding that is not zero, or too long.

use super::{any_recording, small_plan};
use crate::generate::draw::{self, Shape, SMALL};
use crate::generate::plan::{FilePlan, FramesPlan};
use crate::generate::sheet::{write, Sheet};
use crate::random::Random;
use crate::record;

pub fn padding_not_zero(random: &mut Random) -> Sheet {
    let mut plan = padded_plan(random);
    let place = random.below(3);
    let recording = any_recording(random, &mut plan);
    if place == 0 {
        spoil_tail(random, &mut recording.tail);
    } else if let Some(block) = recording.frames() {
        let any_frame = random.below(block.frames.len());
        let tail = match place {
            1 => &mut block.tail,
            _ => &mut block.frames[any_frame].tail,
        };
        spoil_tail(random, tail);
    }
    write(random, &plan)
}

pub fn padding_too_long(random: &mut Random) -> Sheet {
    let place = random.below(4);
    let mut plan = if random.chance(50) {
        small_plan(random)
    } else {
        padded_plan(random)
    };
    let recording = any_recording(random, &mut plan);
    if place < 2 {
        lengthen(random, &mut recording.tail, recording.multiplier);
        return write(random, &plan);
    }
    if let Some(block) = recording.frames() {
        if place == 2 {
            lengthen(random, &mut block.tail, block.multiplier);
        } else {
            lengthen_frames(random, block);
        }
    }
    recording.settle();
    write(random, &plan)
}

fn padded_plan(random: &mut Random) -> FilePlan {
    let shape = Shape {
        padded: true,
        frames: 4,
        ..SMALL
    };
    draw::draw_shaped(random, &shape)
}

/// One or two bytes not zero, the first and the last ones often.
fn spoil_tail(random: &mut Random, tail: &mut [u8]) {
    if tail.is_empty() {
        return;
    }
    for _ in 0..random.between(1, 2) {
        let any = random.below(tail.len());
        let at = random.pick(&[0, tail.len() - 1, any]);
        tail[at] = random.pick(&[1, 0x20, 0x80, 0xff]);
    }
}

/// More padding than allowed, but by whole multiples, so that the length fits.
fn lengthen(random: &mut Random, tail: &mut Vec<u8>, multiplier: i32) {
    let times = multiplier.max(1) as usize;
    let more = times * random.pick(&[1, 1, 2, 16]);
    let fill = random.pick(&[0, 0, 1]);
    tail.resize(tail.len() + more, fill);
}

/// A frame whose multiplier divides its length but is not over its padding.
fn lengthen_frames(random: &mut Random, block: &mut FramesPlan) {
    let more = random.pick(&[1, 2, 16, 64, 126, 127]);
    resize_frames(block, block.frame_content() + more);
    let length = block.frame_length;
    let divides = |m: &i32| *m == 0 || length.is_multiple_of(*m as usize);
    let too_small: Vec<i32> = (0..=more as i32).filter(divides).collect();
    let index = random.below(block.frames.len());
    block.frames[index].multiplier = random.pick(&too_small);
}

/// Gives all frames another length, with padding that fits and a multiplier
/// over it where one divides the length.
pub fn resize_frames(block: &mut FramesPlan, length: usize) {
    let padding = length.saturating_sub(block.frame_content());
    let mut over = (padding + 1).max(2)..=record::MOST_MULTIPLIER as usize;
    let multiplier = over.find(|m| length.is_multiple_of(*m)).unwrap_or(0);
    block.frame_length = length;
    for frame in &mut block.frames {
        frame.tail = vec![0; padding];
        frame.multiplier = multiplier as i32;
    }
    block.settle();
}
