//! Questions drawn for the overview of a file, of one of its recordings most of all.

use super::questions::{about, all_inside, any, inside, run_channel, Question, Range};
use crate::model::Model;
use crate::overview::{end_of, epochs_of, EPOCH_NUMBERS, EPOCH_SECONDS};
use crate::random::Random;

const SINGLE: &str = "overview";
const RANGE: &str = "overview_range";

/// Where the first epoch, or the only one, stands among the arguments; a range's number and room follow it.
const FIRST: usize = 2;

/// Thirty times these are 14 in 32 bits, negative in signed 64 bits, and 14 in 64 bits.
const FAR: [u64; 3] = [
    (1 << 32) / EPOCH_SECONDS + 1,
    (1 << 63) / EPOCH_SECONDS + 1,
    u64::MAX / EPOCH_SECONDS + 1,
];

/// What is asked of a refused file, where no argument matters.
pub fn of_refused(random: &mut Random) -> [Question; 2] {
    [(SINGLE, 3), (RANGE, 5)].map(|(op, count)| {
        let args = (0..count).map(|_| any(random)).collect();
        Question { op, args }
    })
}

pub fn of_accepted(model: &Model, random: &mut Random) -> Vec<Question> {
    let count = model.recordings.len() as u64;
    let which = inside(random, (0, count));
    let block = &model.recordings[which as usize].block;
    let epochs = epochs_of(block);
    let channel = run_channel(&block.slots, false, random) as u64;
    let channels = block.slots.len() as u64;
    let place = [(which + 1, 1), (channel + 1, 1)];
    let asked = |place: [Range; 2], rest: &[Range]| [&place[..], rest].concat();

    let mut drawn = Vec::new();
    let anywhere = asked([(1, count), (1, channels)], &[(0, epochs)]);
    about(SINGLE, &anywhere, random, &mut drawn);
    let single = asked(place, &[(0, epochs)]);
    about(SINGLE, &single, random, &mut drawn);
    for epoch in FAR {
        drawn.push(asked_with(SINGLE, &single, &[epoch], random));
    }
    let numbers = EPOCH_NUMBERS as u64 * epochs;
    let rest = [(0, epochs + 1), (0, epochs + 1), (0, numbers + 1)];
    let range = asked(place, &rest);
    about(RANGE, &range, random, &mut drawn);
    // The last one that starts before the end, or there.
    let last = end_of(block) / EPOCH_SECONDS;
    for from_first in together(epochs, last, random) {
        drawn.push(asked_with(RANGE, &range, &from_first, random));
    }
    drawn
}

/// The question with these arguments from the first epoch on.
fn asked_with(
    op: &'static str,
    ranges: &[Range],
    from_first: &[u64],
    random: &mut Random,
) -> Question {
    let mut args = all_inside(random, ranges);
    args[FIRST..].copy_from_slice(from_first);
    Question { op, args }
}

/// First, number and room that belong together.
fn together(epochs: u64, last: u64, random: &mut Random) -> Vec<[u64; 3]> {
    const NUMBERS: u64 = EPOCH_NUMBERS as u64;
    let first = inside(random, (0, epochs));
    let rest = epochs - first;
    let number = inside(random, (1, rest));
    let answered = [
        [0, epochs, NUMBERS * epochs],
        [first, number, NUMBERS * number + 2],
        [first, rest, u64::MAX],
        [first, 0, 0],
        [last, 0, 0],
    ];
    let short = [
        [first, rest, NUMBERS * rest - 1],
        [first, number, number],
        [0, epochs, 0],
    ];
    let behind = [
        [first, rest + 1, u64::MAX],
        [first, rest + 1, 0],
        [epochs, 1, u64::MAX],
        [last + 1, 0, u64::MAX],
    ];
    // The end, its seconds or the numbers are more than 64 bits hold.
    let far = [
        [u64::MAX, 0, 0],
        [u64::MAX, 1, NUMBERS],
        [u64::MAX, 2, u64::MAX],
        [1, u64::MAX, 0],
        [1 << 63, 1 << 63, u64::MAX],
        [first.wrapping_neg(), first + number, u64::MAX],
        [first, u64::MAX / NUMBERS + 1, u64::MAX],
        [first, 1 << 63, 0],
    ];
    let farther = FAR.map(|far| [[far, 0, 0], [far, number, u64::MAX], [0, far, u64::MAX]]);
    [&answered[..], &short, &behind, &far, farther.as_flattened()].concat()
}
