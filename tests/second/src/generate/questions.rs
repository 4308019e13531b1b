//! Questions drawn for a file: each argument at the bounds of its range and far outside, the others inside it.

use super::epochs;
use crate::index::PUBLISHED;
use crate::judge::judge;
use crate::model::{Recording, Slot};
use crate::random::Random;

#[derive(Clone, Debug, PartialEq, Eq)]
pub struct Question {
    pub op: &'static str,
    pub args: Vec<u64>,
}

/// The questions without an argument.
pub const PLAIN: [Question; 2] = [plain("header"), plain("rewrite_room")];

const fn plain(op: &'static str) -> Question {
    Question {
        op,
        args: Vec::new(),
    }
}

/// The questions for a run of samples, and whether they are for floats.
const RUNS: [(&str, bool); 2] = [("run_int", false), ("run_float", true)];

/// Where a run's first sample stands among the arguments; the number and the room follow it.
const FIRST: usize = 3;

/// The first number of a range, and how many there are.
pub type Range = (u64, u64);

/// A range for each of a question's arguments.
pub type Ranges = Vec<Range>;

/// The question for the kind of an event's code, and the codes that have one.
const KIND: &str = "event_kind";
const CODES: Range = (0, 1 << 16);

const AFRESH: usize = 4;

/// A number of the range, or its first where it is empty.
pub fn inside(random: &mut Random, (first, count): Range) -> u64 {
    first + random.word() % count.max(1)
}

pub fn all_inside(random: &mut Random, ranges: &[Range]) -> Vec<u64> {
    ranges.iter().map(|&range| inside(random, range)).collect()
}

/// A number of any size.
pub fn any(random: &mut Random) -> u64 {
    let size = random.below(64);
    random.word() >> size
}

/// What is asked about a file. A refused file has one recording with one of each.
pub fn questions(file: &[u8], random: &mut Random) -> Vec<Question> {
    let mut drawn = PLAIN.to_vec();
    match judge(file) {
        Err(_) => {
            let mut all = ranges(1, None, random);
            all.extend(run_ranges(1, None, random));
            all.push((KIND, vec![CODES]));
            for (op, ranges) in all {
                let args = all_inside(random, &ranges);
                drawn.push(Question { op, args });
            }
            drawn.push(published(random));
            drawn.extend(epochs::of_refused(random));
        }
        Ok(model) => {
            let count = model.recordings.len() as u64;
            let which = inside(random, (0, count)) as usize;
            let recording = model.recordings.get(which);
            let number = which as u64 + 1;
            for (op, mut ranges) in ranges(count, recording, random) {
                about(op, &ranges, random, &mut drawn);
                ranges[0] = (number, 1);
                about(op, &ranges, random, &mut drawn);
            }
            for (op, ranges) in run_ranges(number, recording, random) {
                about(op, &ranges, random, &mut drawn);
                runs(op, &ranges, random, &mut drawn);
            }
            about(KIND, &vec![CODES], random, &mut drawn);
            drawn.extend((0..AFRESH).map(|_| published(random)));
            drawn.extend(epochs::of_accepted(&model, random));
        }
    }
    drawn
}

/// Each other question, with the ranges of its arguments in a recording.
fn ranges(
    recordings: u64,
    recording: Option<&Recording>,
    random: &mut Random,
) -> Vec<(&'static str, Ranges)> {
    let many = |count: fn(&Recording) -> usize| (1, recording.map_or(1, |r| count(r) as u64));
    let channels = many(|r| r.channels.len());
    let frames = many(|r| r.block.frames.len());
    let channel = inside(random, (0, channels.1)) as usize;
    let samples = recording.and_then(|r| r.block.slots.get(channel));
    let samples = (0, samples.map_or(1, |slot| slot.count));
    let recordings = (1, recordings);
    let sampled = (channel as u64 + 1, 1);
    vec![
        ("facts", vec![recordings]),
        ("channel", vec![recordings, channels]),
        ("patient_item", vec![recordings, many(|r| r.patient.len())]),
        ("event_item", vec![recordings, many(|r| r.events.len())]),
        ("clock", vec![recordings, frames]),
        ("place", vec![recordings, frames, channels]),
        ("sample", vec![recordings, frames, sampled, samples]),
        ("montage_count", vec![recordings]),
        ("montage", vec![recordings, many(|r| r.montage.len())]),
        ("track", vec![recordings, channels]),
    ]
}

/// The questions for a run, with the ranges of their arguments in a recording.
fn run_ranges(
    number: u64,
    recording: Option<&Recording>,
    random: &mut Random,
) -> Vec<(&'static str, Ranges)> {
    let slots: &[Slot] = recording.map_or(&[], |r| &r.block.slots);
    let frames = recording.map_or(1, |r| r.block.frames.len() as u64);
    let run = |(op, floats)| {
        let channel = run_channel(slots, floats, random);
        let count = slots.get(channel).map_or(1, |slot| slot.count);
        let place = [(number, 1), (1, frames), (channel as u64 + 1, 1)];
        (op, [place, [(0, count + 1); 3]].concat())
    };
    RUNS.into_iter().map(run).collect()
}

/// A channel that the question is for; now and then, and where there is none, any.
pub fn run_channel(slots: &[Slot], floats: bool, random: &mut Random) -> usize {
    const ANY_PERCENT: usize = 10;
    let is_for = |&channel: &usize| slots[channel].format.is_float() == floats;
    let channels: Vec<usize> = (0..slots.len()).filter(is_for).collect();
    if channels.is_empty() || random.chance(ANY_PERCENT) {
        return inside(random, (0, slots.len() as u64)) as usize;
    }
    random.pick(&channels)
}

/// A code that is published, or one beside it: the next, one with the bit of a user's, or with a bit above that.
fn published(random: &mut Random) -> Question {
    let (code, _) = random.pick(&PUBLISHED);
    let code = random.pick(&[
        code,
        code,
        code + 1,
        code | 1 << 12,
        code | 1 << 13,
        code | 1 << 15,
    ]);
    Question {
        op: KIND,
        args: vec![code],
    }
}

/// One question with each argument in turn at its bounds, then with some inside and some of any size.
pub fn about(op: &'static str, ranges: &Ranges, random: &mut Random, drawn: &mut Vec<Question>) {
    for (place, &(first, count)) in ranges.iter().enumerate() {
        let last = (first + count).saturating_sub(1);
        for bound in [0, 1, last, last + 1, 1 << 32, 1 << 63, u64::MAX] {
            let mut args = all_inside(random, ranges);
            args[place] = bound;
            drawn.push(Question { op, args });
        }
    }
    for _ in 0..AFRESH {
        let mut args = all_inside(random, ranges);
        drawn.push(Question {
            op,
            args: args.clone(),
        });
        let place = random.below(args.len());
        args[place] = any(random);
        drawn.push(Question { op, args });
    }
}

/// Runs of one channel in a frame: first, number and room that belong together.
fn runs(op: &'static str, ranges: &Ranges, random: &mut Random, drawn: &mut Vec<Question>) {
    let count = ranges[FIRST].1 - 1;
    let first = inside(random, ranges[FIRST]);
    let rest = count - first;
    let number = inside(random, (0, rest + 1));
    let answered = [
        [0, count, count],
        [first, number, number + 3],
        [first, rest, u64::MAX],
        [count, 0, 0],
    ];
    let short = [[first, rest, rest.saturating_sub(1)], [0, count, 0]];
    let behind = [
        [first, rest + 1, u64::MAX],
        [first, rest + 1, 0],
        [count + 1, 0, 0],
    ];
    // Their end, or the bytes up to it, are more than 64 bits hold.
    let far = [
        [u64::MAX, 1, 1],
        [1, u64::MAX, 0],
        [1 << 63, 1 << 63, u64::MAX],
        [first.wrapping_neg(), first + number, u64::MAX],
        [1 << 62, number, number],
        [u64::MAX / 3 + 1, number, number],
        [first, 1 << 61, 0],
    ];
    for run in answered.iter().chain(&short).chain(&behind).chain(&far) {
        let mut args = all_inside(random, ranges);
        args[FIRST..].copy_from_slice(run);
        drawn.push(Question { op, args });
    }
}
