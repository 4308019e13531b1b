//! What the epochs of an accepted file show, in words.

use super::shown::true_of;
use crate::model::{FrameBlock, Model, Slot};
use crate::overview::{end_of, epochs_of, overview_range, Epochs, EPOCH_NUMBERS, EPOCH_SECONDS};
use std::collections::BTreeSet;

/// What most of the others are about.
const SEVERAL: &str = "several epochs with samples";

pub fn shown(file: &[u8], model: &Model) -> BTreeSet<String> {
    let mut shown = BTreeSet::new();
    for (recording, of) in (1..).zip(&model.recordings) {
        for (channel, slot) in (1..).zip(&of.block.slots) {
            let forms = if slot.format.is_float() {
                true_of(&[(slot.count == 0, "floats without samples")])
            } else {
                let counts = counts(file, &of.block, recording, channel);
                in_channel(&of.block, slot, &counts)
            };
            if forms.contains(&SEVERAL) {
                shown.insert(format!("epochs of {:?}", slot.format));
                shown.insert(format!("epochs of {:?}", model.form));
            }
            shown.extend(forms.into_iter().map(str::to_string));
        }
    }
    shown
}

/// How many samples each epoch of a channel of whole numbers has.
fn counts(file: &[u8], block: &FrameBlock, recording: u64, channel: u64) -> Vec<i64> {
    let epochs = Epochs {
        recording,
        channel,
        first: 0,
        number: epochs_of(block),
    };
    let numbers = overview_range(file, epochs, u64::MAX).expect("epochs of a recording");
    numbers.into_iter().skip(2).step_by(EPOCH_NUMBERS).collect()
}

/// What the epochs of a channel of whole numbers show.
fn in_channel(block: &FrameBlock, slot: &Slot, counts: &[i64]) -> Vec<&'static str> {
    let (seconds, sampled) = (block.seconds as u64, slot.count > 0);
    let more = counts.iter().any(|count| *count > slot.count as i64);
    let several = counts.iter().filter(|count| **count > 0).count() > 1;
    let last = counts.iter().rposition(|count| *count > 0);
    let between = last.is_some_and(|last| counts[..last].contains(&0));
    let at_end = sampled && counts.last() == Some(&0);
    let whole = EPOCH_SECONDS.is_multiple_of(seconds);
    let even = end_of(block).is_multiple_of(EPOCH_SECONDS);
    true_of(&[
        (several, SEVERAL),
        (more, "several frames in an epoch"),
        (several && whole, "epochs of whole frames"),
        (
            several && seconds < EPOCH_SECONDS && !whole,
            "a frame that goes on into the next epoch",
        ),
        (between, "an empty epoch before another"),
        (
            at_end && seconds < EPOCH_SECONDS,
            "an empty epoch behind the start of a short frame",
        ),
        (
            at_end && seconds > EPOCH_SECONDS,
            "an empty epoch behind the start of a long frame",
        ),
        (several && even, "an end where an epoch would start"),
        (several && !even, "an end within an epoch"),
        (!sampled && counts.len() > 1, "empty epochs without samples"),
    ])
}
