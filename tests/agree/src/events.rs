//! The times of a file's events, which the binding works out, beside those that follow from the second program's
//! reading.

use ask::refused;
use psg::{Clock, Entry, TimedEntry};
use second::index::index;
use second::model::Model;
use second::record::Rate;
use second::refusal::Refusal;

/// The first difference of the entries with their times, or of the refusal.
pub fn times_differ(file: &[u8], verdict: &Result<Model, Refusal>) -> Option<String> {
    let found = refused(psg::timed_entries(file));
    let expected = match verdict {
        Ok(model) => Ok(timed(file, model)),
        Err(refusal) => Err(*refusal),
    };
    (found != expected).then(|| match (found, expected) {
        (Ok(found), Ok(expected)) => {
            let pairs = found.iter().zip(&expected);
            let at = pairs
                .take_while(|(found, expected)| found == expected)
                .count();
            let (found, expected) = (found.get(at), expected.get(at));
            format!("times: entry {at} is {found:?}, but by the reading {expected:?}")
        }
        (found, expected) => format!("times: {found:?}, but by the reading {expected:?}"),
    })
}

/// The entries that the second program lists, each with its time.
fn timed(file: &[u8], model: &Model) -> Vec<TimedEntry> {
    let entries = index(file, u64::MAX).expect("an accepted file");
    let timed = entries.into_iter().map(|numbers| {
        let [recording, frame, channel, place, code] = numbers.map(|number| number as usize);
        let (clock, nanosecond) = time(model, [recording, frame, channel], place as u128);
        TimedEntry {
            entry: Entry {
                recording,
                frame,
                channel,
                place,
                code: code as u16,
            },
            clock,
            nanosecond,
        }
    });
    timed.collect()
}

/// The clock of the frame and what the samples before the place take, in nanoseconds, rounded down; of its day alone.
fn time(model: &Model, [recording, frame, channel]: [usize; 3], place: u128) -> (Clock, u32) {
    const NANOSECONDS: u128 = 1_000_000_000;
    let recording = &model.recordings[recording - 1];
    let [hour, minute, second] = recording.block.frames[frame - 1].clock.map(u128::from);
    let passed = match recording.channels[channel - 1].rate {
        Rate::None => unreachable!("a channel of events has samples"),
        Rate::Hertz(rate) => place * NANOSECONDS / u128::from(rate),
        Rate::Microseconds(period) => place * u128::from(period) * 1000,
    };
    let time = ((hour * 60 + minute) * 60 + second) * NANOSECONDS + passed;
    let part = |of: u128, count: u128| (time / of % count) as u32;
    let clock = Clock {
        hour: part(3600 * NANOSECONDS, 24),
        minute: part(60 * NANOSECONDS, 60),
        second: part(NANOSECONDS, 60),
    };
    (clock, part(1, NANOSECONDS))
}
