//! Events of a night: an entry of the index, what its code stands for, and at what time it was.

use crate::{channel, event_kind, order, rows, Channel, Clock, Order, Refusal};
use std::collections::{BTreeMap, BTreeSet};

/// How many numbers an entry has in a lent buffer.
const NUMBERS: usize = 5;

/// Room for the entries of a usual night, in numbers.
pub const USUAL_ROOM: usize = 100 * NUMBERS;

/// An entry of the index of night events: a sample of a channel of type 1 and format 1 whose code is not 0 and is not
/// that of the sample before it in that channel and recording. The first sample of a recording comes behind 0.
#[derive(Clone, Copy, Debug, PartialEq, Eq, Hash, PartialOrd, Ord)]
pub struct Entry {
    /// The recording, from 1.
    pub recording: usize,
    /// The frame, from 1.
    pub frame: usize,
    /// The channel or the electrode, from 1.
    pub channel: usize,
    /// The sample in the frame, from 0.
    pub place: usize,
    /// The code, never 0.
    pub code: u16,
}

impl Entry {
    /// What its code stands for.
    pub fn kind(&self) -> EventKind {
        event_kind(self.code.into()).expect("every code of 16 bits has a kind")
    }
}

/// The first `count` entries of a buffer that was lent for the index.
pub fn entries(numbers: &[i64], count: usize) -> Vec<Entry> {
    let entries = numbers.chunks_exact(NUMBERS).take(count);
    entries
        .map(|entry| Entry {
            recording: entry[0] as usize,
            frame: entry[1] as usize,
            channel: entry[2] as usize,
            place: entry[3] as usize,
            code: entry[4] as u16,
        })
        .collect()
}

/// What an event's code stands for: one of the kinds that the standard publishes, a user's own, or reserved.
#[derive(Clone, Copy, Debug, PartialEq, Eq, Hash, PartialOrd, Ord)]
pub enum EventKind {
    /// No event: code 0.
    None,
    /// The recording starts: 3.
    RecordingStart,
    /// The recording ends: 2.
    RecordingEnd,
    /// The calibration signal starts: 5.
    CalibrationStart,
    /// The calibration signal ends: 4.
    CalibrationEnd,
    /// INST starts: 7.
    InstStart,
    /// INST ends: 6, and not the decimal 8 that the standard's table has beside 0006h.
    InstEnd,
    /// The patient may sleep: 0102h.
    SleepAllowed,
    /// The patient is woken: 0104h.
    WakeCall,
    /// Lights out: 0106h.
    LightsOut,
    /// Lights on: 0108h.
    LightsOn,
    /// The measurement is stopped: 010Ah.
    MeasurementStopped,
    /// The measurement is resumed: 010Ch.
    MeasurementResumed,
    /// A user's own: bit 12 is set. The recording's event items may say what it is.
    User,
    /// Any other code.
    Reserved,
}

impl EventKind {
    /// Every kind, by its number.
    pub const ALL: [EventKind; 15] = [
        EventKind::None,
        EventKind::RecordingStart,
        EventKind::RecordingEnd,
        EventKind::CalibrationStart,
        EventKind::CalibrationEnd,
        EventKind::InstStart,
        EventKind::InstEnd,
        EventKind::SleepAllowed,
        EventKind::WakeCall,
        EventKind::LightsOut,
        EventKind::LightsOn,
        EventKind::MeasurementStopped,
        EventKind::MeasurementResumed,
        EventKind::User,
        EventKind::Reserved,
    ];

    /// The kind that a number names, if it names one.
    pub fn from_number(number: u32) -> Option<EventKind> {
        EventKind::ALL.get(number as usize).copied()
    }

    /// The number, as the library answers it: those of `PSG_EVENT_NONE` to `PSG_EVENT_RESERVED` in include/psg.h.
    pub const fn number(self) -> u32 {
        self as u32
    }
}

/// An entry with the clock time of its sample: the clock of its frame, and what the samples before it take. Behind
/// midnight it is a time of the next day. The clock is the recorder's, as each frame has it; no frame has a date.
///
/// The time is in whole nanoseconds, worked out without floats. Where the channel has a period (bit 0 of its flags is
/// 1), it is exact: the place times the period. Where it has a rate in Hz, it is the place divided by the rate, rounded
/// down to a nanosecond; at 100 Hz that is exact, at 3 Hz less than a nanosecond early.
#[derive(Clone, Copy, Debug, PartialEq, Eq)]
pub struct TimedEntry {
    /// The entry.
    pub entry: Entry,
    /// Hour, minute and second.
    pub clock: Clock,
    /// The part of a second, in nanoseconds: 0 to 999,999,999.
    pub nanosecond: u32,
}

const NANOSECONDS: u64 = 1_000_000_000;
const PER_MICROSECOND: u64 = 1_000;
const DAY: u64 = 24 * 60 * 60 * NANOSECONDS;

/// The entries of a file with their times.
pub fn timed(file: &[u8], entries: Vec<Entry>) -> Result<Vec<TimedEntry>, Refusal> {
    if entries.is_empty() {
        return Ok(Vec::new());
    }
    let (order, frames) = (order(file)?, frames(file)?);
    let channels = channels(file, &entries)?;
    let timed = entries.into_iter().map(|entry| {
        let frame = frames[entry.recording - 1][entry.frame - 1];
        let channel = &channels[&(entry.recording, entry.channel)];
        let (clock, nanosecond) = later(clock_at(file, order, frame), offset(channel, entry.place));
        TimedEntry {
            entry,
            clock,
            nanosecond,
        }
    });
    Ok(timed.collect())
}

/// The channels that have entries, by recording and number, each asked for once.
fn channels(file: &[u8], entries: &[Entry]) -> Result<BTreeMap<(usize, usize), Channel>, Refusal> {
    let named: BTreeSet<_> = entries
        .iter()
        .map(|entry| (entry.recording, entry.channel))
        .collect();
    named
        .into_iter()
        .map(|(recording, number)| Ok(((recording, number), channel(file, recording, number)?)))
        .collect()
}

/// Where the frames stand, recording by recording, by the table: to ask for each clock by itself would judge the file
/// as often as there are frames with entries.
fn frames(file: &[u8]) -> Result<Vec<Vec<usize>>, Refusal> {
    const RECORDING: i64 = 10;
    const FRAME: i64 = 145;
    let mut all: Vec<Vec<usize>> = Vec::new();
    for row in rows(file)? {
        match (row.code, all.last_mut()) {
            (RECORDING, _) => all.push(Vec::new()),
            (FRAME, Some(frames)) => frames.push(row.position as usize),
            _ => {}
        }
    }
    Ok(all)
}

/// The clock of the frame that stands at a position.
fn clock_at(file: &[u8], order: Order, position: usize) -> Clock {
    let number = |at: usize| {
        let bytes = [file[position + at], file[position + at + 1]];
        u32::from(match order {
            Order::Little => u16::from_le_bytes(bytes),
            Order::Big => u16::from_be_bytes(bytes),
        })
    };
    Clock {
        hour: number(16),
        minute: number(18),
        second: number(20),
    }
}

/// The nanoseconds from a frame's start to a sample of a channel that has samples. A frame has at most 3600 seconds,
/// and 1,000,000 samples in each, so 64 bits are enough.
fn offset(channel: &Channel, place: usize) -> u64 {
    const PERIOD_FLAG: i32 = 1;
    let (place, rate) = (place as u64, channel.rate as u64);
    match channel.flags & PERIOD_FLAG {
        0 => place * NANOSECONDS / rate,
        _ => place * rate * PER_MICROSECOND,
    }
}

/// The time so many nanoseconds after a clock, and its part of a second.
fn later(clock: Clock, nanoseconds: u64) -> (Clock, u32) {
    let seconds = u64::from((clock.hour * 60 + clock.minute) * 60 + clock.second);
    let time = (seconds * NANOSECONDS + nanoseconds) % DAY;
    let seconds = (time / NANOSECONDS) as u32;
    let clock = Clock {
        hour: seconds / 3600,
        minute: seconds / 60 % 60,
        second: seconds % 60,
    };
    (clock, (time % NANOSECONDS) as u32)
}

#[cfg(test)]
mod tests {
    use super::*;

    fn clock(hour: u32, minute: u32, second: u32) -> Clock {
        Clock {
            hour,
            minute,
            second,
        }
    }

    #[test]
    fn a_time_goes_on_behind_midnight() {
        let last = clock(23, 59, 59);
        assert_eq!(later(last, 0), (last, 0));
        assert_eq!(later(last, NANOSECONDS - 1), (last, 999_999_999));
        assert_eq!(later(last, NANOSECONDS), (clock(0, 0, 0), 0));
        assert_eq!(later(last, 3600 * NANOSECONDS), (clock(0, 59, 59), 0));
        assert_eq!(
            later(clock(9, 59, 0), 61 * NANOSECONDS + 7),
            (clock(10, 0, 1), 7)
        );
    }

    /// The kinds by the names that the header has for C, and their numbers there.
    #[test]
    fn the_c_side_has_the_same_kinds() {
        let path = concat!(env!("CARGO_MANIFEST_DIR"), "/../../include/psg.h");
        let text = std::fs::read_to_string(path).expect("the C side");
        let lines = text.lines().map(|line| line.trim().trim_end_matches(','));
        let said: Vec<&str> = lines
            .filter(|line| line.starts_with("PSG_EVENT_"))
            .collect();
        let own = EventKind::ALL.map(|kind| {
            let mut name = String::from("PSG_EVENT");
            for letter in format!("{kind:?}").chars() {
                if letter.is_uppercase() {
                    name.push('_');
                }
                name.push(letter.to_ascii_uppercase());
            }
            format!("{name} = {}", kind.number())
        });
        assert_eq!(said, own);
    }
}
