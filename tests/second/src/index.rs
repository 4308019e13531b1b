//! The index of night events, and what an event's code stands for (request 7 of document 02).

use crate::bytes::Order;
use crate::judge::judge;
use crate::model::{Model, Recording, Span};
use crate::questions::OUTSIDE;
use crate::record::Format;
use crate::refusal::{require_room, Refusal};

/// The numbers of an entry: recording, frame, channel, place in the frame, code.
pub const ENTRY_NUMBERS: usize = 5;
pub type Entry = [i64; ENTRY_NUMBERS];

/// The type of a channel of events.
pub const EVENT: i32 = 1;

/// The codes that the standard publishes, by its hexadecimal numbers, with their kinds.
pub const PUBLISHED: [(u64, &str); 13] = [
    (0x0000, "none"),
    (0x0003, "recording_start"),
    (0x0002, "recording_end"),
    (0x0005, "calibration_start"),
    (0x0004, "calibration_end"),
    (0x0007, "INST_start"),
    (0x0006, "INST_end"),
    (0x0102, "sleep_allowed"),
    (0x0104, "wake_call"),
    (0x0106, "lights_out"),
    (0x0108, "lights_on"),
    (0x010a, "measurement_stopped"),
    (0x010c, "measurement_resumed"),
];

/// The bit of a user's own code.
const USER_BIT: u64 = 1 << 12;

/// The entries by recording, frame, channel and place, if `room` numbers hold them.
pub fn index(file: &[u8], room: u64) -> Result<Vec<Entry>, Refusal> {
    let model = judge(file)?;
    let mut entries = Vec::new();
    for (number, recording) in (1..).zip(&model.recordings) {
        of_recording(&model, file, number, recording, &mut entries);
    }
    require_room(room, ENTRY_NUMBERS * entries.len())?;
    Ok(entries)
}

/// The changes of code in its channels of events; before its first sample each is 0.
fn of_recording(
    model: &Model,
    file: &[u8],
    number: i64,
    recording: &Recording,
    entries: &mut Vec<Entry>,
) {
    let slots = &recording.block.slots;
    let mut last = vec![0; slots.len()];
    for (frame_number, frame) in (1..).zip(&recording.block.frames) {
        for (index, slot) in slots.iter().enumerate() {
            let of_events = recording.channels[index].sub.channel_type == EVENT;
            if of_events && slot.format == Format::Signed16 {
                let codes = codes(model.order, file, frame.samples(slot));
                let place = [number, frame_number, index as i64 + 1];
                entries.extend(changes(place, codes, &mut last[index]));
            }
        }
    }
}

/// The codes that stand in a channel of events.
pub fn codes(order: Order, file: &[u8], samples: Span) -> impl Iterator<Item = u16> + '_ {
    let places = (samples.at..samples.at + samples.length).step_by(Format::Signed16.width());
    places.map(move |at| order.u16_at(file, at))
}

/// An entry for each code that is not 0 and not the one before it; the last one of all is kept.
fn changes<'a>(
    [recording, frame, channel]: [i64; 3],
    codes: impl Iterator<Item = u16> + 'a,
    last: &'a mut u16,
) -> impl Iterator<Item = Entry> + 'a {
    (0..).zip(codes).filter_map(move |(place, code)| {
        let before = std::mem::replace(last, code);
        let entry = [recording, frame, channel, place, i64::from(code)];
        (code != 0 && code != before).then_some(entry)
    })
}

/// The kind of an event's code, by its name in a corpus: published, a user's own, or reserved.
pub fn event_kind(code: u64) -> Result<&'static str, Refusal> {
    if code > u64::from(u16::MAX) {
        return Err(OUTSIDE);
    }
    let published = PUBLISHED.iter().find(|&&(known, _)| known == code);
    Ok(match published {
        Some(&(_, kind)) => kind,
        None if code & USER_BIT != 0 => "user",
        None => "reserved",
    })
}

#[cfg(test)]
mod tests {
    use super::*;

    #[test]
    fn hexadecimal_decides_at_the_end_of_inst() {
        assert_eq!(event_kind(6), Ok("INST_end"));
        assert_eq!(event_kind(8), Ok("reserved"));
    }

    #[test]
    fn a_user_s_code_has_bit_12_whatever_the_bits_above_it_are() {
        for code in [0x1000, 0x1003, 0x3000, 0xf0ff, 0xffff] {
            assert_eq!(event_kind(code), Ok("user"), "{code:x}");
        }
        for code in [0x0001, 0x0fff, 0x2000, 0xe106, 0x0103] {
            assert_eq!(event_kind(code), Ok("reserved"), "{code:x}");
        }
    }

    #[test]
    fn a_code_above_16_bits_is_outside() {
        assert_eq!(event_kind(65_535), Ok("user"));
        assert_eq!(event_kind(65_536), Err(OUTSIDE));
        assert_eq!(event_kind(u64::MAX), Err(OUTSIDE));
    }
}
