//! Turn: the file in the other byte order. Number fields and samples are
//! reversed; text, reserve and padding are left.

use crate::header;
use crate::judge::judge;
use crate::model::{Frame, Item, Model, Record, Recording, Slot};
use crate::record::{self, frame, items, Format, Kind};
use crate::refusal::{self, require_room, Refusal};

pub fn turn(file: &[u8], room: u64) -> Result<Vec<u8>, Refusal> {
    let model = judge(file)?;
    refuse_makers(&model)?;
    require_room(room, file.len())?;
    let mut out = file.to_vec();
    out[header::ORDER_AT] = model.order.other().letter();
    for record in &model.records {
        reverse_numbers(&mut out, record.at, record.kind);
    }
    for recording in &model.recordings {
        turn_items(&mut out, recording);
        turn_samples(&mut out, recording);
    }
    Ok(out)
}

/// 18: the body of a maker's record is unknown, so it cannot be turned.
pub fn refuse_makers(model: &Model) -> Result<(), Refusal> {
    match model.first_maker() {
        None => Ok(()),
        Some(maker) => Err(Refusal::new(refusal::MAKER, maker.at + record::CODE_AT)),
    }
}

/// Reverses the number fields of the record that starts at `at`.
pub fn reverse_numbers(out: &mut [u8], at: usize, kind: Kind) {
    for offset in record::HEAD_NUMBERS.iter().chain(kind.rules().numbers) {
        out[at + offset..at + offset + 4].reverse();
    }
    if kind == Kind::Frame {
        for offset in frame::CLOCK {
            out[at + offset..at + offset + frame::CLOCK_WIDTH].reverse();
        }
    }
}

/// Reverses the size and the code of the item that starts at `at`.
pub fn reverse_item(out: &mut [u8], at: usize) {
    for offset in [items::ITEM_SIZE, items::ITEM_CODE] {
        out[at + offset..at + offset + 4].reverse();
    }
}

/// Reverses each sample in `samples`.
pub fn reverse_samples(samples: &mut [u8], format: Format) {
    for sample in samples.chunks_exact_mut(format.width()) {
        sample.reverse();
    }
}

/// Turns the items that stand in the recording itself: an inherited item is
/// turned once, where it stands.
fn turn_items(out: &mut [u8], recording: &Recording) {
    for part in &recording.parts {
        for item in items_in(recording, part) {
            reverse_item(out, item.at);
        }
    }
}

/// The items of one of the recording's own records, if it has any.
pub fn items_in<'a>(recording: &'a Recording, part: &Record) -> &'a [Item] {
    match part.kind {
        Kind::Patient => &recording.patient,
        Kind::Events => &recording.events,
        _ => &[],
    }
}

fn turn_samples(out: &mut [u8], recording: &Recording) {
    for frame in &recording.block.frames {
        for slot in &recording.block.slots {
            turn_slot(out, frame, slot);
        }
    }
}

fn turn_slot(out: &mut [u8], frame: &Frame, slot: &Slot) {
    let span = frame.samples(slot);
    reverse_samples(&mut out[span.at..span.at + span.length], slot.format);
}
