//! Rewrite: the canonical file in a stated byte order.

use crate::bytes::Order;
use crate::header::{self, Header};
use crate::judge::judge;
use crate::model::{Frame, FrameBlock, Model, Record, Recording};
use crate::record::{self, channel, channels, frame, frames, Kind, Subs, HEAD};
use crate::refusal::{self, require_room, Refusal};
use crate::turn::{items_in, refuse_makers, reverse_item, reverse_numbers, reverse_samples};

/// The canonical file, if `room` bytes hold it.
pub fn rewrite(file: &[u8], order: u64, room: u64) -> Result<Vec<u8>, Refusal> {
    let model = judge(file)?;
    let order = asked_order(order)?;
    if order != model.order {
        refuse_makers(&model)?;
    }
    let needed = canonical_length(&model);
    require_room(room, needed)?;
    let mut writer = Writer {
        file,
        order,
        turning: order != model.order,
        out: Vec::with_capacity(needed),
    };
    writer.write(&model);
    Ok(writer.out)
}

/// What a rewrite is given for each recording beyond the file's length.
const RESERVED: usize = 254;

/// The bytes to reserve for a rewrite in either order, before its length is known.
pub fn rewrite_room(file: &[u8]) -> Result<usize, Refusal> {
    let model = judge(file)?;
    Ok(file.len() + RESERVED * model.recordings.len())
}

fn asked_order(letter: u64) -> Result<Order, Refusal> {
    u8::try_from(letter)
        .ok()
        .and_then(Order::from_letter)
        .ok_or(Refusal::new(refusal::QUESTION, 0))
}

/// The canonical size and multiplier for a content of `n` bytes.
#[derive(Clone, Copy, Debug, PartialEq, Eq)]
pub struct Grouping {
    pub size: i32,
    pub multiplier: i32,
    /// The padding that makes size times multiplier out of the content.
    pub padding: usize,
}

/// Multiplier 0 while the size field holds `n`, else the smallest that makes
/// the quotient, rounded up, fit.
pub fn grouping(n: usize) -> Grouping {
    const MOST_SIZE: usize = i32::MAX as usize;
    if n <= MOST_SIZE {
        return Grouping {
            size: n as i32,
            multiplier: 0,
            padding: 0,
        };
    }
    let multiplier = n.div_ceil(MOST_SIZE);
    let size = n.div_ceil(multiplier);
    Grouping {
        size: size as i32,
        multiplier: multiplier as i32,
        padding: size * multiplier - n,
    }
}

fn padded(n: usize) -> usize {
    n + grouping(n).padding
}

fn canonical_length(model: &Model) -> usize {
    let recordings = model.recordings.iter();
    let lengths = recordings.map(|recording| padded(recording_content(recording)));
    header::LENGTH + lengths.sum::<usize>()
}

/// A recording's canonical length before its padding; 140 counts with its own.
fn recording_content(recording: &Recording) -> usize {
    let lengths = recording.parts.iter().map(|part| match part.kind {
        Kind::Frames => padded(recording.block.content()),
        _ => part.length,
    });
    HEAD + lengths.sum::<usize>()
}

struct Writer<'a> {
    file: &'a [u8],
    order: Order,
    /// The order asked for is not the file's.
    turning: bool,
    out: Vec<u8>,
}

impl Writer<'_> {
    fn write(&mut self, model: &Model) {
        let header = Header {
            order: self.order,
            ..model.header()
        };
        self.out.extend(header::canonical(&header));
        for recording in &model.recordings {
            self.recording(recording);
        }
    }

    fn recording(&mut self, recording: &Recording) {
        let grouping = grouping(recording_content(recording));
        let at = self.fixed_part(&recording.record, HEAD);
        self.group(at, grouping);
        for part in &recording.parts {
            self.part(recording, part);
        }
        self.zeros(grouping.padding);
    }

    fn part(&mut self, recording: &Recording, part: &Record) {
        if let Some(subs) = part.kind.subs() {
            return self.list(part, subs);
        }
        match part.kind {
            Kind::Maker => self.copy(part.at, part.length),
            Kind::Patient | Kind::Events => self.items(recording, part),
            Kind::Frames => self.block(&recording.block),
            _ => {
                self.fixed_part(part, part.length);
            }
        }
    }

    fn list(&mut self, part: &Record, subs: &Subs) {
        let at = self.fixed_part(part, part.length);
        for sub in (channels::FIRST..part.length).step_by(channel::LENGTH) {
            self.settle(at + sub, subs.kind);
        }
    }

    fn items(&mut self, recording: &Recording, part: &Record) {
        let at = self.fixed_part(part, part.length);
        if self.turning {
            for item in items_in(recording, part) {
                reverse_item(&mut self.out, at + item.at - part.at);
            }
        }
    }

    fn block(&mut self, block: &FrameBlock) {
        let grouping = grouping(block.content());
        let at = self.fixed_part(&block.record, frames::FIRST);
        self.group(at, grouping);
        self.number(at + frames::FRAME_LENGTH, block.frame_content as i32);
        for frame in &block.frames {
            self.frame(block, frame);
        }
        self.zeros(grouping.padding);
    }

    fn frame(&mut self, block: &FrameBlock, frame: &Frame) {
        let at = self.fixed_part(&frame.record, frame::SAMPLES);
        let whole = Grouping {
            size: block.frame_content as i32,
            multiplier: 0,
            padding: 0,
        };
        self.group(at, whole);
        for slot in &block.slots {
            let span = frame.samples(slot);
            let start = self.out.len();
            self.copy(span.at, span.length);
            if self.turning {
                reverse_samples(&mut self.out[start..], slot.format);
            }
        }
    }

    /// Copies the first `length` bytes of a record and settles its own fields;
    /// gives where it stands in the output.
    fn fixed_part(&mut self, record: &Record, length: usize) -> usize {
        let at = self.out.len();
        self.copy(record.at, length);
        self.settle(at, record.kind);
        at
    }

    /// Numbers in the order asked for, reserve zero.
    fn settle(&mut self, at: usize, kind: Kind) {
        if self.turning {
            reverse_numbers(&mut self.out, at, kind);
        }
        for (offset, length) in kind.rules().reserve {
            self.out[at + offset..at + offset + length].fill(0);
        }
    }

    fn group(&mut self, at: usize, grouping: Grouping) {
        self.number(at + record::SIZE_AT, grouping.size);
        self.number(at + record::MULTIPLIER_AT, grouping.multiplier);
    }

    fn number(&mut self, at: usize, value: i32) {
        self.order.put(&mut self.out, at, 4, value);
    }

    fn copy(&mut self, at: usize, length: usize) {
        self.out.extend(&self.file[at..at + length]);
    }

    fn zeros(&mut self, length: usize) {
        self.out.resize(self.out.len() + length, 0);
    }
}

#[cfg(test)]
mod tests {
    use super::*;

    fn grouped(n: usize) -> (i32, i32, usize) {
        let Grouping {
            size,
            multiplier,
            padding,
        } = grouping(n);
        (multiplier, size, padding)
    }

    #[test]
    fn worked_values_10_to_12() {
        assert_eq!(grouped(2_147_483_647), (0, 2_147_483_647, 0));
        assert_eq!(grouped(2_147_483_648), (2, 1_073_741_824, 0));
        assert_eq!(grouped(4_294_967_295), (3, 1_431_655_765, 0));
    }

    #[test]
    fn the_largest_content_is_grouped_within_the_multiplier() {
        let (multiplier, size, padding) = grouped(record::MOST_CONTENT as usize);
        assert_eq!((multiplier, size), (65, 2_114_445_439));
        assert!(record::padding_fits(padding as u64, multiplier));
    }
}
