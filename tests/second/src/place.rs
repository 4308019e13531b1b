//! Where the samples of a channel stand in a frame, and the part of a file that is cut by such an answer (request 8 of
//! document 02).

use crate::judge::judge;
use crate::model::{Frame, Slot, Span};
use crate::questions::samples_of;
use crate::refusal::Refusal;

/// The position of the first sample, or the one that it would have; the bytes of a sample; and how many there are.
#[derive(Clone, Copy, Debug, PartialEq, Eq)]
pub struct Place {
    pub position: u64,
    pub width: u64,
    pub count: u64,
}

pub fn place(file: &[u8], recording: u64, frame: u64, channel: u64) -> Result<Place, Refusal> {
    let model = judge(file)?;
    let (frame, slot) = samples_of(&model, recording, frame, channel)?;
    Ok(place_in(frame, slot))
}

pub fn place_in(frame: &Frame, slot: &Slot) -> Place {
    Place {
        position: frame.samples(slot).at as u64,
        width: slot.format.width() as u64,
        count: slot.count,
    }
}

/// What is cut by a place from a file of so many bytes, be it another than was asked: the place's bytes if all of them
/// lie inside, else the empty part at the file's end. 128 bits hold the end of any place.
pub fn part(length: u64, place: Place) -> Span {
    let [position, width, count] = [place.position, place.width, place.count].map(u128::from);
    let bytes = width * count;
    if position + bytes > u128::from(length) {
        return Span {
            at: length as usize,
            length: 0,
        };
    }
    Span {
        at: position as usize,
        length: bytes as usize,
    }
}
