//! The index of night events: by hand, in both orders, and refused.

mod common;

use common::{Pen, PENS};
use second::index::{index, Entry};
use second::refusal::Refusal;

const ROOM: u64 = u64::MAX;

/// A recording of frames of one second: channel 1 has events, channel 2 is of another type, channel 3 has events in
/// samples of 24 bits, and channel 4 has events too.
fn recording(pen: Pen, serial: i32, frames: &[[&[i32]; 2]]) -> Vec<u8> {
    let rate = frames[0][0].len() as i32;
    let frame = |(number, codes): (i32, &[&[i32]; 2])| {
        let other = vec![0x106; rate as usize];
        let channels: [(usize, &[i32]); 4] =
            [(2, codes[0]), (2, &other), (3, &other), (2, codes[1])];
        let mut samples = Vec::new();
        for (width, values) in channels {
            for &value in values {
                let at = samples.len();
                samples.resize(at + width, 0);
                pen.0.put(&mut samples, at, width, value);
            }
        }
        pen.frame(number, 24 + samples.len() as i32, 0, &samples)
    };
    let frames: Vec<_> = (1..).zip(frames).map(frame).collect();
    let channels = [
        [0, 1, 1, rate],
        [0, 2, 1, rate],
        [0, 1, 2, rate],
        [0, 1, 1, rate],
    ];
    pen.recording(
        serial,
        0,
        &[
            pen.overview(4, frames.len() as i32),
            pen.channels(&channels),
            pen.items(130, &[]),
            pen.frames(1, 0, &frames),
        ],
    )
}

/// Two recordings: a code that goes on into the next frame, one that comes back behind 0, one with its high bit set,
/// and in the second recording the code that the first one ended with.
fn night(pen: Pen) -> Vec<u8> {
    let first: [[&[i32]; 2]; 2] = [[&[0, 3, 3], &[0, 0, 7]], [&[3, 0, 3], &[7, 6, -4096]]];
    let second: [[&[i32]; 2]; 1] = [[&[3, 3, 2], &[-4096, -4096, 0]]];
    let recordings = [recording(pen, 1, &first), recording(pen, 2, &second)];
    pen.file(&recordings)
}

const ENTRIES: [Entry; 8] = [
    [1, 1, 1, 1, 3],
    [1, 1, 4, 2, 7],
    [1, 2, 1, 2, 3],
    [1, 2, 4, 1, 6],
    [1, 2, 4, 2, 0xf000],
    [2, 1, 1, 0, 3],
    [2, 1, 1, 2, 2],
    [2, 1, 4, 0, 0xf000],
];

#[test]
fn every_change_to_a_code_is_listed_once() {
    for pen in PENS {
        assert_eq!(index(&night(pen), ROOM), Ok(ENTRIES.to_vec()));
    }
}

#[test]
fn room_is_counted_in_numbers_five_an_entry() {
    for pen in PENS {
        let file = night(pen);
        assert_eq!(index(&file, 40), Ok(ENTRIES.to_vec()));
        assert_eq!(index(&file, 39), Err(Refusal::new(17, 40)));
        assert_eq!(index(&file[1..], 0), Err(Refusal::new(2, 0)));
    }
}
