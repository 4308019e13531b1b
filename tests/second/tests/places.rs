//! Places: by hand, with channels that have no samples, of generated files, and the parts that are cut by them.

mod common;

use common::{Pen, PENS};
use second::ask::answer;
use second::generate;
use second::judge::judge;
use second::lines::answer_line;
use second::model::Span;
use second::place::{part, place, Place};
use second::questions::{sample, sample_at};
use second::record::Kind;
use second::refusal::Refusal;
use second::turn::turn;

/// Flags, type, format and rate: three channels without samples among four with some, one of each format.
const CHANNELS: [[i32; 4]; 7] = [
    [0, 0, 2, 0],
    [0, 1, 1, 3],
    [1, 1, 2, 500_000],
    [1, 0, 3, 0],
    [0, 1, 3, 4],
    [0, 1, 4, 1],
    [0, 0, 4, 0],
];

/// The width of each, and its samples in a second.
const WIDTHS: [u64; 7] = [3, 2, 3, 4, 4, 4, 4];
const COUNTS: [u64; 7] = [0, 3, 2, 0, 4, 1, 0];

/// The bytes of a second's samples.
const BYTES: usize = 6 + 6 + 16 + 4;

/// Frames of a second with four bytes of padding, then a recording that takes the channels over, of two seconds.
const FRAME: usize = 24 + BYTES + 4;
const FIRST: usize = 32 + 16 + 128 + (32 + 7 * 256) + 24 + 32;
const SECOND: usize = FIRST + 3 * FRAME + 16 + 16 + 128 + 32;

fn file(pen: Pen) -> Vec<u8> {
    let frame = |serial| pen.frame(serial, FRAME as i32, 5, &[serial as u8; BYTES]);
    let first = pen.recording(
        1,
        0,
        &[
            pen.overview(7, 3),
            pen.channels(&CHANNELS),
            pen.items(130, &[]),
            pen.frames(1, 0, &[1, 2, 3].map(frame)),
        ],
    );
    let frame = pen.frame(1, 24 + 2 * BYTES as i32, 0, &[9; 2 * BYTES]);
    let second = pen.recording(2, 0, &[pen.overview(7, 1), pen.frames(2, 0, &[frame])]);
    pen.file(&[first, second])
}

/// The places of a frame that starts there, of so many seconds.
fn places(start: usize, seconds: u64) -> [Place; 7] {
    let mut position = start as u64 + 24;
    std::array::from_fn(|index| {
        let (width, count) = (WIDTHS[index], COUNTS[index] * seconds);
        let place = Place {
            position,
            width,
            count,
        };
        position += width * count;
        place
    })
}

fn refused(number: u8, at: usize) -> Option<Refusal> {
    Some(Refusal { number, at })
}

#[test]
fn a_place_is_behind_the_channels_before_with_samples_or_without() {
    for pen in PENS {
        let file = file(pen);
        for (recording, frame, start, seconds) in [
            (1, 1, FIRST, 1),
            (1, 2, FIRST + FRAME, 1),
            (1, 3, FIRST + 2 * FRAME, 1),
            (2, 1, SECOND, 2),
        ] {
            for (channel, expected) in (1..).zip(places(start, seconds)) {
                let found = place(&file, recording, frame, channel);
                assert_eq!(found, Ok(expected), "{recording} {frame} {channel}");
            }
        }
    }
}

#[test]
fn the_file_is_judged_first_then_the_numbers() {
    let file = file(PENS[1]);
    for outside in [[0, 1, 1], [3, 1, 1], [1, 4, 1], [2, 2, 1], [1, 1, 8]] {
        let [recording, frame, channel] = outside;
        let found = place(&file, recording, frame, channel);
        assert_eq!(found.err(), refused(19, 0), "{outside:?}");
    }
    let cut = &file[..file.len() - 1];
    let last = judge(&file).expect("a valid file").recordings[1].record.at;
    assert_eq!(place(cut, 1, 1, 1).err(), refused(10, last));
    assert_eq!(place(cut, 3, 1, 1).err(), refused(10, last));
}

#[test]
fn its_lines() {
    let file = file(PENS[0]);
    let line = |args: &[u64]| answer(&file, "place", args).map(answer_line);
    let says = |answer: &str| Some(answer.to_string());
    let at = |channel: usize| places(FIRST + FRAME, 1)[channel - 1].position;
    assert_eq!(line(&[1, 2, 5]), says(&format!("ok {} 4 4", at(5))));
    assert_eq!(line(&[1, 2, 7]), says(&format!("ok {} 4 0", at(7))));
    assert_eq!(line(&[1, 2, 8]), says("refused 19 0"));
    assert_eq!(line(&[1, 2]), None);
    for gone in ["count", "view"] {
        assert!(answer(&file, gone, &[1, 2, 5]).is_none());
    }
}

/// The part of a file of so many bytes.
fn cut(length: u64, [position, width, count]: [u64; 3]) -> (usize, usize) {
    let place = Place {
        position,
        width,
        count,
    };
    let Span { at, length } = part(length, place);
    (at, length)
}

#[test]
fn a_part_has_all_of_the_bytes_or_none() {
    assert_eq!(cut(100, [10, 3, 30]), (10, 90));
    assert_eq!(cut(100, [0, 1, 100]), (0, 100));
    // One byte is missing, or all are.
    assert_eq!(cut(99, [10, 3, 30]), (99, 0));
    assert_eq!(cut(100, [11, 3, 30]), (100, 0));
    assert_eq!(cut(100, [100, 2, 1]), (100, 0));
    assert_eq!(cut(0, [0, 2, 1]), (0, 0));
}

#[test]
fn a_part_without_bytes_is_at_its_position_inside_the_file() {
    for none in [[0, 7], [7, 0], [0, u64::MAX], [u64::MAX, 0], [0, 0]] {
        let [width, count] = none;
        for position in [0, 1, 99, 100] {
            let found = cut(100, [position, width, count]);
            assert_eq!(found, (position as usize, 0), "{none:?}");
        }
        for position in [101, 1 << 32, u64::MAX] {
            assert_eq!(cut(100, [position, width, count]), (100, 0), "{none:?}");
        }
    }
}

/// Their product, or the sum with the position, would be inside the file in 64 bits.
#[test]
fn no_number_is_too_large_for_a_part() {
    for place in [
        [1, 1 << 32, 1 << 32],
        [1, u64::MAX, u64::MAX],
        [1, 3, u64::MAX / 3 + 1],
        [u64::MAX, 1, 1],
        [u64::MAX, 1, 2],
        [u64::MAX - 9, 2, 10],
        [10, 1, u64::MAX - 8],
        [u64::MAX, u64::MAX, u64::MAX],
    ] {
        assert_eq!(cut(100, place), (100, 0), "{place:?}");
    }
    let most = cut(u64::MAX, [1, 2, u64::MAX / 2]);
    assert_eq!(most, (1, usize::MAX - 1));
}

#[test]
fn the_places_of_a_generated_frame_follow_one_another_and_hold_its_samples() {
    let (mut with, mut without) = (0, 0);
    for index in 0..1000 {
        let file = generate::valid_file(8, index).bytes;
        let model = judge(&file).expect("a valid file");
        let recording = &model.recordings[0];
        let number = recording.block.frames.len() as u64;
        let frame = recording.block.frames[number as usize - 1].record;
        assert_eq!(frame.kind, Kind::Frame);
        let turned = turn(&file, u64::MAX);
        let mut next = frame.at + 24;
        for (channel, slot) in (1..).zip(&recording.block.slots) {
            let found = place(&file, 1, number, channel).expect("inside");
            let samples = part(file.len() as u64, found);
            assert_eq!(samples.at, next);
            next += samples.length;
            let width = found.width as usize;
            assert_eq!(samples.length, width * found.count as usize);
            for asked in [0, found.count.saturating_sub(1)] {
                let at = samples.at + asked as usize * width;
                let expected = (found.count > 0)
                    .then(|| sample_at(model.order, &file, at, slot.format))
                    .ok_or(Refusal::new(19, 0));
                assert_eq!(sample(&file, 1, number, channel, asked), expected);
            }
            // Turned, the samples stand where they stood.
            if let Ok(turned) = &turned {
                assert_eq!(place(turned, 1, number, channel), Ok(found));
            }
            with += usize::from(found.count > 0);
            without += usize::from(found.count == 0);
        }
        assert!(next <= frame.end());
    }
    assert!(with > 1000 && without > 100, "{with} {without}");
}
