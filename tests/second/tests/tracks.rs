//! Tracks: by hand, with channels that have no samples and frames that have padding, and beside the places of every
//! frame of generated files.

mod common;

use common::{Pen, PENS};
use second::ask::answer;
use second::generate;
use second::judge::judge;
use second::lines::answer_line;
use second::place::{place, Place};
use second::questions::{channel, facts};
use second::record::Format;
use second::refusal::Refusal;
use second::track::{track, Track};
use second::turn::turn;

/// Flags, type, format and rate: floats without samples, then a channel of each other format.
const CHANNELS: [[i32; 4]; 4] = [[0, 0, 4, 0], [0, 1, 1, 3], [1, 1, 2, 500_000], [0, 1, 3, 1]];

/// The bytes of a second's samples.
const BYTES: usize = 6 + 6 + 4;

/// Frames of a second with four bytes of padding, then a recording that takes the channels over, of two seconds.
const FRAME: usize = 24 + BYTES + 4;
const FIRST: usize = 32 + 16 + 128 + (32 + 4 * 256) + 24 + 32;
const SECOND: usize = FIRST + 3 * FRAME + 16 + 16 + 128 + 32;

fn file(pen: Pen) -> Vec<u8> {
    let frame = |serial| pen.frame(serial, FRAME as i32, 11, &[serial as u8; BYTES]);
    let first = pen.recording(
        1,
        0,
        &[
            pen.overview(4, 3),
            pen.channels(&CHANNELS),
            pen.items(130, &[]),
            pen.frames(1, 0, &[1, 2, 3].map(frame)),
        ],
    );
    let frame = pen.frame(1, 24 + 2 * BYTES as i32, 0, &[9; 2 * BYTES]);
    let second = pen.recording(2, 0, &[pen.overview(4, 1), pen.frames(2, 0, &[frame])]);
    pen.file(&[first, second])
}

#[test]
fn a_track_has_the_place_in_frame_1_and_the_length_of_a_frame() {
    for pen in PENS {
        let file = file(pen);
        // Where the channel's samples stand behind the frame's start, and how many, in a second and in two.
        for (channel, format, offsets, counts) in [
            (1, Format::Float32, [24, 24], [0, 0]),
            (2, Format::Signed16, [24, 24], [3, 6]),
            (3, Format::Signed24, [30, 36], [2, 4]),
            (4, Format::Signed32, [36, 48], [1, 2]),
        ] {
            for (recording, start, step, frames) in
                [(1, FIRST, FRAME, 3), (2, SECOND, 24 + 2 * BYTES, 1)]
            {
                let which = recording as usize - 1;
                let expected = Track {
                    order: pen.0,
                    format,
                    first: Place {
                        position: (start + offsets[which]) as u64,
                        width: format.width() as u64,
                        count: counts[which],
                    },
                    step: step as u64,
                    frames,
                    seconds: recording,
                };
                assert_eq!(track(&file, recording, channel), Ok(expected));
            }
        }
    }
}

#[test]
fn the_file_is_judged_first_then_the_numbers() {
    let file = file(PENS[1]);
    for outside in [[0, 1], [3, 1], [1, 0], [1, 5], [2, 5], [u64::MAX, 1]] {
        let [recording, channel] = outside;
        let found = track(&file, recording, channel);
        assert_eq!(found, Err(Refusal::new(19, 0)), "{outside:?}");
    }
    let cut = &file[..file.len() - 1];
    let last = judge(&file).expect("a valid file").recordings[1].record.at;
    assert_eq!(track(cut, 1, 1), Err(Refusal::new(10, last)));
    assert_eq!(track(cut, 3, 1), Err(Refusal::new(10, last)));
}

#[test]
fn its_lines() {
    let file = file(PENS[0]);
    let line = |args: &[u64]| answer(&file, "track", args).map(answer_line);
    let says = |answer: &str| Some(answer.to_string());
    let (start, letter) = (FIRST + 30, b'L');
    let whole = format!("ok {letter} 2 {start} 3 2 {FRAME} 3 1");
    assert_eq!(line(&[1, 3]), says(&whole));
    let without = format!("ok {letter} 4 {} 4 0 {FRAME} 3 1", FIRST + 24);
    assert_eq!(line(&[1, 1]), says(&without));
    assert_eq!(line(&[1, 5]), says("refused 19 0"));
    assert_eq!(line(&[1]), None);
}

#[test]
fn the_places_of_generated_files_lie_on_their_tracks() {
    let (mut steps, mut without) = (0, 0);
    for index in 0..1000 {
        let file = generate::valid_file(14, index).bytes;
        let model = judge(&file).expect("a valid file");
        let turned = turn(&file, u64::MAX);
        let recording = model.recordings.len() as u64;
        let facts = facts(&file, recording).expect("the last recording");
        for number in 1..=facts.channels as u64 {
            let found = track(&file, recording, number).expect("a channel");
            let described = channel(&file, recording, number).expect("a channel");
            assert_eq!(found.order, model.order);
            assert_eq!(found.format.number(), described.format);
            assert_eq!(found.frames, facts.frames as u64);
            assert_eq!(found.seconds, facts.seconds as u64);
            for frame in [1, 2, found.frames.div_ceil(2), found.frames] {
                let expected = (frame <= found.frames).then(|| Place {
                    position: found.first.position + found.step * (frame - 1),
                    ..found.first
                });
                let placed = place(&file, recording, frame, number).ok();
                assert_eq!(placed, expected, "{index} {number} {frame}");
            }
            // Turned, the samples stand where they stood.
            if let Ok(turned) = &turned {
                let order = model.order.other();
                let expected = Track { order, ..found };
                assert_eq!(track(turned, recording, number), Ok(expected));
            }
            steps += usize::from(found.frames > 1);
            without += usize::from(found.first.count == 0);
        }
    }
    assert!(steps > 1000 && without > 100, "{steps} {without}");
}
