//! The thirty-second overview: by hand, for numbers of any size, and beside the words of the request read out.

mod common;

use common::{Pen, PENS};
use second::ask::answer;
use second::generate::{self, questions, Question};
use second::judge::judge;
use second::lines::{answer_line, counted};
use second::model::{Model, Sample};
use second::overview::{overview, overview_range, Envelope, Epochs};
use second::questions::sample_at;
use second::random::Random;
use second::record::Format;
use second::refusal::Refusal;
use second::turn::turn;
use std::collections::BTreeMap;
use std::ops::RangeInclusive;

const ROOM: u64 = u64::MAX;
const OUTSIDE: Refusal = Refusal::new(19, 0);

/// The channels: of 16, 24 and 32 bits, floats, and without samples one of either sort.
const OF_16: u64 = 1;
const OFF: u64 = 2;
const OF_24: u64 = 3;
const OF_32: u64 = 4;
const FLOATS: u64 = 5;
const OFF_FLOATS: u64 = 6;

/// Those of whole numbers that have samples.
const WHOLE: [u64; 3] = [OF_16, OF_24, OF_32];

/// The bytes of a sample and the samples of each channel that has some, by the frame's number: those of 16 bits are all
/// above 0, those of 24 all under it.
fn samples(number: i32) -> [(usize, Vec<i32>); 4] {
    let ten = 10 * number;
    [
        (2, vec![ten, ten + 1]),
        (3, vec![-ten, -ten - 1, -ten - 2]),
        (4, vec![i32::MIN + number, i32::MAX - number]),
        (4, vec![number, number]),
    ]
}

/// What frames `first` to `last` hold of a channel of whole numbers.
fn held(channel: u64, [first, last]: [i64; 2]) -> Envelope {
    let (least, most) = (i64::from(i32::MIN), i64::from(i32::MAX));
    let (smallest, largest, a_frame) = match channel {
        OF_16 => (10 * first, 10 * last + 1, 2),
        OF_24 => (-10 * last - 2, -10 * first, 3),
        OF_32 => (least + first, most - first, 2),
        _ => panic!("not of whole numbers, or without samples: {channel}"),
    };
    Envelope {
        smallest,
        largest,
        count: a_frame * (last - first + 1) as u64,
    }
}

fn frame(pen: Pen, serial: i32, number: i32) -> Vec<u8> {
    let mut bytes = Vec::new();
    for (width, values) in samples(number) {
        for value in values {
            let at = bytes.len();
            bytes.resize(at + width, 0);
            pen.0.put(&mut bytes, at, width, value);
        }
    }
    pen.frame(serial, 24 + bytes.len() as i32, 0, &bytes)
}

/// Frames of so many seconds, with the samples of these numbers.
fn recording(pen: Pen, serial: i32, seconds: i32, numbers: RangeInclusive<i32>) -> Vec<u8> {
    let frames = (1..).zip(numbers);
    let frames: Vec<_> = frames
        .map(|(serial, number)| frame(pen, serial, number))
        .collect();
    // As periods they are so many a frame, whatever its seconds.
    let [two, three] = [500_000, 333_333].map(|period| period * seconds);
    let channels = [
        [1, 1, 1, two],
        [1, 0, 1, 0],
        [1, 2, 2, three],
        [1, 1, 3, two],
        [1, 1, 4, two],
        [1, 0, 4, 0],
    ];
    pen.recording(
        serial,
        0,
        &[
            pen.overview(6, frames.len() as i32),
            pen.channels(&channels),
            pen.items(130, &[]),
            pen.frames(seconds, 0, &frames),
        ],
    )
}

/// A file of one recording.
fn night(pen: Pen, seconds: i32, frames: i32) -> Vec<u8> {
    pen.file(&[recording(pen, 1, seconds, 1..=frames)])
}

/// T, F, and the first and the last frame of each epoch, if one starts in it. The epoch behind these is outside.
type Night = (i32, i32, &'static [Option<[i64; 2]>]);

const fn from(first: i64, last: i64) -> Option<[i64; 2]> {
    Some([first, last])
}

const NIGHTS: [Night; 13] = [
    (1, 1, &[from(1, 1)]),
    (1, 60, &[from(1, 30), from(31, 60)]),
    (1, 61, &[from(1, 30), from(31, 60), from(61, 61)]),
    // The last epoch starts a second before the end, behind the start of the last frame.
    (7, 13, &[from(1, 5), from(6, 9), from(10, 13), None]),
    (7, 12, &[from(1, 5), from(6, 9), from(10, 12)]),
    (10, 7, &[from(1, 3), from(4, 6), from(7, 7)]),
    (29, 3, &[from(1, 2), from(3, 3), None]),
    (30, 1, &[from(1, 1)]),
    (30, 3, &[from(1, 1), from(2, 2), from(3, 3)]),
    (31, 2, &[from(1, 1), from(2, 2), None]),
    (45, 3, &[from(1, 1), from(2, 2), None, from(3, 3), None]),
    (60, 2, &[from(1, 1), None, from(2, 2), None]),
    (
        100,
        2,
        &[from(1, 1), None, None, from(2, 2), None, None, None],
    ),
];

/// Epochs of a channel of the first recording.
fn epochs(channel: u64, first: u64, number: u64) -> Epochs {
    Epochs {
        recording: 1,
        channel,
        first,
        number,
    }
}

/// The numbers of a range; an empty epoch has 0 for each.
fn numbers(samples: Option<Envelope>) -> [i64; 3] {
    let envelope = samples.unwrap_or(Envelope {
        smallest: 0,
        largest: 0,
        count: 0,
    });
    [envelope.smallest, envelope.largest, envelope.count as i64]
}

#[test]
fn an_epoch_has_the_frames_that_start_in_it() {
    for pen in PENS {
        for (seconds, frames, expected) in NIGHTS {
            let file = night(pen, seconds, frames);
            let of = |channel, epoch| overview(&file, 1, channel, epoch);
            for (epoch, frames) in (0..).zip(expected) {
                for channel in WHOLE {
                    let samples = frames.map(|frames| held(channel, frames));
                    assert_eq!(of(channel, epoch), Ok(samples), "T {seconds} {epoch}");
                }
                assert_eq!(of(OFF, epoch), Ok(None));
                assert_eq!(of(FLOATS, epoch), Err(OUTSIDE));
                assert_eq!(of(OFF_FLOATS, epoch), Err(OUTSIDE));
            }
            for channel in OF_16..=OFF_FLOATS {
                let behind = of(channel, expected.len() as u64);
                assert_eq!(behind, Err(OUTSIDE), "T {seconds}");
            }
        }
    }
}

#[test]
fn the_longest_frame_leaves_119_epochs_empty() {
    let file = night(PENS[1], 3600, 1);
    let first = held(OF_16, [1, 1]);
    assert_eq!(overview(&file, 1, OF_16, 0), Ok(Some(first)));
    for epoch in 1..120 {
        assert_eq!(overview(&file, 1, OF_16, epoch), Ok(None));
    }
    assert_eq!(overview(&file, 1, OF_16, 120), Err(OUTSIDE));
    let all = overview_range(&file, epochs(OF_16, 0, 120), 360).expect("room enough");
    assert_eq!(all[..3], numbers(Some(first)));
    assert_eq!(all[3..], [0; 357]);
}

#[test]
fn each_recording_has_its_own_frames_and_seconds() {
    for pen in PENS {
        let recordings = [recording(pen, 1, 10, 1..=4), recording(pen, 2, 20, 51..=52)];
        let file = pen.file(&recordings);
        let frames = [
            (1, 0, Ok(from(1, 3))),
            (1, 1, Ok(from(4, 4))),
            (1, 2, Err(OUTSIDE)),
            (2, 0, Ok(from(51, 52))),
            // It starts at 30 seconds: behind the last frame's start, before the end.
            (2, 1, Ok(None)),
            (2, 2, Err(OUTSIDE)),
        ];
        for (recording, epoch, frames) in frames {
            for channel in WHOLE {
                let expected = frames.map(|all| all.map(|frames| held(channel, frames)));
                let found = overview(&file, recording, channel, epoch);
                assert_eq!(found, expected, "{recording} {channel} {epoch}");
            }
        }
        for outside in [[0, 1], [3, 1], [1, 0], [1, 7], [2, 7], [u64::MAX, 1]] {
            let [recording, channel] = outside;
            let found = overview(&file, recording, channel, 0);
            assert_eq!(found, Err(OUTSIDE), "{outside:?}");
            let none = Epochs {
                recording,
                channel,
                first: 0,
                number: 0,
            };
            assert_eq!(overview_range(&file, none, ROOM), Err(OUTSIDE));
        }
    }
}

#[test]
fn a_range_has_its_epochs_one_after_the_other() {
    for pen in PENS {
        for (seconds, frames, expected) in NIGHTS {
            let file = night(pen, seconds, frames);
            let count = expected.len() as u64;
            for channel in [OF_16, OFF, OF_24, OF_32] {
                let single = |epoch| overview(&file, 1, channel, epoch).expect("inside");
                for first in 0..=count {
                    for number in 1..=count - first {
                        let asked = epochs(channel, first, number);
                        let singles = (first..first + number).map(single);
                        let singles: Vec<i64> = singles.flat_map(numbers).collect();
                        let found = overview_range(&file, asked, 3 * number);
                        assert_eq!(found, Ok(singles), "T {seconds} {asked:?}");
                    }
                    let beyond = epochs(channel, first, count - first + 1);
                    assert_eq!(overview_range(&file, beyond, ROOM), Err(OUTSIDE));
                }
            }
        }
    }
}

/// By F times T, which need not be where an epoch starts.
#[test]
fn no_epochs_succeed_where_the_first_starts_at_the_end_or_before() {
    for (seconds, frames, last) in [
        (1, 1, 0),
        (1, 29, 0),
        (1, 30, 1),
        (1, 31, 1),
        (1, 60, 2),
        (1, 61, 2),
        (7, 13, 3),
        (29, 3, 2),
        (30, 3, 3),
        (31, 2, 2),
        (45, 3, 4),
        (60, 2, 4),
        (3600, 1, 120),
    ] {
        let file = night(PENS[0], seconds, frames);
        for channel in [OF_16, OFF] {
            let none = |first| overview_range(&file, epochs(channel, first, 0), 0);
            for first in 0..=last {
                assert_eq!(none(first), Ok(vec![]), "{seconds} {frames} {first}");
            }
            assert_eq!(none(last + 1), Err(OUTSIDE), "{seconds} {frames}");
        }
        for channel in [FLOATS, OFF_FLOATS] {
            let none = overview_range(&file, epochs(channel, 0, 0), ROOM);
            assert_eq!(none, Err(OUTSIDE));
        }
    }
}

/// In 64 bits thirty times some of these, or the end of a range, would be inside the recording.
#[test]
fn no_number_is_too_large() {
    const FAR: [u64; 8] = [
        (1 << 32) / 30 + 1,
        1 << 32,
        (1 << 63) / 30 + 1,
        u64::MAX / 30,
        u64::MAX / 30 + 1,
        1 << 63,
        u64::MAX - 1,
        u64::MAX,
    ];
    assert_eq!(30u64.wrapping_mul(FAR[4]), 14);
    assert_eq!(30u64.wrapping_mul(FAR[5]), 0);
    for (seconds, frames) in [(1, 61), (45, 3), (3600, 1)] {
        let file = night(PENS[0], seconds, frames);
        for far in FAR {
            assert_eq!(overview(&file, 1, OF_16, far), Err(OUTSIDE), "{far}");
            // In 64 bits the first two end at 0 and at 1.
            let back = far.wrapping_neg();
            let ends = [[far, back], [far, back.wrapping_add(1)], [0, far], [1, far]];
            let numbers = [0, 1, 2].into_iter().chain(FAR);
            let ranges = numbers.map(|number| [far, number]).chain(ends);
            for [first, number] in ranges {
                for room in [0, ROOM] {
                    let found = overview_range(&file, epochs(OF_16, first, number), room);
                    assert_eq!(found, Err(OUTSIDE), "{first} {number}");
                }
            }
        }
        // Three times as many numbers are 2 in 64 bits.
        let many = u64::MAX / 3 + 1;
        assert_eq!(3u64.wrapping_mul(many), 2);
        let found = overview_range(&file, epochs(OF_16, 0, many), 2);
        assert_eq!(found, Err(OUTSIDE));
    }
}

#[test]
fn room_is_counted_in_numbers_three_an_epoch() {
    let file = night(PENS[1], 45, 3);
    for channel in [OF_16, OFF, OF_24, OF_32] {
        for number in 1..=5 {
            let asked = epochs(channel, 0, number);
            let short = Err(Refusal::new(17, 3 * number as usize));
            for room in [0, number, 3 * number - 1] {
                assert_eq!(overview_range(&file, asked, room), short);
            }
            assert!(overview_range(&file, asked, 3 * number).is_ok());
        }
        // An epoch outside is refused before the room is looked at.
        let found = overview_range(&file, epochs(channel, 0, 6), 0);
        assert_eq!(found, Err(OUTSIDE));
    }
}

#[test]
fn the_file_is_judged_first() {
    for pen in PENS {
        let file = night(pen, 10, 7);
        let cut = &file[..file.len() - 1];
        let refused = Refusal::new(10, 32);
        for [recording, channel, epoch] in [[1, 1, 0], [9, 9, 9], [1, FLOATS, 0], [0, 0, u64::MAX]]
        {
            let found = overview(cut, recording, channel, epoch);
            assert_eq!(found, Err(refused));
            let asked = Epochs {
                recording,
                channel,
                first: epoch,
                number: epoch,
            };
            assert_eq!(overview_range(cut, asked, 0), Err(refused));
        }
    }
}

#[test]
fn its_lines() {
    let file = night(PENS[0], 45, 3);
    let line = |op, args: &[u64]| answer(&file, op, args).map(answer_line);
    let says = |answer: &str| Some(answer.to_string());
    assert_eq!(line("overview", &[1, OF_24, 1]), says("ok -22 -20 3"));
    assert_eq!(line("overview", &[1, OF_24, 2]), says("ok empty"));
    assert_eq!(line("overview", &[1, OFF, 0]), says("ok empty"));
    assert_eq!(line("overview", &[1, OF_24, 5]), says("refused 19 0"));
    assert_eq!(line("overview", &[1, FLOATS, 0]), says("refused 19 0"));
    assert_eq!(line("overview", &[1, OF_24]), None);
    let range = |from_first: &[u64]| {
        let args = [&[1, OF_16][..], from_first].concat();
        line("overview_range", &args)
    };
    assert_eq!(range(&[1, 3, 9]), says("ok 3 20 21 2 0 0 0 30 31 2"));
    assert_eq!(range(&[1, 3, 8]), says("refused 17 9"));
    assert_eq!(range(&[1, 5, 9]), says("refused 19 0"));
    assert_eq!(range(&[4, 0, 0]), says("ok 0"));
    assert_eq!(range(&[1, 3]), None);
}

/// The words of the request, read out: every frame is looked at, and of those in the epoch every sample.
fn plain(
    file: &[u8],
    model: &Model,
    [recording, channel]: [u64; 2],
    epoch: u128,
) -> Result<Option<Envelope>, Refusal> {
    let is_one_of = |number: u64, count: usize| (1..=count as u64).contains(&number);
    if !is_one_of(recording, model.recordings.len()) {
        return Err(OUTSIDE);
    }
    let block = &model.recordings[recording as usize - 1].block;
    if !is_one_of(channel, block.slots.len()) {
        return Err(OUTSIDE);
    }
    let slot = block.slots[channel as usize - 1];
    let (seconds, start) = (block.seconds as u128, 30 * epoch);
    if slot.format == Format::Float32 || start >= block.frames.len() as u128 * seconds {
        return Err(OUTSIDE);
    }
    let mut found: Option<Envelope> = None;
    for (number, frame) in (1..).zip(&block.frames) {
        let at: u128 = (number - 1) * seconds;
        if at < start || at >= start + 30 {
            continue;
        }
        for sample in 0..slot.count as usize {
            let place = frame.samples(&slot).at + sample * slot.format.width();
            let Sample::Whole(value) = sample_at(model.order, file, place, slot.format) else {
                panic!("a float of a channel of whole numbers");
            };
            let value = i64::from(value);
            let envelope = found.get_or_insert(Envelope {
                smallest: value,
                largest: value,
                count: 0,
            });
            envelope.smallest = envelope.smallest.min(value);
            envelope.largest = envelope.largest.max(value);
            envelope.count += 1;
        }
    }
    Ok(found)
}

/// The epochs of a range by the same words; the first that is outside ends it.
fn plain_range(file: &[u8], model: &Model, asked: Epochs, room: u64) -> Result<Vec<i64>, Refusal> {
    let place = [asked.recording, asked.channel];
    let [first, number] = [asked.first, asked.number].map(u128::from);
    if number == 0 {
        // An epoch 0 there is, if recording and channel are right.
        plain(file, model, place, 0)?;
        let block = &model.recordings[asked.recording as usize - 1].block;
        let end = block.frames.len() as u128 * block.seconds as u128;
        return (30 * first <= end).then(Vec::new).ok_or(OUTSIDE);
    }
    let mut all = Vec::new();
    for epoch in first..first + number {
        all.extend(numbers(plain(file, model, place, epoch)?));
    }
    if all.len() as u64 > room {
        return Err(Refusal::new(17, all.len()));
    }
    Ok(all)
}

fn plain_answer(file: &[u8], op: &str, args: &[u64]) -> Result<String, Refusal> {
    let model = judge(file)?;
    match (op, args) {
        ("overview", &[recording, channel, epoch]) => {
            let found = plain(file, &model, [recording, channel], epoch.into())?;
            Ok(found.map_or("empty".to_string(), |e| {
                format!("{} {} {}", e.smallest, e.largest, e.count)
            }))
        }
        ("overview_range", &[recording, channel, first, number, room]) => {
            let asked = Epochs {
                recording,
                channel,
                first,
                number,
            };
            let numbers = plain_range(file, &model, asked, room)?;
            Ok(counted(numbers.len() / 3, &numbers))
        }
        _ => panic!("no question of the overview: {op} {args:?}"),
    }
}

#[test]
fn frames_of_every_length_are_by_the_words_of_the_request() {
    for seconds in 1..=95 {
        for frames in [1, 2, 3, 29, 30, 31, 60, 61] {
            let file = night(PENS[0], seconds, frames);
            let model = judge(&file).expect("a valid file");
            let epochs = epochs(OF_24, 0, (seconds as u64 * frames as u64).div_ceil(30));
            let all = overview_range(&file, epochs, ROOM);
            assert_eq!(all, plain_range(&file, &model, epochs, ROOM));
            // Each frame is in one epoch.
            let counts = all.expect("inside").into_iter().skip(2).step_by(3);
            assert_eq!(counts.sum::<i64>(), 3 * i64::from(frames));
            let beyond = Epochs {
                number: epochs.number + 1,
                ..epochs
            };
            assert_eq!(overview_range(&file, beyond, ROOM), Err(OUTSIDE));
        }
    }
}

/// What a line says, in words.
fn sort(op: &str, line: &str) -> String {
    let sort = match line.split(' ').collect::<Vec<_>>()[..] {
        ["refused", "17", _] => "17",
        ["refused", "19", _] => "19",
        ["refused", ..] => "file refused",
        ["ok", "0"] => "no epochs",
        ["ok", "empty"] => "empty",
        _ if line.ends_with(" 0 0 0") => "empty at the end",
        _ => "samples",
    };
    format!("{op}: {sort}")
}

#[test]
fn questions_of_every_sort_are_drawn_and_answered_by_the_words_of_the_request() {
    const SEED: u64 = 14;
    let mut times: BTreeMap<String, u64> = BTreeMap::new();
    for index in 0..1000 {
        let file = generate::file(SEED, index).bytes;
        let turned = turn(&file, ROOM);
        let drawn = questions(&file, &mut Random::new(!SEED, index)).into_iter();
        let drawn = drawn.filter(|question| question.op.starts_with("overview"));
        for Question { op, args } in drawn {
            let found = answer(&file, op, &args).expect("a question that is known");
            let expected = plain_answer(&file, op, &args);
            assert_eq!(found, expected, "{index} {op} {args:?}");
            // Turned, the epochs hold the same samples.
            if let Ok(turned) = &turned {
                assert_eq!(answer(turned, op, &args), Some(found.clone()));
            }
            *times.entry(sort(op, &answer_line(found))).or_default() += 1;
        }
    }
    let single = ["19", "file refused", "empty", "samples"].map(|sort| ("overview", sort));
    let range = "17, 19, file refused, no epochs, empty at the end, samples".split(", ");
    let range = range.map(|sort| ("overview_range", sort));
    for (op, sort) in single.into_iter().chain(range) {
        let sort = format!("{op}: {sort}");
        let found = times.get(&sort).copied().unwrap_or(0);
        println!("{sort}: {found}");
        assert!(found >= 300, "{sort}: only {found}");
    }
}
