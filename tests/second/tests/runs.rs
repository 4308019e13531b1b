//! Runs of samples: by hand, beside the single questions, and refused.

mod common;

use common::{Pen, PENS};
use second::ask::answer;
use second::generate;
use second::lines::answer_line;
use second::model::Sample;
use second::questions;
use second::record::Format;
use second::refusal::Refusal;
use second::run::{run_float, run_int, Run};
use second::turn::turn;

const ROOM: u64 = u64::MAX;
const OUTSIDE: Refusal = Refusal::new(19, 0);

/// The samples of each channel: of 16, 24 and 32 bits, floats, and none.
const OF_16: [i32; 3] = [-32_768, -2, 32_767];
const OF_24: [i32; 2] = [-8_388_608, 8_388_607];
const OF_32: [i32; 4] = [i32::MIN, -1, 0, i32::MAX];
/// A number, an infinity, and NaNs of both sorts and signs.
const FLOATS: [u32; 4] = [0x3fc0_0000, 0xff80_0000, 0x7fc0_beef, 0xff80_0001];

/// The channels whose samples are whole numbers, that of floats, and that without samples.
const WHOLE: [u64; 3] = [1, 2, 3];
const FLOAT: u64 = 4;
const EMPTY: u64 = 5;

/// A file of two frames: the samples above, and the same from the last to the first.
fn file(pen: Pen) -> Vec<u8> {
    let frame = |serial, turned: bool| {
        let floats = FLOATS.map(|bits| bits as i32);
        let channels: [(usize, &[i32]); 4] = [(2, &OF_16), (3, &OF_24), (4, &OF_32), (4, &floats)];
        let mut samples = Vec::new();
        for (width, values) in channels {
            let mut values = values.to_vec();
            if turned {
                values.reverse();
            }
            for value in values {
                let at = samples.len();
                samples.resize(at + width, 0);
                pen.0.put(&mut samples, at, width, value);
            }
        }
        pen.frame(serial, 24 + samples.len() as i32, 0, &samples)
    };
    let channels = [
        [0, 1, 1, 3],
        [0, 1, 2, 2],
        [0, 1, 3, 4],
        [0, 1, 4, 4],
        [0, 0, 1, 0],
    ];
    pen.file(&[pen.recording(
        1,
        0,
        &[
            pen.overview(5, 2),
            pen.channels(&channels),
            pen.items(130, &[]),
            pen.frames(1, 0, &[frame(1, false), frame(2, true)]),
        ],
    )])
}

/// A run in the first recording.
fn run(frame: u64, channel: u64, first: u64, number: u64) -> Run {
    Run {
        recording: 1,
        frame,
        channel,
        first,
        number,
    }
}

#[test]
fn a_run_has_the_samples_in_order() {
    for pen in PENS {
        let file = file(pen);
        for (channel, samples) in [(1, &OF_16[..]), (2, &OF_24), (3, &OF_32)] {
            let mut samples: Vec<i64> = samples.iter().copied().map(i64::from).collect();
            let count = samples.len() as u64;
            let all = |frame| run_int(&file, run(frame, channel, 0, count), count);
            assert_eq!(all(1), Ok(samples.clone()));
            let last = run_int(&file, run(1, channel, count - 1, 1), ROOM);
            assert_eq!(last, Ok(samples[samples.len() - 1..].to_vec()));
            samples.reverse();
            assert_eq!(all(2), Ok(samples));
        }
        let middle = run(1, FLOAT, 1, 2);
        assert_eq!(run_float(&file, middle, 2), Ok(FLOATS[1..3].to_vec()));
        let none = run(2, EMPTY, 0, 0);
        assert_eq!(run_int(&file, none, 0), Ok(vec![]));
    }
}

#[test]
fn the_call_for_the_other_formats_is_outside() {
    for pen in PENS {
        let file = file(pen);
        for number in [0, 1] {
            for channel in WHOLE {
                let run = run(1, channel, 0, number);
                assert_eq!(run_float(&file, run, ROOM), Err(OUTSIDE));
                assert!(run_int(&file, run, ROOM).is_ok());
            }
            let run = run(1, FLOAT, 0, number);
            assert_eq!(run_int(&file, run, ROOM), Err(OUTSIDE));
            assert!(run_float(&file, run, ROOM).is_ok());
        }
        assert_eq!(run_float(&file, run(1, EMPTY, 0, 0), ROOM), Err(OUTSIDE));
    }
}

#[test]
fn a_run_has_to_be_inside_the_channel() {
    let file = file(PENS[0]);
    let count = OF_16.len() as u64;
    let of = |first, number| run_int(&file, run(1, 1, first, number), 0);
    // None of them has room, which is looked at last.
    assert_eq!(of(count, 0), Ok(vec![]));
    assert_eq!(of(0, count).err(), Some(Refusal::new(17, 3)));
    for (first, number) in [
        (0, count + 1),
        (count, 1),
        (count + 1, 0),
        (u64::MAX, 0),
        (u64::MAX, 1),
        (u64::MAX, count),
        (1, u64::MAX),
        (1 << 63, 1 << 63),
        (u64::MAX / 2 + 1, 1),
    ] {
        assert_eq!(of(first, number), Err(OUTSIDE), "{first} {number}");
    }
    for outside in [0, 3, u64::MAX] {
        assert_eq!(run_int(&file, run(outside, 1, 0, 0), ROOM), Err(OUTSIDE));
    }
    for outside in [0, 6, u64::MAX] {
        assert_eq!(run_int(&file, run(1, outside, 0, 0), ROOM), Err(OUTSIDE));
        assert_eq!(run_float(&file, run(1, outside, 0, 0), ROOM), Err(OUTSIDE));
    }
    let elsewhere = Run {
        recording: 2,
        ..run(1, 1, 0, 0)
    };
    assert_eq!(run_int(&file, elsewhere, ROOM), Err(OUTSIDE));
}

#[test]
fn room_is_for_the_number_asked_for() {
    let file = file(PENS[1]);
    for number in 1..=4 {
        let short = Refusal::new(17, number as usize);
        let (whole, float) = (run(2, 3, 0, number), run(2, FLOAT, 0, number));
        assert_eq!(run_int(&file, whole, number - 1), Err(short));
        assert_eq!(run_float(&file, float, 0), Err(short));
        assert!(run_int(&file, whole, number).is_ok() && run_float(&file, float, number).is_ok());
    }
}

#[test]
fn the_file_is_judged_first() {
    for pen in PENS {
        let file = file(pen);
        let cut = &file[..file.len() - 1];
        let refused = Refusal::new(10, 32);
        assert_eq!(run_int(cut, run(9, 9, 9, 9), 0), Err(refused));
        assert_eq!(run_float(cut, run(1, 1, 0, 0), 0), Err(refused));
    }
}

#[test]
fn its_lines() {
    let file = file(PENS[1]);
    let line = |op, args: &[u64]| answer(&file, op, args).map(answer_line);
    let says = |answer: &str| Some(answer.to_string());
    let args = [1, 1, 1, 0, 3, 3];
    assert_eq!(line("run_int", &args), says("ok -32768 -2 32767"));
    assert_eq!(line("run_float", &args), says("refused 19 0"));
    let args = [1, 1, 4, 2, 2, 9];
    assert_eq!(line("run_float", &args), says("ok 2143338223 4286578689"));
    assert_eq!(line("run_int", &[1, 1, 1, 3, 0, 0]), says("ok"));
    assert_eq!(line("run_int", &[1, 1, 1, 0, 3, 2]), says("refused 17 3"));
    assert_eq!(line("run_int", &[1, 1, 1, 0, 3]), None);
}

/// What the single questions answer, one after the other.
fn singles(file: &[u8], run: Run) -> Vec<Sample> {
    let samples = run.first..run.first + run.number;
    samples
        .map(|n| questions::sample(file, run.recording, run.frame, run.channel, n))
        .collect::<Result<_, _>>()
        .expect("a sample inside the channel")
}

/// By the call that is for the channel's format.
fn answered(file: &[u8], run: Run, format: Format) -> Result<Vec<Sample>, Refusal> {
    match format {
        Format::Float32 => run_float(file, run, run.number)
            .map(|samples| samples.into_iter().map(Sample::Float).collect()),
        _ => run_int(file, run, run.number).map(|samples| {
            let whole = |value| Sample::Whole(i32::try_from(value).expect("32 bits"));
            samples.into_iter().map(whole).collect()
        }),
    }
}

#[test]
fn a_run_of_a_generated_file_is_its_samples_one_by_one() {
    let mut times = [0; 4];
    for index in 0..1000 {
        let file = generate::valid_file(4, index).bytes;
        let model = second::judge::judge(&file).expect("a valid file");
        let recording = &model.recordings[0];
        let frame = recording.block.frames.len() as u64;
        for (channel, slot) in (1..).zip(&recording.block.slots).take(4) {
            let (first, most) = (slot.count / 3, slot.count.min(64));
            let run = run(frame, channel, first, most - first.min(most));
            let found = answered(&file, run, slot.format);
            assert_eq!(found, Ok(singles(&file, run)));
            // Turned, it is the same run.
            if let Ok(turned) = turn(&file, ROOM) {
                assert_eq!(answered(&turned, run, slot.format), found);
            }
            times[slot.format.number() as usize - 1] += usize::from(run.number > 0);
        }
    }
    assert!(times.iter().all(|times| *times > 100), "{times:?}");
}
