//! Files of several recordings: inherited records, makers' records, padding.

mod common;

use common::{spelled, Pen, PENS};
use second::header::Spelling;
use second::judge::judge;
use second::model::{Calibration, Sample};
use second::place::{place, Place};
use second::questions;
use second::refusal::Refusal;
use second::rewrite::rewrite;
use second::turn::turn;

const HERTZ: i32 = 0;
const PERIOD: i32 = 1;

fn refused(number: u8, at: usize) -> Option<Refusal> {
    Some(Refusal { number, at })
}

fn letter(pen: Pen) -> u64 {
    u64::from(pen.0.letter())
}

/// How many samples the first channel has in the first frame of a recording.
fn count(file: &[u8], recording: u64) -> Result<u64, Refusal> {
    place(file, recording, 1, 1).map(|place| place.count)
}

fn maker(pen: Pen) -> Vec<u8> {
    pen.record([2, 1024, -5, 16], b"anything at all!")
}

/// A first recording of one 24-bit channel with two samples a frame.
fn first(pen: Pen) -> Vec<u8> {
    let samples = [0, 0, 0x80, 0xff, 0xff, 0xff];
    pen.recording(
        1,
        0,
        &[
            pen.overview(1, 1),
            pen.channels(&[[PERIOD, 3, 2, 500_000]]),
            pen.items(130, &[(1, b"name"), (0, b"")]),
            pen.items(200, &[(4096, b"lights out")]),
            pen.frames(1, 0, &[pen.frame(1, 30, 0, &samples)]),
        ],
    )
}

/// A second one that inherits all it can, with twice the seconds.
fn second(pen: Pen) -> Vec<u8> {
    let frame = pen.frame(1, 36, 0, &[1; 12]);
    pen.recording(2, 0, &[pen.overview(1, 1), pen.frames(2, 0, &[frame])])
}

fn two(pen: Pen) -> Vec<u8> {
    pen.file(&[first(pen), second(pen)])
}

#[test]
fn the_nearest_earlier_records_hold() {
    for pen in PENS {
        let file = two(pen);
        let model = judge(&file).expect("a valid file");
        let [one, other] = &model.recordings[..] else {
            panic!("two recordings");
        };
        assert_eq!(one.channels, other.channels);
        assert_eq!(one.patient, other.patient);
        assert_eq!(count(&file, 1), Ok(2));
        assert_eq!(count(&file, 2), Ok(4));
        let item = questions::patient_item(&file, 2, 1).expect("the inherited item");
        let text = &file[item.text.at..item.text.at + item.text.length];
        assert_eq!((item.code, text), (1, &b"name"[..]));
        assert!(item.at < other.record.at);
    }
}

#[test]
fn an_absent_200_is_not_inherited() {
    let file = two(PENS[0]);
    assert!(questions::event_item(&file, 1, 1).is_ok());
    assert_eq!(questions::event_item(&file, 2, 1).err(), refused(19, 0));
}

#[test]
fn signed_24_bit_samples() {
    let [little, big] = PENS.map(two);
    let sample = |file, n| questions::sample(file, 1, 1, 1, n);
    assert_eq!(sample(&little, 0), Ok(Sample::Whole(-8_388_608)));
    assert_eq!(sample(&little, 1), Ok(Sample::Whole(-1)));
    assert_eq!(sample(&big, 0), Ok(Sample::Whole(0x80)));
}

#[test]
fn an_inherited_count_is_tested_at_100() {
    for pen in PENS {
        let file = two(pen);
        let at = judge(&file).expect("a valid file").recordings[1]
            .overview
            .at
            + 20;
        let field = refused(14, at);
        assert_eq!(judge(&pen.set(&file, &[(at, 2)])).err(), field);
        // After 140's head, before its seconds.
        let block = at - 20 + 128;
        let changes = [(at, 2), (block + 16, 0)];
        assert_eq!(judge(&pen.set(&file, &changes)).err(), field);
        let changes = [(at, 2), (block + 8, 1)];
        let serial = refused(12, block + 8);
        assert_eq!(judge(&pen.set(&file, &changes)).err(), serial);
    }
}

#[test]
fn an_inherited_period_is_tested_against_each_recordings_seconds() {
    let pen = PENS[0];
    let parts = |period, seconds| {
        let frame = |seconds: i32| {
            let samples = vec![0; (seconds * 1_000_000 / period) as usize * 2];
            pen.frame(1, 24 + samples.len() as i32, 0, &samples)
        };
        let one = [
            pen.overview(1, 1),
            pen.channels(&[[PERIOD, 0, 1, period]]),
            pen.items(130, &[]),
            pen.frames(3, 0, &[frame(3)]),
        ];
        let other = [
            pen.overview(1, 1),
            pen.frames(seconds, 0, &[frame(seconds)]),
        ];
        pen.file(&[pen.recording(1, 0, &one), pen.recording(2, 0, &other)])
    };
    for (period, seconds, samples) in [(500_000, 4, 8), (1_500_000, 4, 2), (1_500_000, 2, 1)] {
        let file = parts(period, seconds);
        assert_eq!(count(&file, 2), Ok(samples));
    }
    // Two samples in three seconds, none in one.
    let file = parts(1_500_000, 1);
    let block = 32 + (16 + 128 + 288 + 24 + 32 + 24 + 4 + 16) + 16 + 128;
    assert_eq!(judge(&file).err(), refused(14, block + 16));
}

/// One recording of one frame: so many bytes of samples, behind one another.
fn sampled(pen: Pen, channels: &[[i32; 4]], seconds: i32, bytes: usize) -> Vec<u8> {
    let frame = pen.frame(1, 24 + bytes as i32, 0, &vec![7; bytes]);
    let parts = [
        pen.overview(channels.len() as i32, 1),
        pen.channels(channels),
        pen.items(130, &[]),
        pen.frames(seconds, 0, &[frame]),
    ];
    pen.file(&[pen.recording(1, 0, &parts)])
}

#[test]
fn a_periods_samples_are_counted_down() {
    let cases = [
        (3906, 1, 256),
        (3906, 30, 7680),
        (3, 1, 333_333),
        (7, 2, 285_714),
        (700_000, 1, 1),
        (700_000, 7, 10),
    ];
    for pen in PENS {
        for (period, seconds, samples) in cases {
            let channels = [[PERIOD, 1, 1, period]];
            let file = sampled(pen, &channels, seconds, 2 * samples);
            assert_eq!(count(&file, 1), Ok(samples as u64));
            // One sample more or less is no frame of this file.
            for other in [samples - 1, samples + 1] {
                let file = sampled(pen, &channels, seconds, 2 * other);
                let expected = if other < samples {
                    refused(14, 488 + 20)
                } else {
                    refused(10, 520)
                };
                assert_eq!(judge(&file).err(), expected);
            }
        }
    }
}

#[test]
fn what_stands_behind_a_period_that_does_not_divide() {
    let channels = [
        [PERIOD, 1, 1, 3906],
        [PERIOD, 0, 3, 0],
        [PERIOD, 1, 2, 300_000],
        [HERTZ, 1, 4, 2],
    ];
    for pen in PENS {
        let file = sampled(pen, &channels, 1, 512 + 9 + 8);
        let frame = 48 + 128 + (32 + 4 * 256) + 24 + 32;
        let places = [(24, 2, 256), (536, 4, 0), (536, 3, 3), (545, 4, 2)];
        for (channel, (at, width, count)) in (1..).zip(places) {
            let expected = Place {
                position: frame + at,
                width,
                count,
            };
            assert_eq!(place(&file, 1, 1, channel), Ok(expected));
        }
        assert_eq!(rewrite(&file, letter(pen), u64::MAX), Ok(file.clone()));
        let turned = turn(&file, u64::MAX).expect("room enough");
        assert_eq!(turn(&turned, u64::MAX), Ok(file));
    }
}

#[test]
fn the_first_recording_holds_all() {
    let pen = PENS[0];
    let channels = pen.channels(&[[HERTZ, 1, 1, 1]]);
    let frames = pen.frames(1, 0, &[pen.frame(1, 26, 0, &[0, 0])]);
    let without_120 = [pen.overview(1, 1), pen.items(130, &[]), frames.clone()];
    let file = pen.file(&[pen.recording(1, 0, &without_120)]);
    assert_eq!(judge(&file).err(), refused(9, 180));
    let without_130 = [pen.overview(1, 1), channels, frames];
    let file = pen.file(&[pen.recording(1, 0, &without_130)]);
    assert_eq!(judge(&file).err(), refused(9, 468));
}

/// A file with a maker's record at every place that allows one.
fn with_makers(pen: Pen) -> Vec<u8> {
    let maker = maker(pen);
    let parts = [
        pen.overview(1, 1),
        maker.clone(),
        pen.channels(&[[HERTZ, 1, 1, 1]]),
        maker.clone(),
        pen.items(130, &[]),
        maker.clone(),
        pen.items(200, &[]),
        maker.clone(),
        pen.frames(1, 0, &[pen.frame(1, 26, 0, &[0, 0])]),
        maker.clone(),
        maker,
    ];
    pen.file(&[pen.recording(1, 0, &parts)])
}

#[test]
fn makers_records() {
    for pen in PENS {
        let file = with_makers(pen);
        let model = judge(&file).expect("a valid file");
        let makers = model.records.iter().filter(|r| r.code == 1024);
        assert!(makers.clone().all(|r| r.length == 32 && r.serial == -5));
        assert_eq!(makers.count(), 6);
        let in_the_way = refused(18, 176 + 4);
        assert_eq!(turn(&file, 0).err(), in_the_way);
        assert_eq!(rewrite(&file, letter(pen), u64::MAX), Ok(file.clone()));
        let short = refused(17, file.len());
        assert_eq!(rewrite(&file, letter(pen), 0).err(), short);
        let other = u64::from(pen.0.other().letter());
        assert_eq!(rewrite(&file, other, 0).err(), in_the_way);
        assert_eq!(rewrite(&file, 0, 0).err(), refused(19, 0));
    }
}

#[test]
fn a_makers_record_out_of_place() {
    let pen = PENS[0];
    let parts = [maker(pen), pen.overview(1, 1)];
    let file = pen.file(&[pen.recording(1, 0, &parts)]);
    assert_eq!(judge(&file).err(), refused(9, 52));
}

/// Padding in a frame, in 140 and behind the delimiter: 4, 21 and 85 bytes.
fn padded(pen: Pen) -> Vec<u8> {
    let frame = pen.frame(1, 30, 5, &[7, 7]);
    let parts = [
        pen.overview(1, 1),
        pen.channels(&[[HERTZ, 1, 1, 1]]),
        pen.items(130, &[]),
        pen.frames(1, 83, &[frame]),
    ];
    pen.file(&[pen.recording(1, 128, &parts)])
}

const PADDED_FRAMES: usize = 488;
const PADDED_FRAME: usize = 520;
const FRAME_PADDING: usize = 546;
const PADDED_DELIMITER: usize = 571;
const RECORDING_PADDING: usize = 587;
const PADDED_END: usize = 672;

#[test]
fn padding_is_zero() {
    for pen in PENS {
        let file = padded(pen);
        assert_eq!(file.len(), PADDED_END);
        let model = judge(&file).expect("a valid file");
        assert_eq!(model.recordings[0].content(), 530);
        for at in FRAME_PADDING..PADDED_END {
            let in_delimiter = (PADDED_DELIMITER..RECORDING_PADDING).contains(&at);
            let mut file = file.clone();
            file[at] = 1;
            if !in_delimiter {
                assert_eq!(judge(&file).err(), refused(15, at));
                file[PADDED_END - 1] = 1;
                assert_eq!(judge(&file).err(), refused(15, at));
            }
        }
    }
}

#[test]
fn padding_is_shorter_than_the_multiplier() {
    for pen in PENS {
        let file = padded(pen);
        // The frame: 6 times 5 bytes, 4 of them padding.
        for (size, multiplier, passes) in [(6, 5, true), (10, 3, false), (1, 30, true)] {
            let changes = [(PADDED_FRAME, size), (PADDED_FRAME + 12, multiplier)];
            let expected = if passes {
                None
            } else {
                refused(10, PADDED_FRAME)
            };
            assert_eq!(judge(&pen.set(&file, &changes)).err(), expected);
        }
        let changes = [(PADDED_FRAME, 30), (PADDED_FRAME + 12, 0)];
        let expected = refused(10, PADDED_FRAME);
        assert_eq!(judge(&pen.set(&file, &changes)).err(), expected);
        // 140: 83 bytes, 21 of them padding.
        let changes = [(PADDED_FRAMES, 83), (PADDED_FRAMES + 12, 1)];
        let expected = refused(14, PADDED_FRAMES + 24);
        assert_eq!(judge(&pen.set(&file, &changes)).err(), expected);
        // The recording: 640 bytes, 85 of them padding.
        for (size, multiplier, passes) in [(5, 128, true), (8, 80, false), (640, 0, false)] {
            let changes = [(32, size), (44, multiplier)];
            let expected = if passes {
                None
            } else {
                refused(10, RECORDING_PADDING)
            };
            let mut file = pen.set(&file, &changes);
            assert_eq!(judge(&file).err(), expected);
            file[RECORDING_PADDING] = 1;
            let spoilt = expected.or(refused(15, RECORDING_PADDING));
            assert_eq!(judge(&file).err(), spoilt);
        }
    }
}

#[test]
fn rewriting_drops_padding_zeros_of_k_and_reserve() {
    for pen in PENS {
        let mut file = padded(pen);
        file[18..22].copy_from_slice(b"0001");
        for reserve in [76, 128, 200, 276, 312, 403, 484, 516, 542] {
            file[reserve] = 9;
        }
        let frame = pen.frame(1, 26, 0, &[7, 7]);
        let parts = [
            pen.overview(1, 1),
            pen.channels(&[[HERTZ, 1, 1, 1]]),
            pen.items(130, &[]),
            pen.frames(1, 0, &[frame]),
        ];
        let plain = pen.file(&[pen.recording(1, 0, &parts)]);
        assert_eq!(rewrite(&file, letter(pen), 562), Ok(plain));
    }
}

#[test]
fn the_spelling_is_kept_beside_makers_padding_and_k() {
    const PSG: &[u8; 8] = b"JSSR-PSG";
    for pen in PENS {
        let other = u64::from(pen.0.other().letter());
        for file in [two(pen), padded(pen), with_makers(pen)] {
            let mut spelt = spelled(&file, PSG);
            let kept = |out: Result<Vec<u8>, Refusal>| out.map(|out| spelled(&out, PSG));
            assert_eq!(turn(&spelt, u64::MAX), kept(turn(&file, u64::MAX)));
            for letter in [letter(pen), other] {
                let expected = kept(rewrite(&file, letter, u64::MAX));
                assert_eq!(rewrite(&spelt, letter, u64::MAX), expected);
            }
            let header = questions::header(&spelt).expect("a valid file");
            assert_eq!(header.spelling, Spelling::Psg);
            let count = judge(&file).expect("a valid file").recordings.len();
            assert_eq!(header.recordings, count);
            // More zeros before K are dropped, the spelling is not.
            spelt[18..22].copy_from_slice(format!("{count:04}").as_bytes());
            assert_eq!(questions::header(&spelt), Ok(header));
            let expected = kept(rewrite(&file, letter(pen), u64::MAX));
            assert_eq!(rewrite(&spelt, letter(pen), u64::MAX), expected);
        }
    }
}

#[test]
fn turning_leaves_text_reserve_padding_and_the_digits_of_k() {
    let pen = PENS[0];
    let mut file = two(pen);
    file[18..22].copy_from_slice(b"02  ");
    file[76..80].copy_from_slice(b"1234");
    file[104..124].copy_from_slice(b"a time of day, night");
    let turned = turn(&file, file.len() as u64).expect("room enough");
    assert_eq!(turned.len(), file.len());
    assert_eq!(turned[16], b'B');
    assert_eq!(turned[18..22], file[18..22]);
    assert_eq!(turned[76..80], file[76..80]);
    assert_eq!(turned[104..124], file[104..124]);
    let sample = |file, n| questions::sample(file, 1, 1, 1, n);
    assert_eq!(sample(&turned, 0), sample(&file, 0));
    assert_eq!(turn(&turned, u64::MAX), Ok(file));
}

#[test]
fn float_channels() {
    const NAN: u32 = 0x7f80_0001;
    let pen = PENS[1];
    let parts = [
        pen.overview(2, 1),
        pen.channels(&[[HERTZ, 0, 1, 0], [HERTZ, 20, 4, 1]]),
        pen.items(130, &[]),
        pen.frames(1, 0, &[pen.frame(1, 28, 0, &NAN.to_be_bytes())]),
    ];
    let file = pen.file(&[pen.recording(1, 0, &parts)]);
    // The second channel's CAL.
    let file = pen.set(&file, &[(208 + 256 + 36, NAN as i32)]);
    let off = questions::channel(&file, 1, 1).expect("channel 1");
    assert_eq!(off.calibration, Calibration::Whole([0; 4]));
    assert_eq!(count(&file, 1), Ok(0));
    let outside = refused(19, 0);
    assert_eq!(questions::sample(&file, 1, 1, 1, 0).err(), outside);
    let float = questions::channel(&file, 1, 2).expect("channel 2");
    assert_eq!(float.calibration, Calibration::Float([NAN, 0, 0, 0]));
    let sample = questions::sample(&file, 1, 1, 2, 0);
    assert_eq!(sample, Ok(Sample::Float(NAN)));
}

#[test]
fn items_are_judged_one_at_a_time() {
    let pen = PENS[0];
    let file = two(pen);
    let patient = 464;
    let items = [patient + 24, patient + 36];
    type Case<'a> = (&'a [(usize, i32)], u8, usize);
    let cases: [Case; 8] = [
        (&[(items[0], 7)], 10, items[0]),
        (&[(items[0], 21)], 10, items[0]),
        (&[(items[0], -1), (items[0] + 4, 2)], 10, items[0]),
        (&[(items[0] + 4, 2), (items[1], 7)], 13, items[0] + 4),
        (&[(items[1] + 4, 2)], 13, items[1] + 4),
        (&[(patient + 16, 1)], 14, patient + 16),
        (&[(patient + 16, 3)], 10, items[1] + 8),
        (&[(items[0], 13)], 10, items[0] + 13),
    ];
    for (changes, number, at) in cases {
        let found = judge(&pen.set(&file, changes)).err();
        assert_eq!(found, refused(number, at), "{changes:?}");
    }
}
