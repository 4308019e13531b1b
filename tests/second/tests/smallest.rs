//! The 562-byte file of document 01, and every refusal it can be brought to.

mod common;

use common::{spelled, Pen, PENS};
use second::ask::answer;
use second::judge::judge;
use second::listing::listing;
use second::model::Sample;
use second::place::{place, Place};
use second::questions;
use second::refusal::Refusal;
use second::rewrite::{rewrite, rewrite_room};
use second::table::table;
use second::turn::turn;

const LISTING: &str = "32 530 10 1
48 128 100 0
176 288 120 0
208 256 125 1
464 24 130 0
488 58 140 0
520 26 145 1
546 16 0 0
";

// Where its records stand.
const RECORDING: usize = 32;
const OVERVIEW: usize = 48;
const CHANNELS: usize = 176;
const CHANNEL: usize = 208;
const PATIENT: usize = 464;
const FRAMES: usize = 488;
const FRAME: usize = 520;
const DELIMITER: usize = 546;

fn refused(number: u8, at: usize) -> Option<Refusal> {
    Some(Refusal { number, at })
}

/// Each case: numbers set, and the refusal at an offset of a record, if any.
type Case<'a> = (&'a [(usize, i32)], Option<(u8, usize)>);

fn check(cases: &[Case]) {
    for pen in PENS {
        for (changes, expected) in cases {
            let file = pen.set(&pen.smallest(), changes);
            let expected = expected.and_then(|(number, at)| refused(number, at));
            assert_eq!(judge(&file).err(), expected, "{changes:?}");
        }
    }
}

#[test]
fn its_listing() {
    for pen in PENS {
        assert_eq!(pen.smallest().len(), 562);
        assert_eq!(listing(&pen.smallest()), LISTING);
    }
}

#[test]
fn its_questions() {
    let [little, big] = PENS.map(Pen::smallest);
    let facts = questions::facts(&little, 1).expect("recording 1");
    assert_eq!((facts.channels, facts.frames, facts.seconds), (1, 1, 1));
    assert_eq!(questions::clock(&little, 1, 1), Ok([0, 0, 0]));
    let expected = Place {
        position: 544,
        width: 2,
        count: 1,
    };
    assert_eq!(place(&little, 1, 1, 1), Ok(expected));
    // FF 7F, by either order.
    let sample = |file| questions::sample(file, 1, 1, 1, 0);
    assert_eq!(sample(&little), Ok(Sample::Whole(32_767)));
    assert_eq!(sample(&big), Ok(Sample::Whole(-129)));
}

#[test]
fn questions_outside() {
    let file = PENS[0].smallest();
    let outside = refused(19, 0);
    for n in [0, 2, 1 << 32, (1 << 32) + 1, u64::MAX] {
        assert_eq!(questions::facts(&file, n).err(), outside);
        assert_eq!(questions::channel(&file, 1, n).err(), outside);
        assert_eq!(questions::clock(&file, 1, n).err(), outside);
        assert_eq!(place(&file, n, 1, 1).err(), outside);
        assert_eq!(place(&file, 1, n, 1).err(), outside);
        assert_eq!(place(&file, 1, 1, n).err(), outside);
    }
    for n in [1, 2, 1 << 32, 1 << 63, u64::MAX] {
        assert_eq!(questions::sample(&file, 1, 1, 1, n).err(), outside);
        assert_eq!(questions::patient_item(&file, 1, n).err(), outside);
        assert_eq!(questions::event_item(&file, 1, n).err(), outside);
    }
}

#[test]
fn turned_and_rewritten() {
    let [little, big] = PENS.map(Pen::smallest);
    let turned = turn(&little, 562).expect("room enough");
    assert_eq!(turned[..544], big[..544]);
    assert_eq!(turned[544..546], [0x7f, 0xff]);
    assert_eq!(turn(&little, 561).err(), refused(17, 562));
    assert_eq!(rewrite(&little, u64::from(b'L'), 562), Ok(little.clone()));
    assert_eq!(rewrite(&little, u64::from(b'B'), 562), Ok(turned));
    assert_eq!(
        rewrite(&little, u64::from(b'B'), 561).err(),
        refused(17, 562)
    );
    assert_eq!(rewrite_room(&little), Ok(562 + 254));
    assert_eq!(rewrite_room(&big), Ok(562 + 254));
    assert_eq!(rewrite_room(&little[..561]).err(), refused(10, 32));
    for letter in [0, u64::from(b'l'), 256 + u64::from(b'L'), u64::MAX] {
        assert_eq!(rewrite(&little, letter, 0).err(), refused(19, 0));
    }
    assert_eq!(table(&little, 32).map(|rows| rows.len()), Ok(8));
    assert_eq!(table(&little, 31).err(), refused(17, 32));
}

#[test]
fn header_refusals() {
    let cases: [(usize, u8, u8, usize); 9] = [
        (7, b'X', 2, 0),
        (13, b'1', 3, 8),
        (15, b'2', 4, 14),
        (16, b'l', 5, 16),
        (17, b' ', 6, 17),
        (18, b'0', 7, 18),
        (21, 0, 7, 18),
        (22, b'0', 8, 22),
        (31, 0, 8, 22),
    ];
    for (at, byte, number, position) in cases {
        let mut file = PENS[0].smallest();
        file[at] = byte;
        assert_eq!(judge(&file).err(), refused(number, position));
    }
}

const SPELLINGS: [&[u8; 8]; 2] = [b"JSSR-SPG", b"JSSR-PSG"];

#[test]
fn either_spelling_is_accepted_and_kept() {
    for pen in PENS {
        let file = pen.smallest();
        for identifier in SPELLINGS {
            let other = spelled(&file, identifier);
            let kept = |out: Result<Vec<u8>, Refusal>| out.map(|out| spelled(&out, identifier));
            assert_eq!(listing(&other), LISTING);
            assert_eq!(turn(&other, 562), kept(turn(&file, 562)));
            for letter in *b"LB" {
                let rewritten = |file| rewrite(file, u64::from(letter), 562);
                assert_eq!(rewritten(&other), kept(rewritten(&file)));
            }
        }
    }
}

#[test]
fn the_headers_values() {
    let header = |file: &[u8]| answer(file, "header", &[]);
    let values = "0 300 0 76 69 1".to_string();
    assert_eq!(header(&PENS[0].smallest()), Some(Ok(values)));
    for pen in PENS {
        for (spelling, identifier) in SPELLINGS.iter().enumerate() {
            let mut file = spelled(&pen.smallest(), identifier);
            for script in *b"SJEU" {
                file[17] = script;
                let values = format!("{spelling} 300 0 {} {script} 1", pen.0.letter());
                assert_eq!(header(&file), Some(Ok(values)));
            }
        }
    }
}

#[test]
fn the_headers_question_has_the_files_refusals_alone() {
    for identifier in SPELLINGS {
        let mut file = spelled(&PENS[0].smallest(), identifier);
        assert_eq!(answer(&file, "header", &[1]), None);
        for (length, number, at) in [(31, 1, 0), (40, 10, 32), (561, 10, 32)] {
            let cut = &file[..length];
            assert_eq!(questions::header(cut).err(), refused(number, at));
        }
        file.push(0);
        assert_eq!(questions::header(&file).err(), refused(16, 562));
    }
}

#[test]
fn neither_spelling_is_2() {
    let near: [&[u8; 8]; 14] = [
        b"JSSR-SSG",
        b"JSSR-PPG",
        b"JSSR-SGP",
        b"JSSR-PGS",
        b"JSSR-PSP",
        b"JSSR-PSS",
        b"jssr-psg",
        b"jssr-spg",
        b"JSSR-psg",
        b"JSSR PSG",
        b"JSSRPSG ",
        b" JSSRSPG",
        b"SPG-JSSR",
        b"JSSR-PS\0",
    ];
    let mut others: Vec<[u8; 8]> = near.map(|identifier| *identifier).to_vec();
    for identifier in SPELLINGS {
        for bit in 0..64 {
            let mut other = *identifier;
            other[bit / 8] ^= 1 << (bit % 8);
            others.push(other);
        }
    }
    for other in others {
        let mut file = spelled(&PENS[0].smallest(), &other);
        let expected = refused(2, 0);
        assert_eq!(judge(&file).err(), expected, "{other:?}");
        assert_eq!(questions::header(&file).err(), expected);
        assert_eq!(turn(&file, 0).err(), expected);
        assert_eq!(rewrite(&file, 0, 0).err(), expected);
        // Before the version; a file under 32 bytes is refused before that.
        file[8] = b'X';
        assert_eq!(judge(&file).err(), expected);
        assert_eq!(judge(&file[..31]).err(), refused(1, 0));
    }
    for identifier in SPELLINGS {
        let mut file = spelled(&PENS[0].smallest(), identifier);
        file[8] = b'X';
        assert_eq!(judge(&file).err(), refused(3, 8));
    }
}

#[test]
fn cut_and_lengthened() {
    let mut file = PENS[0].smallest();
    for length in 0..562 {
        let expected = match length {
            0..=31 => refused(1, 0),
            _ => refused(10, RECORDING),
        };
        assert_eq!(judge(&file[..length]).err(), expected);
    }
    file.push(0);
    assert_eq!(judge(&file).err(), refused(16, 562));
    file[18] = b'2';
    assert_eq!(judge(&file).err(), refused(10, 562));
}

#[test]
fn long_input_of_listing() {
    assert_eq!(listing(&[0; 32_769]), "refused 17 at 32768\n");
    assert_eq!(listing(&[0; 32_768]), "refused 2 at 0\n");
    assert_eq!(listing(&[]), "refused 1 at 0\n");
}

#[test]
fn heads() {
    check(&[
        (&[(RECORDING, 15)], Some((10, RECORDING))),
        (&[(RECORDING, 16)], Some((10, 48))),
        (&[(RECORDING, 529)], Some((10, DELIMITER))),
        (&[(RECORDING, 531)], Some((10, RECORDING))),
        (&[(RECORDING, -1)], Some((10, RECORDING))),
        (&[(RECORDING + 4, 11)], Some((9, RECORDING + 4))),
        (&[(RECORDING + 8, 0)], Some((12, RECORDING + 8))),
        (&[(RECORDING + 12, 1)], None),
        (&[(RECORDING + 12, 2)], Some((10, RECORDING))),
        (&[(RECORDING + 12, 129)], Some((11, RECORDING + 12))),
        (&[(RECORDING + 12, -1)], Some((11, RECORDING + 12))),
        (&[(RECORDING, 265), (RECORDING + 12, 2)], None),
        (&[(OVERVIEW, 127)], Some((10, OVERVIEW))),
        (&[(OVERVIEW, 129)], Some((10, OVERVIEW))),
        (&[(OVERVIEW + 4, 1024)], Some((9, OVERVIEW + 4))),
        (&[(OVERVIEW + 8, 1)], Some((12, OVERVIEW + 8))),
        (&[(OVERVIEW + 12, 1)], Some((11, OVERVIEW + 12))),
        (&[(CHANNELS, 31)], Some((10, CHANNELS))),
        (&[(CHANNELS, 387)], Some((10, CHANNELS))),
        (&[(CHANNELS + 4, 130)], Some((9, CHANNELS + 4))),
        (&[(CHANNELS + 4, -1)], Some((9, CHANNELS + 4))),
        (&[(CHANNELS + 8, 1)], Some((12, CHANNELS + 8))),
        (&[(CHANNELS + 12, 1)], Some((11, CHANNELS + 12))),
        (&[(CHANNEL, 255)], Some((10, CHANNEL))),
        (&[(CHANNEL + 4, 1024)], Some((9, CHANNEL + 4))),
        (&[(CHANNEL + 8, 2)], Some((12, CHANNEL + 8))),
        (&[(CHANNEL + 12, 1)], Some((11, CHANNEL + 12))),
        (&[(PATIENT, 23)], Some((10, PATIENT))),
        (&[(PATIENT, 99)], Some((10, PATIENT))),
        (&[(PATIENT + 4, 140)], Some((9, PATIENT + 4))),
        (&[(PATIENT + 8, -1)], Some((12, PATIENT + 8))),
        (&[(PATIENT + 12, 1)], Some((11, PATIENT + 12))),
        (&[(FRAMES, 31)], Some((10, FRAMES))),
        (&[(FRAMES, 75)], Some((10, FRAMES))),
        (&[(FRAMES + 4, 1023)], Some((9, FRAMES + 4))),
        (&[(FRAMES + 4, 0)], Some((9, FRAMES + 4))),
        (&[(FRAMES + 8, 1)], Some((12, FRAMES + 8))),
        (&[(FRAMES + 12, 129)], Some((11, FRAMES + 12))),
        (&[(FRAME, 25)], Some((10, FRAME))),
        (&[(FRAME, 13), (FRAME + 12, 2)], None),
        (&[(FRAME + 4, 1024)], Some((9, FRAME + 4))),
        (&[(FRAME + 8, 0)], Some((12, FRAME + 8))),
        (&[(FRAME + 12, 129)], Some((11, FRAME + 12))),
        (&[(DELIMITER, 16)], Some((10, DELIMITER))),
        (&[(DELIMITER + 4, 140)], Some((9, DELIMITER + 4))),
        (&[(DELIMITER + 8, 1)], Some((12, DELIMITER + 8))),
        (&[(DELIMITER + 12, 1)], Some((11, DELIMITER + 12))),
    ]);
}

#[test]
fn the_order_within_a_head() {
    let wrong = |at: usize| [(at, -1), (at + 4, 7), (at + 8, 9), (at + 12, 129)];
    for at in [
        RECORDING, OVERVIEW, CHANNELS, CHANNEL, PATIENT, FRAMES, FRAME, DELIMITER,
    ] {
        let [size, code, serial, multiplier] = wrong(at);
        check(&[
            (&[size, code, serial, multiplier], Some((9, at + 4))),
            (&[size, serial, multiplier], Some((11, at + 12))),
            (&[size, serial], Some((10, at))),
            (&[serial], Some((12, at + 8))),
        ]);
    }
}

#[test]
fn overview_fields() {
    let date = |year, month, day| [(80, year), (84, month), (88, day)];
    check(&[
        (&[(64, 0)], Some((13, 64))),
        (&[(64, 2)], Some((13, 64))),
        (&[(68, 0)], Some((13, 68))),
        (&[(68, 129)], Some((13, 68))),
        (&[(68, 128)], Some((14, CHANNELS + 16))),
        (&[(72, 0)], Some((13, 72))),
        (&[(72, 1_000_001)], Some((13, 72))),
        (&[(72, 1_000_000)], Some((14, FRAMES + 24))),
        (&date(2000, 2, 29), None),
        (&date(1900, 2, 29), Some((13, 88))),
        (&date(1900, 2, 28), None),
        (&date(9999, 12, 31), None),
        (&date(10_000, 1, 1), Some((13, 80))),
        (&date(-1, 0, 0), Some((13, 80))),
        (&date(0, 1, 0), Some((13, 84))),
        (&date(0, 0, 1), Some((13, 88))),
        (&date(1, 0, 1), Some((13, 84))),
        (&date(1, 13, 1), Some((13, 84))),
        (&date(1, 1, 0), Some((13, 88))),
        (&date(1, 4, 31), Some((13, 88))),
        (&[(92, 23), (96, 59), (100, 59)], None),
        (&[(92, 24), (96, 60)], Some((13, 92))),
        (&[(96, 60), (100, 60)], Some((13, 96))),
        (&[(100, 60)], Some((13, 100))),
        (&[(124, 50)], None),
        (&[(124, 60)], None),
        (&[(124, 51)], Some((13, 124))),
        (&[(76, -1), (104, -1), (128, -1), (172, -1)], None),
    ]);
}

#[test]
fn channel_fields() {
    let (count, sub_size) = (CHANNELS + 16, CHANNELS + 20);
    let (flags, kind, format, rate) = (CHANNEL + 20, CHANNEL + 24, CHANNEL + 28, CHANNEL + 32);
    check(&[
        (&[(count, 0)], Some((13, count))),
        (&[(count, 129)], Some((13, count))),
        (&[(count, 2)], Some((14, count))),
        (&[(count, 2), (68, 2)], Some((14, count))),
        (&[(CHANNELS, 32)], Some((14, count))),
        (&[(CHANNELS, 289), (sub_size, 0)], Some((14, count))),
        (&[(sub_size, 255)], Some((13, sub_size))),
        (&[(kind, 19)], Some((13, kind))),
        (&[(kind, 21)], Some((13, kind))),
        (&[(kind, -1)], Some((13, kind))),
        (&[(kind, 20)], None),
        (&[(format, 0)], Some((13, format))),
        (&[(format, 5)], Some((13, format))),
        (&[(format, 4)], Some((14, FRAMES + 20))),
        (&[(rate, 0)], Some((13, rate))),
        (&[(rate, 1_000_001)], Some((13, rate))),
        (&[(rate, 1_000_000)], Some((14, FRAMES + 20))),
        (&[(rate, 1_000_000), (flags, 1)], None),
        (&[(rate, -1), (flags, 1)], Some((13, rate))),
        // No samples any more: the two bytes are too much without a multiplier.
        (&[(rate, 0), (kind, 0)], Some((10, FRAME))),
    ]);
}

#[test]
fn periods() {
    let (flags, kind, rate) = (CHANNEL + 20, CHANNEL + 24, CHANNEL + 32);
    let (seconds, length) = (FRAMES + 16, FRAMES + 20);
    let period = |period| [(flags, 1), (rate, period)];
    let with = |value, change: &[(usize, i32)]| [&period(value), change].concat();
    check(&[
        // One sample, whether or not the period divides.
        (&period(1_000_000), None),
        (&period(999_999), None),
        (&period(700_000), None),
        (&period(500_001), None),
        // More of them than the frame has.
        (&period(500_000), Some((14, length))),
        (&period(3906), Some((14, length))),
        (&period(3), Some((14, length))),
        // None, also in an OFF channel, and before the frame length is judged.
        (&period(1_000_001), Some((14, seconds))),
        (&period(i32::MAX), Some((14, seconds))),
        (&with(1_000_001, &[(flags, -1)]), Some((14, seconds))),
        (&with(1_000_001, &[(kind, 0)]), Some((14, seconds))),
        (&with(1_000_001, &[(length, -1)]), Some((14, seconds))),
        // After the seconds' own values.
        (&with(1_000_001, &[(seconds, 0)]), Some((13, seconds))),
        (&with(1_000_001, &[(seconds, 2)]), None),
        (&with(i32::MAX, &[(seconds, 2147)]), Some((14, seconds))),
        (&with(i32::MAX, &[(seconds, 2148)]), None),
        (&with(i32::MAX, &[(seconds, 3600)]), None),
        // Rate 0 with type OFF has no samples by either flag.
        (&with(0, &[(kind, 0)]), Some((10, FRAME))),
    ]);
}

#[test]
fn frame_block_fields() {
    let (seconds, length, count) = (FRAMES + 16, FRAMES + 20, FRAMES + 24);
    check(&[
        (&[(PATIENT + 16, -1)], Some((13, PATIENT + 16))),
        (&[(PATIENT + 16, 257)], Some((13, PATIENT + 16))),
        (&[(PATIENT + 16, 1)], Some((10, PATIENT + 24))),
        (&[(PATIENT, 25)], Some((14, PATIENT + 16))),
        (&[(seconds, 0)], Some((13, seconds))),
        (&[(seconds, 3601)], Some((13, seconds))),
        (&[(seconds, 2)], Some((14, length))),
        (&[(length, 25)], Some((14, length))),
        (&[(length, 154)], Some((14, length))),
        (&[(length, 153)], Some((14, count))),
        (&[(length, -1)], Some((14, length))),
        (&[(count, 0)], Some((14, count))),
        (&[(count, 2)], Some((14, count))),
        (&[(count, 2), (72, 2)], Some((14, count))),
        (&[(FRAMES, 57)], Some((14, count))),
        (&[(FRAMES, 59)], Some((14, count))),
        (&[(FRAMES, 29), (FRAMES + 12, 2)], None),
    ]);
}

#[test]
fn clock_fields() {
    for pen in PENS {
        for (offset, most) in [(16, 23), (18, 59), (20, 59)] {
            let at = FRAME + offset;
            for (value, expected) in [
                (most, None),
                (most + 1, refused(13, at)),
                (65_535, refused(13, at)),
            ] {
                let mut file = pen.smallest();
                pen.0.put(&mut file, at, 2, value);
                assert_eq!(judge(&file).err(), expected);
            }
        }
    }
}
