//! The electrode form (document 02, request 1): the smallest file of electrodes with a montage, every refusal that is
//! new, and files of several recordings.

mod common;

use common::{of_electrodes, Pen, PENS};
use second::ask::answer;
use second::generate::{self, Field, Sheet};
use second::header::Form;
use second::judge::judge;
use second::listing::listing;
use second::model::{Calibration, Model, Recording};
use second::questions;
use second::record::Kind;
use second::refusal::Refusal;
use second::rewrite::rewrite;
use second::turn::turn;
use std::collections::BTreeMap;

const LISTING: &str = "32 818 10 1
48 128 100 0
176 288 320 0
208 256 325 1
464 24 130 0
488 288 350 0
520 256 355 1
776 58 140 0
808 26 145 1
834 16 0 0
";

// Where its records stand.
const ELECTRODES: usize = 176;
const ELECTRODE: usize = 208;
const MONTAGE: usize = 488;
const MONTAGE_CHANNEL: usize = 520;
const FRAMES: usize = 776;
const FRAME: usize = 808;
const END: usize = 850;

// 355's G1 and G2.
const G1: usize = MONTAGE_CHANNEL + 104;
const G2: usize = MONTAGE_CHANNEL + 108;

fn refused(number: u8, at: usize) -> Option<Refusal> {
    Some(Refusal { number, at })
}

fn letter(pen: Pen) -> u64 {
    u64::from(pen.0.letter())
}

/// Each case: numbers set, and the refusal, if any.
type Case<'a> = (&'a [(usize, i32)], Option<(u8, usize)>);

fn check(cases: &[Case]) {
    for pen in PENS {
        for (changes, expected) in cases {
            let file = pen.set(&pen.smallest_electrodes(), changes);
            let expected = expected.and_then(|(number, at)| refused(number, at));
            assert_eq!(judge(&file).err(), expected, "{changes:?}");
        }
    }
}

#[test]
fn its_listing() {
    for pen in PENS {
        let file = pen.smallest_electrodes();
        assert_eq!(file.len(), END);
        assert_eq!(listing(&file), LISTING);
        let model = judge(&file).expect("a valid file");
        assert_eq!(model.recordings[0].content(), 818);
    }
}

#[test]
fn its_questions() {
    for pen in PENS {
        let changes = [ELECTRODE, MONTAGE_CHANNEL].map(|at| {
            [(20, 2), (36, -1), (52, 5), (56, 8), (60, 9), (64, 6)]
                .map(|(n, value)| (at + n, value))
        });
        let file = pen.set(&pen.smallest_electrodes(), &changes.concat());
        let ok = |op, args: &[u64], values: &str| {
            assert_eq!(
                answer(&file, op, args),
                Some(Ok(values.to_string())),
                "{op}"
            );
        };
        ok("header", &[], &format!("0 300 1 {} 69 1", pen.0.letter()));
        ok("facts", &[1], "1 1 1");
        // An electrode has neither calibration frequency nor sensitivity.
        let electrode = "1 2 1 1 1 0 -1 0 0 0 0 8 9 0 280 16 296 16 404 60";
        ok("channel", &[1, 1], electrode);
        ok("montage_count", &[1], "1");
        let montage = "1 2 0 0 0 0 -1 0 0 0 5 8 9 6 1 0 592 16 608 16 716 60";
        ok("montage", &[1, 1], montage);
        for outside in [0, 2, 1 << 32, u64::MAX] {
            let refused = Some(Err(Refusal { number: 19, at: 0 }));
            assert_eq!(answer(&file, "montage_count", &[outside]), refused);
            assert_eq!(answer(&file, "montage", &[outside, 1]), refused);
            assert_eq!(answer(&file, "montage", &[1, outside]), refused);
        }
    }
}

#[test]
fn a_montages_calibration_is_floats_when_its_format_is_4() {
    let pen = PENS[0];
    for format in [-1, 0, 1, 2, 3, 4, 5, 0x104, i32::MIN] {
        let at = MONTAGE_CHANNEL;
        let changes = [(at + 28, format), (at + 36, -1), (at + 48, 7)];
        let file = pen.set(&pen.smallest_electrodes(), &changes);
        let sub = questions::montage(&file, 1, 1).expect("a montage channel");
        let expected = match format {
            4 => Calibration::Float([u32::MAX, 0, 0, 7]),
            _ => Calibration::Whole([-1, 0, 0, 7]),
        };
        assert_eq!((sub.format, sub.calibration), (format, expected));
    }
}

#[test]
fn heads() {
    check(&[
        (&[(ELECTRODES, 31)], Some((10, ELECTRODES))),
        (&[(ELECTRODES, 675)], Some((10, ELECTRODES))),
        (&[(ELECTRODES + 4, 120)], Some((9, ELECTRODES + 4))),
        (&[(ELECTRODES + 4, 350)], Some((9, ELECTRODES + 4))),
        (&[(ELECTRODES + 8, 1)], Some((12, ELECTRODES + 8))),
        (&[(ELECTRODES + 12, 1)], Some((11, ELECTRODES + 12))),
        (&[(ELECTRODE, 255)], Some((10, ELECTRODE))),
        (&[(ELECTRODE + 4, 125)], Some((9, ELECTRODE + 4))),
        (&[(ELECTRODE + 4, 355)], Some((9, ELECTRODE + 4))),
        (&[(ELECTRODE + 8, 2)], Some((12, ELECTRODE + 8))),
        (&[(ELECTRODE + 12, 1)], Some((11, ELECTRODE + 12))),
        (&[(MONTAGE, 31)], Some((10, MONTAGE))),
        (&[(MONTAGE, 32)], Some((14, MONTAGE + 16))),
        (&[(MONTAGE, 362)], Some((14, MONTAGE + 16))),
        (&[(MONTAGE, 363)], Some((10, MONTAGE))),
        (&[(MONTAGE, -1)], Some((10, MONTAGE))),
        (&[(MONTAGE + 4, 120)], Some((9, MONTAGE + 4))),
        (&[(MONTAGE + 4, 320)], Some((9, MONTAGE + 4))),
        (&[(MONTAGE + 4, 355)], Some((9, MONTAGE + 4))),
        (&[(MONTAGE + 8, 1)], Some((12, MONTAGE + 8))),
        (&[(MONTAGE + 12, 1)], Some((11, MONTAGE + 12))),
        (&[(MONTAGE_CHANNEL, 255)], Some((10, MONTAGE_CHANNEL))),
        (&[(MONTAGE_CHANNEL, 257)], Some((10, MONTAGE_CHANNEL))),
        (
            &[(MONTAGE_CHANNEL + 4, 125)],
            Some((9, MONTAGE_CHANNEL + 4)),
        ),
        (
            &[(MONTAGE_CHANNEL + 4, 325)],
            Some((9, MONTAGE_CHANNEL + 4)),
        ),
        (
            &[(MONTAGE_CHANNEL + 4, 1024)],
            Some((9, MONTAGE_CHANNEL + 4)),
        ),
        (&[(MONTAGE_CHANNEL + 8, 0)], Some((12, MONTAGE_CHANNEL + 8))),
        (&[(MONTAGE_CHANNEL + 8, 2)], Some((12, MONTAGE_CHANNEL + 8))),
        (
            &[(MONTAGE_CHANNEL + 12, 1)],
            Some((11, MONTAGE_CHANNEL + 12)),
        ),
    ]);
}

#[test]
fn the_order_within_a_head() {
    for at in [ELECTRODES, ELECTRODE, MONTAGE, MONTAGE_CHANNEL] {
        let [size, code, serial, multiplier] = [(at, -1), (at + 4, 7), (at + 8, 9), (at + 12, 1)];
        check(&[
            (&[size, code, serial, multiplier], Some((9, at + 4))),
            (&[size, serial, multiplier], Some((11, at + 12))),
            (&[size, serial], Some((10, at))),
            (&[serial], Some((12, at + 8))),
        ]);
    }
}

#[test]
fn electrode_fields() {
    let at = ELECTRODE;
    let (code, kind, format, rate) = (at + 16, at + 24, at + 28, at + 32);
    check(&[
        (&[(ELECTRODES + 16, 0)], Some((13, ELECTRODES + 16))),
        (&[(ELECTRODES + 16, 129)], Some((13, ELECTRODES + 16))),
        (&[(ELECTRODES + 16, 2)], Some((14, ELECTRODES + 16))),
        (&[(68, 2)], Some((14, ELECTRODES + 16))),
        (&[(ELECTRODES + 20, 255)], Some((13, ELECTRODES + 20))),
        (&[(code, 0)], None),
        (&[(code, 23)], None),
        (&[(code, i32::MAX)], None),
        (&[(code, -1)], Some((13, code))),
        (&[(code, i32::MIN)], Some((13, code))),
        (&[(code, -1), (kind, 19), (format, 0)], Some((13, code))),
        (&[(kind, 101)], None),
        (&[(kind, 20)], None),
        (&[(kind, 19)], Some((13, kind))),
        (&[(kind, 100)], Some((13, kind))),
        (&[(kind, 102)], Some((13, kind))),
        (&[(kind, -1), (format, 0)], Some((13, kind))),
        (&[(format, 0), (rate, 0)], Some((13, format))),
        (&[(format, 5)], Some((13, format))),
        (&[(rate, 0)], Some((13, rate))),
        (&[(rate, 0), (kind, 101)], Some((13, rate))),
        (&[(rate, 0), (kind, 0)], Some((10, FRAME))),
        (&[(rate, 1_000_000)], Some((14, FRAMES + 20))),
        // Reserve, and fields of any value.
        (
            &[(at + 20, 6), (at + 36, -1), (at + 52, -1), (at + 64, -1)],
            None,
        ),
        (
            &[
                (at + 68, -1),
                (at + 104, -1),
                (at + 108, -1),
                (at + 192, -1),
            ],
            None,
        ),
    ]);
}

#[test]
fn type_101_in_a_125_stays_13() {
    for pen in PENS {
        let file = pen.set(&pen.smallest(), &[(208 + 24, 101)]);
        assert_eq!(judge(&file).err(), refused(13, 208 + 24));
        // So does any number of a channel.
        let file = pen.set(&pen.smallest(), &[(208 + 16, -1)]);
        assert_eq!(judge(&file).err(), None);
    }
}

#[test]
fn montage_fields() {
    let (count, sub_size, at) = (MONTAGE + 16, MONTAGE + 20, MONTAGE_CHANNEL);
    check(&[
        (&[(count, 0)], Some((13, count))),
        (&[(count, -1)], Some((13, count))),
        (&[(count, 129)], Some((13, count))),
        (&[(count, 128)], Some((14, count))),
        (&[(count, 2), (sub_size, 0)], Some((14, count))),
        (&[(sub_size, 255)], Some((13, sub_size))),
        (&[(sub_size, 512)], Some((13, sub_size))),
        (&[(sub_size, 255), (at + 4, 0)], Some((13, sub_size))),
        // Nothing of a 355 is judged but its head, G1 and G2.
        (
            &[(at + 16, -1), (at + 20, -1), (at + 24, 99), (at + 28, 0)],
            None,
        ),
        (
            &[(at + 32, -1), (at + 28, 77), (at + 52, -1), (at + 64, -1)],
            None,
        ),
        (&[(at + 68, -1), (at + 112, -1), (at + 192, -1)], None),
    ]);
}

#[test]
fn leads() {
    for at in [G1, G2] {
        for lead in [0, 1, 0x1_0000, 0x1_0002, 0x2_ffff, 0x3_0000, 0x3_ffff] {
            check(&[(&[(at, lead)], None)]);
        }
        for lead in [
            2,
            128,
            0xffff,
            0x4_0000,
            0x4_0001,
            0x7fff_0001,
            -1,
            i32::MIN,
        ] {
            check(&[(&[(at, lead)], Some((13, at)))]);
        }
    }
    check(&[
        (&[(G1, 2), (G2, 2)], Some((13, G1))),
        (&[(G1, 1), (G2, 2), (FRAMES + 4, 0)], Some((13, G2))),
        // The head before both.
        (
            &[(G1, 2), (MONTAGE_CHANNEL + 8, 9)],
            Some((12, MONTAGE_CHANNEL + 8)),
        ),
    ]);
}

#[test]
fn records_of_the_other_form() {
    for pen in PENS {
        // 120 in form 01, and 320 in form 00.
        let file = of_electrodes(pen.smallest());
        assert_eq!(judge(&file).err(), refused(9, ELECTRODES + 4));
        let mut file = pen.smallest_electrodes();
        file[14..16].copy_from_slice(b"00");
        assert_eq!(judge(&file).err(), refused(9, ELECTRODES + 4));
        // 350 in form 00.
        let changes = [(ELECTRODES + 4, 120), (ELECTRODE + 4, 125)];
        assert_eq!(
            judge(&pen.set(&file, &changes)).err(),
            refused(9, MONTAGE + 4)
        );
        file[14..16].copy_from_slice(b"02");
        assert_eq!(judge(&file).err(), refused(4, 14));
    }
}

/// A recording of these electrodes (one sample each) or of the inherited ones, of
/// so many, with a montage where there are leads.
fn recording(pen: Pen, serial: i32, own: bool, count: i32, leads: &[[i32; 2]]) -> Vec<u8> {
    let samples = vec![3; 2 * count as usize];
    let mut parts = vec![pen.overview(count, 1)];
    if own {
        parts.push(pen.electrodes(&vec![[0, 4, 1, 1]; count as usize]));
    }
    if serial == 1 {
        parts.push(pen.items(130, &[(1, b"name")]));
    }
    parts.push(pen.items(200, &[]));
    if !leads.is_empty() {
        parts.push(pen.montage(leads));
    }
    let length = 24 + samples.len() as i32;
    parts.push(pen.frames(1, 0, &[pen.frame(1, length, 0, &samples)]));
    pen.recording(serial, 0, &parts)
}

fn file(pen: Pen, recordings: &[Vec<u8>]) -> Vec<u8> {
    of_electrodes(pen.file(recordings))
}

fn montage_at(model: &Model, recording: usize) -> usize {
    let recording = &model.recordings[recording - 1];
    let mut parts = recording.parts.iter();
    parts.find(|part| part.code == 350).expect("a 350").at
}

#[test]
fn serials_count_up_to_the_320_that_holds() {
    for pen in PENS {
        let three = recording(pen, 1, true, 3, &[[3, 1]]);
        let inherits = recording(pen, 2, false, 3, &[[1, 2], [0, 3]]);
        let one = recording(pen, 3, true, 1, &[[1, 0]]);
        let again = recording(pen, 4, false, 1, &[[0x3_0009, 1]]);
        let valid = file(pen, &[three, inherits, one, again]);
        let model = judge(&valid).expect("a valid file");
        let g2 = |recording, channel: usize| {
            montage_at(&model, recording) + 32 + 256 * (channel - 1) + 108
        };
        for (recording, channel, most) in [(1, 1, 3), (2, 2, 3), (3, 1, 1), (4, 1, 1)] {
            let at = g2(recording, channel);
            assert_eq!(judge(&pen.set(&valid, &[(at, most)])).err(), None);
            let outside = pen.set(&valid, &[(at, most + 1)]);
            assert_eq!(judge(&outside).err(), refused(13, at));
        }
        // 100's count disagrees: found at the 140, and no measure for a serial.
        let count = model.recordings[1].overview.at + 20;
        for (counted, lead, number, at) in [
            (2, 3, 14, count),
            (4, 3, 14, count),
            (4, 4, 13, g2(2, 2)),
            (2, 4, 13, g2(2, 2)),
        ] {
            let changed = pen.set(&valid, &[(count, counted), (g2(2, 2), lead)]);
            assert_eq!(judge(&changed).err(), refused(number, at));
        }
    }
}

#[test]
fn an_absent_350_is_not_inherited() {
    for pen in PENS {
        let file = file(
            pen,
            &[
                recording(pen, 1, true, 2, &[[2, 1], [1, 0], [0, 2]]),
                recording(pen, 2, false, 2, &[]),
                recording(pen, 3, false, 2, &[[2, 2]]),
            ],
        );
        let counts = [1, 2, 3].map(|recording| questions::montage_count(&file, recording));
        // Nor is its count held to 100's.
        assert_eq!(counts, [Ok(3), Ok(0), Ok(1)]);
        assert_eq!(questions::montage(&file, 2, 1).err(), refused(19, 0));
        let leads =
            |recording, channel| questions::montage(&file, recording, channel).unwrap().leads;
        assert_eq!(leads(1, 3), Some([0, 2]));
        assert_eq!(leads(3, 1), Some([2, 2]));
        assert_eq!(questions::channel(&file, 2, 2).unwrap().leads, None);
    }
}

#[test]
fn as_many_montage_channels_as_there_may_be() {
    let pen = PENS[1];
    let file = |count| file(pen, &[recording(pen, 1, true, 1, &vec![[1, 0]; count])]);
    assert_eq!(questions::montage_count(&file(128), 1), Ok(128));
    let at = 32 + 16 + 128 + 288 + 24 + 12 + 24 + 16;
    assert_eq!(judge(&file(129)).err(), refused(13, at));
}

/// One recording of these records in the place of 130, 200 and 350.
fn arranged(pen: Pen, between: &[&[u8]], behind: &[&[u8]]) -> Vec<u8> {
    let mut parts = vec![pen.overview(1, 1), pen.electrodes(&[[0, 1, 1, 1]])];
    parts.extend(between.iter().map(|part| part.to_vec()));
    parts.push(pen.frames(1, 0, &[pen.frame(1, 26, 0, &[0, 0])]));
    parts.extend(behind.iter().map(|part| part.to_vec()));
    file(pen, &[pen.recording(1, 0, &parts)])
}

#[test]
fn where_a_350_stands() {
    for pen in PENS {
        let (patient, events) = (pen.items(130, &[]), pen.items(200, &[]));
        let montage = pen.montage(&[[1, 1]]);
        let verdict = |between: &[&[u8]], behind: &[&[u8]]| {
            let file = arranged(pen, between, behind);
            judge(&file).err()
        };
        let first = 464;
        assert_eq!(verdict(&[&patient, &events, &montage], &[]), None);
        assert_eq!(verdict(&[&patient, &montage], &[]), None);
        assert_eq!(verdict(&[&patient, &events], &[]), None);
        assert_eq!(verdict(&[&montage, &patient], &[]), refused(9, first + 4));
        // The 200 behind a 350 is the one that is refused, and so is a second 350.
        let second = first + 24 + 288;
        assert_eq!(
            verdict(&[&patient, &montage, &events], &[]),
            refused(9, second + 4)
        );
        assert_eq!(
            verdict(&[&patient, &montage, &montage], &[]),
            refused(9, second + 4)
        );
        let behind = first + 24 + 58;
        assert_eq!(verdict(&[&patient], &[&montage]), refused(9, behind + 4));
    }
}

#[test]
fn makers_records_about_a_350() {
    for pen in PENS {
        let maker = pen.record([2, 1024, -5, 16], b"anything at all!");
        let (patient, events) = (pen.items(130, &[]), pen.items(200, &[]));
        let montage = pen.montage(&[[0x1_0005, 1]]);
        let parts: [&[u8]; 7] = [&patient, &maker, &events, &maker, &montage, &maker, &maker];
        let file = arranged(pen, &parts, &[&maker]);
        let model = judge(&file).expect("a valid file");
        let parts = model.recordings[0].parts.iter();
        let codes: Vec<i32> = parts.map(|part| part.code).collect();
        let expected = [
            100, 320, 130, 1024, 200, 1024, 350, 1024, 1024, 140, 1024, 0,
        ];
        assert_eq!(codes, expected);
        assert_eq!(rewrite(&file, letter(pen), u64::MAX), Ok(file.clone()));
        assert_eq!(turn(&file, 0).err(), refused(18, 464 + 24 + 4));
    }
}

/// Every byte of the two subs from 36 on, and of both lists' reserve, is its own.
fn marked(pen: Pen) -> Vec<u8> {
    let mut file = pen.smallest_electrodes();
    for (list, sub) in [(ELECTRODES, ELECTRODE), (MONTAGE, MONTAGE_CHANNEL)] {
        for area in [
            list + 24..list + 32,
            sub + 36..sub + 104,
            sub + 112..sub + 256,
        ] {
            let bytes = area.clone().map(|at| (at % 251) as u8);
            file.splice(area, bytes);
        }
    }
    file[ELECTRODE + 104..ELECTRODE + 112].copy_from_slice(b"reserved");
    pen.set(&file, &[(G1, 0x2_0304), (G2, 1)])
}

// The number fields from 36 on and the reserve areas, of 325 and 355.
const ELECTRODE_NUMBERS: &[usize] = &[36, 40, 44, 48, 56, 60];
const ELECTRODE_RESERVE: &[(usize, usize)] = &[(52, 56), (64, 72), (104, 196)];
const MONTAGE_NUMBERS: &[usize] = &[36, 40, 44, 48, 52, 56, 60, 64, 104, 108];
const MONTAGE_RESERVE: &[(usize, usize)] = &[(68, 72), (112, 196)];

/// Each sub with its number fields and its reserve.
type Part = (usize, &'static [usize], &'static [(usize, usize)]);
const SUBS: [Part; 2] = [
    (ELECTRODE, ELECTRODE_NUMBERS, ELECTRODE_RESERVE),
    (MONTAGE_CHANNEL, MONTAGE_NUMBERS, MONTAGE_RESERVE),
];

#[test]
fn turning_reverses_numbers_and_leaves_reserve_and_texts() {
    for pen in PENS {
        let file = marked(pen);
        let turned = turn(&file, END as u64).expect("room enough");
        assert_eq!(turned[14..16], *b"01");
        for (sub, numbers, reserve) in SUBS {
            for at in numbers.iter().map(|offset| sub + offset) {
                let mut number = file[at..at + 4].to_vec();
                number.reverse();
                assert_eq!(turned[at..at + 4], number);
            }
            for (from, to) in reserve.iter().chain(&[(72, 104), (196, 256)]) {
                assert_eq!(turned[sub + from..sub + to], file[sub + from..sub + to]);
            }
        }
        for list in [ELECTRODES, MONTAGE] {
            assert_eq!(turned[list + 24..list + 32], file[list + 24..list + 32]);
        }
        assert_eq!(listing(&turned), LISTING);
        for (op, args) in [
            ("channel", &[1, 1][..]),
            ("montage", &[1, 1][..]),
            ("sample", &[1, 1, 1, 0][..]),
        ] {
            assert_eq!(answer(&turned, op, args), answer(&file, op, args));
        }
        assert_eq!(turn(&turned, END as u64), Ok(file));
    }
}

#[test]
fn rewriting_keeps_the_form_and_clears_reserve() {
    for pen in PENS {
        let file = marked(pen);
        let mut expected = file.clone();
        for (sub, _, reserve) in SUBS {
            for (from, to) in reserve {
                expected[sub + from..sub + to].fill(0);
            }
        }
        for list in [ELECTRODES, MONTAGE] {
            expected[list + 24..list + 32].fill(0);
        }
        let turned = turn(&expected, u64::MAX).expect("room enough");
        let other = u64::from(pen.0.other().letter());
        assert_eq!(rewrite(&file, letter(pen), END as u64), Ok(expected));
        assert_eq!(rewrite(&file, other, END as u64), Ok(turned));
        assert_eq!(
            rewrite(&file, other, END as u64 - 1).err(),
            refused(17, END)
        );
    }
}

/// What a valid file of electrodes shows.
fn shown(model: &Model, recording: &Recording) -> Vec<String> {
    let kinds: Vec<Kind> = recording.parts.iter().map(|part| part.kind).collect();
    let has = |kind| kinds.contains(&kind);
    let montage = recording.montage.len();
    let electrodes = recording.channels.len();
    let follow = |kind, next| kinds.windows(2).any(|pair| pair == [kind, next]);
    let mut all = vec![
        format!("{:?}", model.order),
        format!("{:?}", model.spelling),
    ];
    let named = [
        (has(Kind::Montage), "a 350"),
        (!has(Kind::Montage), "no 350"),
        (
            has(Kind::Montage) && !has(Kind::Electrodes),
            "a 350 and an inherited 320",
        ),
        (
            has(Kind::Montage) && !has(Kind::Events),
            "a 350 without a 200",
        ),
        (follow(Kind::Montage, Kind::Maker), "a maker behind a 350"),
        (
            montage > electrodes,
            "more montage channels than electrodes",
        ),
        (montage > 6, "many montage channels"),
    ];
    all.extend(
        named
            .iter()
            .filter(|(is, _)| *is)
            .map(|(_, name)| name.to_string()),
    );
    for channel in recording
        .channels
        .iter()
        .filter(|c| c.sub.channel_type == 101)
    {
        all.push(format!("type {}", channel.sub.channel_type));
    }
    for sub in &recording.montage {
        all.push(match sub.calibration {
            Calibration::Float(_) => "floats in a 355".to_string(),
            Calibration::Whole(_) => "whole numbers in a 355".to_string(),
        });
        for (side, lead) in (1..).zip(sub.leads.expect("G1 and G2")) {
            all.push(match (lead >> 16, lead & 0xffff) {
                (0, 0) => format!("G{side} earth"),
                (0, serial) if serial as usize == electrodes => {
                    format!("G{side} the last electrode")
                }
                (0, _) => format!("G{side} an electrode"),
                (high, low) if low as usize > electrodes => {
                    format!("G{side} high {high}, low free")
                }
                (high, _) => format!("G{side} high {high}"),
            });
        }
    }
    all
}

#[test]
fn every_sort_of_electrode_file_is_drawn() {
    const FILES: u64 = 3000;
    let mut times: BTreeMap<String, u64> = BTreeMap::new();
    let mut forms = [0; 2];
    for index in 0..FILES {
        let Sheet { bytes, .. } = generate::valid_file(11, index);
        let model = judge(&bytes).expect("a valid file");
        forms[model.form.number()] += 1;
        for recording in model
            .recordings
            .iter()
            .filter(|_| model.form == Form::Electrodes)
        {
            for sort in shown(&model, recording) {
                *times.entry(sort).or_default() += 1;
            }
        }
    }
    assert!(forms.iter().all(|times| *times >= FILES / 3), "{forms:?}");
    let mut wanted: Vec<String> = ["Little", "Big", "Spg", "Psg", "type 101", "a 350", "no 350"]
        .map(str::to_string)
        .to_vec();
    wanted.extend(
        [
            "a 350 and an inherited 320",
            "a 350 without a 200",
            "a maker behind a 350",
            "more montage channels than electrodes",
            "many montage channels",
            "floats in a 355",
            "whole numbers in a 355",
        ]
        .map(str::to_string),
    );
    for side in [1, 2] {
        for sort in ["earth", "an electrode", "the last electrode"] {
            wanted.push(format!("G{side} {sort}"));
        }
        for high in 1..=3 {
            wanted.push(format!("G{side} high {high}"));
            wanted.push(format!("G{side} high {high}, low free"));
        }
    }
    for sort in wanted {
        let found = times.get(&sort).copied().unwrap_or(0);
        assert!(found >= 10, "{sort}: only {found}");
    }
}

/// What a refused file shows of the electrode form.
fn refusal_shown(sheet: &Sheet, refusal: Refusal) -> Option<String> {
    let number = refusal.number;
    if number == 4 {
        let form = String::from_utf8_lossy(&sheet.bytes[14..16]);
        return Some(format!("4 for {form}"));
    }
    // The file may be cut there.
    let place = sheet.place_at(refusal.at);
    let place = place.filter(|place| place.at + place.width <= sheet.bytes.len())?;
    let value = sheet.get(place);
    let before = || sheet.records.iter().rev().filter(|r| r.at + 4 < refusal.at);
    // The records of the same recording that stand before.
    let behind = |kind| {
        let mut same = before().take_while(|r| r.kind != Kind::Recording);
        same.any(|record| record.kind == kind)
    };
    Some(match (number, place.field) {
        (13, Field::Lead1 | Field::Lead2) => {
            let list = before().find(|record| record.kind == Kind::Electrodes)?;
            let electrodes = sheet.order.i32_at(&sheet.bytes, list.at + 16);
            match (value >> 16, value & 0xffff) {
                (0, serial) if serial == electrodes + 1 && behind(Kind::Electrodes) => {
                    "13 for M + 1".to_string()
                }
                (0, serial) if serial == electrodes + 1 => {
                    "13 for M + 1 of an inherited 320".to_string()
                }
                (0, _) => "13 for a serial".to_string(),
                (4, _) => "13 for high bits 4".to_string(),
                (..0, _) => "13 for a negative lead".to_string(),
                _ => "13 for high bits".to_string(),
            }
        }
        (13, Field::Type(kind)) => format!("13 for type {value} of {kind:?}"),
        (14, Field::ChannelCount) if before_montage(sheet, refusal.at) => {
            "14 at 100 before a 350".to_string()
        }
        (9, Field::Code(Kind::Events)) if behind(Kind::Montage) => {
            "9 at a 200 behind a 350".to_string()
        }
        (9, Field::Code(Kind::Montage)) if behind(Kind::Montage) => "9 at a second 350".to_string(),
        (9, Field::Code(kind)) => format!("9 at {kind:?} {value} in {}", sheet.bytes[15] as char),
        _ => return None,
    })
}

/// Whether the recording around a position, which is in its 100, has a 350.
fn before_montage(sheet: &Sheet, at: usize) -> bool {
    let after = sheet.records.iter().filter(|record| record.at > at);
    let mut same = after.take_while(|record| record.kind != Kind::Recording);
    same.any(|record| record.kind == Kind::Montage)
}

#[test]
fn every_new_refusal_is_drawn() {
    const FILES: u64 = 120_000;
    let mut times: BTreeMap<String, u64> = BTreeMap::new();
    for index in 0..FILES {
        let sheet = generate::file(12, index);
        if let Err(refusal) = judge(&sheet.bytes) {
            if let Some(sort) = refusal_shown(&sheet, refusal) {
                *times.entry(sort).or_default() += 1;
            }
        }
    }
    for sort in [
        "4 for 02",
        "4 for 10",
        "13 for M + 1",
        "13 for M + 1 of an inherited 320",
        "13 for a serial",
        "13 for high bits 4",
        "13 for a negative lead",
        "13 for type 101 of Channel",
        "13 for type 102 of Electrode",
        "14 at 100 before a 350",
        "9 at a 200 behind a 350",
        "9 at a second 350",
        "9 at Channels 120 in 1",
        "9 at Electrodes 320 in 0",
        "9 at Montage 350 in 0",
        "9 at Electrode 125 in 1",
        "9 at Electrode 355 in 1",
        "9 at MontageChannel 125 in 1",
        "9 at MontageChannel 325 in 1",
    ] {
        let found = times.get(sort).copied().unwrap_or(0);
        assert!(found >= 10, "{sort}: only {found}");
    }
}
