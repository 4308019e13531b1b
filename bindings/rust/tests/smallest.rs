//! The smallest file with samples (562 bytes): every call, and refusals in words.

use psg::{
    Calibration, FloatBits, Header, Heading, Montage, Order, Place, Refusal, Sample, Spelling,
    Track,
};

fn smallest() -> Vec<u8> {
    std::fs::read("../../crates/listing/stdin").expect("the sample file of `listing`")
}

/// The same with a channel of another format, and these samples in its one frame.
fn sampled<const WIDTH: usize>(format: u32, samples: &[[u8; WIDTH]]) -> Vec<u8> {
    let mut file = smallest();
    file.splice(544..546, samples.iter().flatten().copied());
    let bytes = (WIDTH * samples.len()) as u32;
    // The sizes of the 10, the 140 and the 145, and the frame length.
    let lengths = [(32, 528), (488, 56), (520, 24), (508, 24)];
    put(&mut file, &lengths.map(|(at, others)| (at, others + bytes)));
    put(&mut file, &[(236, format), (240, samples.len() as u32)]);
    file
}

/// The same with a channel of floats: its CAL, and its one sample.
fn floating(cal: u32, sample: u32) -> Vec<u8> {
    let mut file = sampled(4, &[sample.to_le_bytes()]);
    put(&mut file, &[(244, cal)]);
    file
}

fn put(file: &mut [u8], numbers: &[(usize, u32)]) {
    for &(at, number) in numbers {
        file[at..at + 4].copy_from_slice(&number.to_le_bytes());
    }
}

/// The same as one of electrodes, with a montage of one channel: its inputs are electrode 1 and a sum. What stands at 52
/// and 64 of the 325 is no frequency and no sensitivity.
fn electrodes() -> Vec<u8> {
    let mut file = smallest();
    file[15] = b'1';
    file.splice(488..488, [0; 288]);
    put(&mut file, &[(32, 818), (180, 320), (212, 325)]);
    put(&mut file, &[(488, 288), (492, 350), (504, 1), (508, 256)]);
    put(&mut file, &[(520, 256), (524, 355), (528, 1)]);
    put(&mut file, &[(260, 7), (272, 9), (572, 11), (584, 13)]);
    put(&mut file, &[(G1, 1), (G2, 1 << 16)]);
    file
}

/// The inputs of its montage's channel.
const G1: usize = 624;
const G2: usize = 628;

/// Numbers, infinities, and NaNs: quiet and signalling, of either sign, with a payload.
const FLOATS: [u32; 8] = [
    0x3fc0_0000,
    0x8000_0000,
    0x7f80_0000,
    0xff80_0000,
    0x7fc0_0000,
    0xffc0_beef,
    0x7f80_0001,
    0xffbf_ffff,
];

#[test]
fn the_table_has_eight_rows() {
    let rows = psg::rows(&smallest()).unwrap();
    let codes: Vec<i64> = rows.iter().map(|row| row.code).collect();
    assert_eq!(codes, [10, 100, 120, 125, 130, 140, 145, 0]);
    assert_eq!(
        (rows[3].position, rows[3].length, rows[3].serial),
        (208, 256, 1)
    );
}

#[test]
fn a_buffer_without_room_stays_as_it_was() {
    let file = smallest();
    let mut rows = [-1; 31];
    let refused = psg::table(&file, &mut rows).unwrap_err();
    assert_eq!((refused.number, refused.position), (17, 32));
    assert_eq!(rows, [-1; 31]);
    let mut out = [7; 570];
    assert_eq!(psg::turn(&file, &mut out[..561]).unwrap_err().number, 17);
    assert_eq!(out, [7; 570]);
    assert_eq!(psg::turn(&file, &mut out), Ok(562));
    assert_eq!(out[562..], [7; 8]);
}

#[test]
fn questions_about_the_one_recording() {
    let file = smallest();
    let facts = psg::facts(&file, 1).unwrap();
    assert_eq!((facts.channels, facts.frames, facts.seconds), (1, 1, 1));
    let channel = psg::channel(&file, 1, 1).unwrap();
    assert_eq!(
        (channel.format, channel.rate, channel.label.position),
        (1, 1, 280)
    );
    assert!(matches!(channel.calibration, Calibration::Numbers(_)));
    assert_eq!(channel.label.of(&file).len(), 16);
    assert!(matches!(
        psg::sample(&file, 1, 1, 1, 0),
        Ok(Sample::Whole(_))
    ));
    assert!(psg::clock(&file, 1, 1).is_ok());
}

/// The place of the one channel's samples, and the bytes that are cut by it: all that stands between the frame's first
/// 24 bytes and the delimiter.
fn place_holds(file: &[u8], width: usize, count: usize) {
    let expected = Place {
        position: 544,
        width,
        count,
    };
    assert_eq!(psg::place(file, 1, 1, 1), Ok(expected));
    let part = psg::part(file, expected);
    let bytes = &file[544..file.len() - 16];
    assert_eq!(part.as_ptr_range(), bytes.as_ptr_range());
}

#[test]
fn a_place_has_the_samples_of_every_width_or_none() {
    for file in both_orders(sampled(1, &[[7; 2]; 5])) {
        place_holds(&file, 2, 5);
    }
    for file in both_orders(sampled(2, &[[7; 3]; 5])) {
        place_holds(&file, 3, 5);
    }
    for format in [3, 4] {
        for file in both_orders(sampled(format, &[[7; 4]; 5])) {
            place_holds(&file, 4, 5);
        }
    }
    // OFF, and so without samples.
    for (format, width) in [(1, 2), (2, 3), (3, 4), (4, 4)] {
        let mut file = sampled::<0>(format, &[]);
        put(&mut file, &[(232, 0)]);
        for file in both_orders(file) {
            place_holds(&file, width, 0);
        }
    }
}

#[test]
fn a_place_is_refused_as_the_file_is_or_with_19() {
    let file = smallest();
    let refused = |number, position| Err(Refusal { number, position });
    for (recording, frame, channel) in [(0, 1, 1), (2, 1, 1), (1, 2, 1), (1, 1, usize::MAX)] {
        let place = psg::place(&file, recording, frame, channel);
        assert_eq!(place, refused(19, 0));
    }
    assert_eq!(psg::place(&file[..561], 1, 2, 1), refused(10, 32));
}

/// What the one channel's track says, and that it has the place of the one frame and of no other.
fn track_holds(file: &[u8], format: u32, width: usize, count: usize) {
    let expected = Track {
        order: psg::order(file).unwrap(),
        format,
        first: Place {
            position: 544,
            width,
            count,
        },
        step: 24 + width * count,
        frames: 1,
        seconds: 1,
    };
    assert_eq!(psg::track(file, 1, 1), Ok(expected));
    assert_eq!(expected.place(1), psg::place(file, 1, 1, 1).ok());
    for frame in [0, 2, usize::MAX] {
        assert_eq!(expected.place(frame), None);
    }
}

#[test]
fn a_track_has_the_samples_of_every_format_or_none() {
    for file in both_orders(sampled(1, &[[7; 2]; 5])) {
        track_holds(&file, 1, 2, 5);
    }
    for file in both_orders(sampled(2, &[[7; 3]; 5])) {
        track_holds(&file, 2, 3, 5);
    }
    for format in [3, 4] {
        for file in both_orders(sampled(format, &[[7; 4]; 5])) {
            track_holds(&file, format, 4, 5);
        }
    }
    // OFF, and so without samples.
    for (format, width) in [(1, 2), (2, 3), (3, 4), (4, 4)] {
        let mut file = sampled::<0>(format, &[]);
        put(&mut file, &[(232, 0)]);
        for file in both_orders(file) {
            track_holds(&file, format, width, 0);
        }
    }
}

/// The smallest file with three frames of two seconds, each of them with padding of eight bytes: the same two samples.
fn three_frames() -> Vec<u8> {
    let mut file = smallest();
    let frame = [&file[520..546], &file[544..546], &[0; 8]].concat();
    file.splice(520..546, frame.repeat(3));
    // The sizes of the 10 and the 140; F of the 100; T, the frame length and F of the 140.
    put(&mut file, &[(32, 612), (488, 140), (72, 3)]);
    put(&mut file, &[(504, 2), (508, 36), (512, 3)]);
    for (serial, at) in (1..).zip([520, 556, 592]) {
        put(&mut file, &[(at, 3), (at + 8, serial), (at + 12, 12)]);
    }
    file
}

#[test]
fn a_track_goes_from_frame_to_frame() {
    for file in both_orders(three_frames()) {
        let track = psg::track(&file, 1, 1).unwrap();
        assert_eq!((track.step, track.frames, track.seconds), (36, 3, 2));
        for frame in 0..=4 {
            let place = psg::place(&file, 1, frame, 1).ok();
            assert_eq!(track.place(frame), place);
            assert_eq!(place.is_some(), (1..=3).contains(&frame));
        }
    }
}

#[test]
fn a_track_is_refused_as_the_file_is_or_with_19() {
    let file = smallest();
    let refused = |number, position| Err(Refusal { number, position });
    for (recording, channel) in [(0, 1), (2, 1), (1, 0), (1, 2), (usize::MAX, usize::MAX)] {
        assert_eq!(psg::track(&file, recording, channel), refused(19, 0));
    }
    assert_eq!(psg::track(&file[..561], 2, 1), refused(10, 32));
}

#[test]
fn a_part_lies_inside_whatever_file_it_is_cut_from() {
    let file = smallest();
    let place = psg::place(&file, 1, 1, 1).unwrap();
    // The bytes of another file, if it has as many; else the empty part at its end.
    for end in 0..file.len() {
        let other = &file[..end];
        let expected = if end < 546 {
            &other[end..]
        } else {
            &other[544..546]
        };
        assert_eq!(
            psg::part(other, place).as_ptr_range(),
            expected.as_ptr_range()
        );
    }
}

#[test]
fn a_part_is_cut_by_any_numbers() {
    const MOST: usize = usize::MAX;
    let file = smallest();
    let cut = |position, width, count| {
        let place = Place {
            position,
            width,
            count,
        };
        psg::part(&file, place).as_ptr_range()
    };
    assert_eq!(cut(0, 1, 562), file.as_ptr_range());
    assert_eq!(cut(559, 3, 1), file[559..].as_ptr_range());
    for position in [0, 1, 561, 562] {
        let empty = file[position..position].as_ptr_range();
        for (width, count) in [(0, 0), (0, 9), (9, 0), (0, MOST), (MOST, 0)] {
            assert_eq!(cut(position, width, count), empty);
        }
    }
    let end = file[562..].as_ptr_range();
    // Behind the file, or with too many bytes; 64 bits do not hold the end of the last ones.
    for (position, width, count) in [
        (563, 0, 0),
        (MOST, 0, MOST),
        (560, 3, 1),
        (0, 1, 563),
        (562, 1, 1),
        (MOST, 1, 1),
        (MOST - 1, 3, 2),
        (4, 1, MOST - 2),
        (1, 1 << 32, 1 << 32),
        (1, MOST, MOST),
        (1, 3, MOST / 3 + 1),
        (MOST, MOST, MOST),
    ] {
        assert_eq!(cut(position, width, count), end);
    }
}

#[test]
fn a_question_outside_its_range_is_19() {
    let file = smallest();
    let outside = Refusal {
        number: 19,
        position: 0,
    };
    assert_eq!(psg::facts(&file, 2), Err(outside));
    assert_eq!(psg::patient_item(&file, 1, 1), Err(outside));
    assert_eq!(psg::event_item(&file, 1, usize::MAX), Err(outside));
    assert_eq!(psg::place(&file, 1, 2, 1), Err(outside));
}

#[test]
fn a_refusal_says_what_it_means() {
    let refused = psg::rows(b"JSSR").unwrap_err();
    assert_eq!(
        refused.to_string(),
        "refused 1 at 0: the file is under 32 bytes long"
    );
}

#[test]
fn a_float_keeps_its_bits_as_f32() {
    for bits in FLOATS {
        assert_eq!(FloatBits(bits).as_f32().to_bits(), bits);
        for file in both_orders(floating(bits, bits)) {
            let Ok(Sample::Float(sample)) = psg::sample(&file, 1, 1, 1, 0) else {
                panic!("the sample is a float");
            };
            assert_eq!((sample, sample.as_f32().to_bits()), (FloatBits(bits), bits));
            let expected = [bits, 0, 0, 0].map(FloatBits);
            let channel = psg::channel(&file, 1, 1).unwrap();
            assert_eq!(channel.calibration, Calibration::Floats(expected));
        }
    }
    assert_eq!(FloatBits(FLOATS[0]).as_f32(), 1.5);
}

/// A file and the one turned from it.
fn both_orders(file: Vec<u8>) -> [Vec<u8>; 2] {
    [psg::turned(&file).unwrap(), file]
}

/// Each run inside the channel holds these samples, and what stands behind it in the buffer stays.
fn runs_hold(file: &[u8], samples: &[i64]) {
    for first in 0..=samples.len() {
        for number in 0..=samples.len() - first {
            let mut out = vec![-77; number + 2];
            let run = psg::run(file, 1, 1, 1, first, number, &mut out);
            assert_eq!(run, Ok(number));
            assert_eq!(out[..number], samples[first..first + number]);
            assert_eq!(out[number..], [-77, -77]);
        }
    }
}

#[test]
fn a_run_has_the_samples_of_every_width() {
    let lowest = [0, 1, 0x7f, 0x80, 0xff];
    let of_16 = lowest.map(|low| [low, 0x80]);
    for file in both_orders(sampled(1, &of_16)) {
        runs_hold(&file, &[-32768, -32767, -32641, -32640, -32513]);
    }
    let of_24 = [[0, 0, 0x80], [0xff, 0xff, 0xff], [1, 2, 3]];
    for file in both_orders(sampled(2, &of_24)) {
        runs_hold(&file, &[-8_388_608, -1, 0x03_0201]);
    }
    let of_32 = [i32::MIN, i32::MAX, -2, 0].map(i32::to_le_bytes);
    for file in both_orders(sampled(3, &of_32)) {
        runs_hold(&file, &[i32::MIN.into(), i32::MAX.into(), -2, 0]);
    }
}

#[test]
fn a_run_of_floats_keeps_their_bits() {
    let samples = FLOATS.map(u32::to_le_bytes);
    for file in both_orders(sampled(4, &samples)) {
        let mut out = [1.25; FLOATS.len() + 1];
        assert_eq!(psg::run_floats(&file, 1, 1, 1, 1, 7, &mut out), Ok(7));
        let bits = out.map(f32::to_bits);
        assert_eq!(bits[..7], FLOATS[1..]);
        assert_eq!(out[7..], [1.25, 1.25]);
    }
}

#[test]
fn a_refused_run_leaves_the_buffer() {
    let refused = |number, position| Err(Refusal { number, position });
    let (outside, end) = (refused(19, 0), 3);
    let file = sampled(1, &[[1, 0], [2, 0], [3, 0]]);
    let mut out = [-77; 4];
    // Not inside the channel, with room or without, and where the sum does not fit 64 bits.
    for (first, number) in [
        (0, 4),
        (2, 2),
        (end, 1),
        (end + 1, 0),
        (1, usize::MAX),
        (usize::MAX, 1),
        (usize::MAX, 0),
        (1 << 63, 1 << 63),
        (usize::MAX, 3),
    ] {
        for room in [0, 4] {
            let run = psg::run(&file, 1, 1, 1, first, number, &mut out[..room]);
            assert_eq!(run, outside, "{first} {number}");
        }
    }
    for (recording, frame, channel) in [(0, 1, 1), (2, 1, 1), (1, 2, 1), (1, 1, 2), (1, 1, 0)] {
        let run = psg::run(&file, recording, frame, channel, 0, 0, &mut out);
        assert_eq!(run, outside);
    }
    // 17 says the number asked for, not what the channel has.
    let short = psg::run(&file, 1, 1, 1, 1, 2, &mut out[..1]);
    assert_eq!(short, refused(17, 2));
    let cut = &file[..file.len() - 1];
    let run = psg::run(cut, 1, 1, 1, 9, 9, &mut out);
    assert_eq!(run, refused(10, 32));
    assert_eq!(out, [-77; 4]);
}

#[test]
fn a_run_is_for_numbers_or_for_floats() {
    let outside = Err(Refusal {
        number: 19,
        position: 0,
    });
    let (mut numbers, mut floats) = ([-77], [1.25]);
    for number in [0, 1] {
        for format in [1, 2, 3] {
            let file = match format {
                1 => sampled(format, &[[7; 2]]),
                2 => sampled(format, &[[7; 3]]),
                _ => sampled(format, &[[7; 4]]),
            };
            let run = psg::run_floats(&file, 1, 1, 1, 0, number, &mut floats);
            assert_eq!(run, outside);
        }
        let file = floating(0, FLOATS[0]);
        let run = psg::run(&file, 1, 1, 1, 0, number, &mut numbers);
        assert_eq!(run, outside);
    }
    assert_eq!((numbers, floats), ([-77], [1.25]));
}

#[test]
fn an_order_has_a_letter_and_a_letter_has_an_order() {
    for order in [Order::Little, Order::Big] {
        assert_eq!(Order::from_letter(order.letter()), Some(order));
        assert_eq!(order.other().other(), order);
        assert_ne!(order.other(), order);
    }
    let named = (0..=u8::MAX).filter(|&letter| Order::from_letter(letter).is_some());
    assert_eq!(named.collect::<Vec<u8>>(), b"BL");
}

#[test]
fn a_verdict_is_the_headers_values_or_the_refusal() {
    let file = smallest();
    let expected = Header {
        order: Order::Little,
        script: b'S',
        recordings: 1,
    };
    assert_eq!(psg::judge(&file), Ok(expected));
    let turned = psg::judge(&psg::turned(&file).unwrap()).unwrap();
    assert_eq!(turned.order, Order::Big);
    for end in 0..file.len() {
        // Nothing is cut off an accepted file without being missed.
        let refused = psg::judge(&file[..end]).unwrap_err();
        assert_eq!(refused, psg::rows(&file[..end]).unwrap_err());
    }
}

const SPELLINGS: [Spelling; 2] = [Spelling::Spg, Spelling::Psg];

/// A file with another identifier.
fn spelled(file: &[u8], identifier: &[u8; 8]) -> Vec<u8> {
    [identifier, &file[8..]].concat()
}

#[test]
fn a_spelling_has_a_number_and_a_number_has_a_spelling() {
    for spelling in SPELLINGS {
        assert_eq!(Spelling::from_number(spelling.number()), Some(spelling));
    }
    let named = (0..=u32::from(u8::MAX)).filter(|&n| Spelling::from_number(n).is_some());
    assert_eq!(named.collect::<Vec<u32>>(), [0, 1]);
}

#[test]
fn the_header_has_the_spelling_that_stands_there() {
    for spelling in SPELLINGS {
        let file = spelled(&smallest(), spelling.identifier());
        let expected = Heading {
            spelling,
            version: 300,
            form: 0,
            order: Order::Little,
            script: b'S',
            recordings: 1,
        };
        assert_eq!(psg::header(&file), Ok(expected));
        let turned = Heading {
            order: Order::Big,
            ..expected
        };
        assert_eq!(psg::header(&psg::turned(&file).unwrap()), Ok(turned));
        for (order, expected) in [(Order::Little, expected), (Order::Big, turned)] {
            let rewritten = psg::rewritten(&file, order).unwrap();
            assert_eq!(psg::header(&rewritten), Ok(expected));
            assert_eq!(&rewritten[..8], spelling.identifier());
        }
        for end in 0..file.len() {
            let refused = psg::header(&file[..end]).unwrap_err();
            assert_eq!(refused, psg::judge(&file[..end]).unwrap_err());
        }
    }
}

#[test]
fn neither_spelling_is_2() {
    for identifier in [b"JSSR-SSG", b"JSSR-PPG", b"JSSR-SGP", b"jssr-psg"] {
        let file = spelled(&smallest(), identifier);
        let refused = psg::header(&file).unwrap_err();
        assert_eq!(
            refused.to_string(),
            "refused 2 at 0: the file begins with neither JSSR-SPG nor JSSR-PSG"
        );
        assert_eq!(psg::judge(&file), Err(refused));
        assert_eq!(psg::turned(&file), Err(refused));
    }
}

#[test]
fn a_montage_has_its_fields_and_its_inputs() {
    let file = electrodes();
    assert_eq!(psg::montage_count(&file, 1), Ok(1));
    let Montage { channel, g1, g2 } = psg::montage(&file, 1, 1).unwrap();
    assert_eq!((g1, g2), (1, 1 << 16));
    assert_eq!(
        (channel.calibration_frequency, channel.sensitivity),
        (11, 13)
    );
    assert_eq!((channel.label.position, channel.label.length), (592, 16));
    assert_eq!((channel.unit.position, channel.unit.length), (608, 16));
    assert_eq!(
        (channel.comment.position, channel.comment.length),
        (716, 60)
    );
    for turned in [psg::turned(&file), psg::rewritten(&file, Order::Big)] {
        let turned = turned.unwrap();
        assert_eq!(psg::montage(&turned, 1, 1), psg::montage(&file, 1, 1));
    }
}

#[test]
fn a_montages_calibration_is_of_floats_where_its_format_is_4() {
    let mut file = electrodes();
    let calibration = |file: &[u8]| psg::montage(file, 1, 1).unwrap().channel.calibration;
    put(&mut file, &[(548, 3), (556, FLOATS[0])]);
    let numbers = [FLOATS[0] as i32, 0, 0, 0];
    assert_eq!(calibration(&file), Calibration::Numbers(numbers));
    for bits in FLOATS {
        put(&mut file, &[(548, 4), (556, bits)]);
        let floats = [bits, 0, 0, 0].map(FloatBits);
        assert_eq!(calibration(&file), Calibration::Floats(floats));
    }
}

#[test]
fn an_electrode_has_neither_frequency_nor_sensitivity() {
    let file = electrodes();
    let electrode = psg::channel(&file, 1, 1).unwrap();
    assert_eq!(electrode.calibration_frequency, 0);
    assert_eq!(electrode.sensitivity, 0);
    // As a channel it has both.
    let mut file = smallest();
    put(&mut file, &[(260, 7), (272, 9)]);
    let channel = psg::channel(&file, 1, 1).unwrap();
    assert_eq!((channel.calibration_frequency, channel.sensitivity), (7, 9));
}

fn labelled(file: &[u8], version: &[u8; 6]) -> Vec<u8> {
    [&file[..8], version, &file[14..]].concat()
}

#[test]
fn the_header_has_the_version_and_both_writers_keep_it() {
    for (version, number) in [(b"000200", 200), (b"000300", 300)] {
        for file in [smallest(), electrodes()] {
            let file = labelled(&file, version);
            assert_eq!(psg::header(&file).unwrap().version, number);
            let turned = psg::turned(&file).unwrap();
            assert_eq!(&turned[8..14], version);
            assert_eq!(psg::turned(&turned), Ok(file.clone()));
            for order in [Order::Little, Order::Big] {
                let rewritten = psg::rewritten(&file, order).unwrap();
                assert_eq!(&rewritten[8..14], version);
            }
        }
    }
}

#[test]
fn an_older_version_asks_for_more() {
    for version in [b"000100", b"000110"] {
        // No event table, and a form that came later.
        let refused = psg::header(&labelled(&smallest(), version)).unwrap_err();
        assert_eq!((refused.number, refused.position), (9, 492));
        let refused = psg::header(&labelled(&electrodes(), version)).unwrap_err();
        assert_eq!((refused.number, refused.position), (4, 14));
    }
    let refused = psg::header(&labelled(&floating(1, 1), b"000200")).unwrap_err();
    assert_eq!((refused.number, refused.position), (13, 236));
    let refused = psg::header(&labelled(&smallest(), b"000120")).unwrap_err();
    assert_eq!((refused.number, refused.position), (3, 8));
}

#[test]
fn the_header_has_the_form_and_both_writers_keep_it() {
    for (file, form) in [(smallest(), 0), (electrodes(), 1)] {
        assert_eq!(psg::header(&file).unwrap().form, form);
        let turned = psg::turned(&file).unwrap();
        assert_eq!(psg::header(&turned).unwrap().form, form);
        assert_eq!(psg::turned(&turned), Ok(file.clone()));
        for order in [Order::Little, Order::Big] {
            let rewritten = psg::rewritten(&file, order).unwrap();
            assert_eq!(psg::header(&rewritten).unwrap().form, form);
        }
    }
    let mut file = electrodes();
    file[15] = b'2';
    let refused = psg::header(&file).unwrap_err();
    assert_eq!(
        refused.to_string(),
        "refused 4 at 14: the form is neither 00 nor 01, or not one of the version"
    );
}

#[test]
fn without_a_montage_there_is_no_channel_of_it() {
    let outside = Refusal {
        number: 19,
        position: 0,
    };
    let file = smallest();
    assert_eq!(psg::montage_count(&file, 1), Ok(0));
    assert_eq!(psg::montage(&file, 1, 1), Err(outside));
    assert_eq!(psg::montage_count(&file, 2), Err(outside));
    let file = electrodes();
    for channel in [0, 2, usize::MAX] {
        assert_eq!(psg::montage(&file, 1, channel), Err(outside));
    }
    assert_eq!(psg::montage(&file, 0, 1), Err(outside));
}

#[test]
fn an_input_names_an_electrode_or_what_it_is_made_of() {
    for (number, accepted) in [
        (0, true),
        (1, true),
        (2, false),
        (0x3_ffff, true),
        (0x4_0000, false),
        (1 << 31, false),
    ] {
        for at in [G1, G2] {
            let mut file = electrodes();
            put(&mut file, &[(at, number)]);
            let refused = psg::montage(&file, 1, 1).err();
            let expected = Refusal {
                number: 13,
                position: at,
            };
            assert_eq!(
                refused,
                (!accepted).then_some(expected),
                "{number:x} at {at}"
            );
        }
    }
}

#[test]
fn a_refused_file_has_no_order() {
    let mut file = smallest();
    assert_eq!(psg::order(&file), Ok(Order::Little));
    file[16] = b'l';
    let refused = psg::order(&file).unwrap_err();
    assert_eq!((refused.number, refused.position), (5, 16));
    assert_eq!(psg::order(&[]).unwrap_err().number, 1);
}

#[test]
fn turning_twice_gives_the_file() {
    let file = smallest();
    let turned = psg::turned(&file).unwrap();
    assert_eq!(psg::order(&file), Ok(Order::Little));
    assert_eq!(psg::order(&turned), Ok(Order::Big));
    assert_eq!(
        psg::sample(&turned, 1, 1, 1, 0),
        psg::sample(&file, 1, 1, 1, 0)
    );
    assert_eq!(psg::turned(&turned), Ok(file));
}

#[test]
fn rewriting_gives_the_canonical_file_in_either_order() {
    let file = smallest();
    let little = psg::rewritten(&file, Order::Little).unwrap();
    let big = psg::rewritten(&file, Order::Big).unwrap();
    assert_eq!(psg::rewritten(&big, Order::Little), Ok(little.clone()));
    assert_eq!(psg::turned(&little), Ok(big));
    let refused = psg::rewrite_by_letter(&file, b'l', &mut []).unwrap_err();
    assert_eq!((refused.number, refused.position), (19, 0));
    let mut out = [7; 570];
    let refused = psg::rewrite(&file, Order::Little, &mut out[..561]).unwrap_err();
    assert_eq!((refused.number, refused.position), (17, 562));
    assert_eq!(out, [7; 570]);
    assert_eq!(psg::rewrite(&file, Order::Little, &mut out), Ok(562));
    assert_eq!(out[562..], [7; 8]);
}

#[test]
fn the_room_for_a_rewrite_is_known_before_it() {
    let file = smallest();
    let room = psg::rewrite_room(&file).unwrap();
    assert_eq!(room, 562 + 254);
    for order in [Order::Little, Order::Big] {
        assert_eq!(psg::rewrite(&file, order, &mut vec![0; room]), Ok(562));
    }
    let refused = psg::rewrite_room(&file[..561]).unwrap_err();
    assert_eq!((refused.number, refused.position), (10, 32));
}
