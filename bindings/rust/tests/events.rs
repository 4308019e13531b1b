//! The index of night events, the kinds of codes, and the times of entries, on files of one channel of events.

use psg::{Clock, Entry, EventKind, Refusal, TimedEntry};

const HERTZ: u32 = 0;
const PERIOD: u32 = 1;

/// A frame's clock and its codes.
type Frame<'a> = ([u16; 3], &'a [u16]);

/// What the recordings of a file have in common: the channel's flags and rate, and the seconds of a frame.
#[derive(Clone, Copy)]
struct Shape {
    flags: u32,
    rate: u32,
    seconds: u32,
}

fn smallest() -> Vec<u8> {
    std::fs::read("../../crates/listing/stdin").expect("the sample file of `listing`")
}

/// A file of recordings with these frames, each otherwise the smallest file's.
fn night(shape: Shape, recordings: &[&[Frame]]) -> Vec<u8> {
    let mut file = smallest()[..32].to_vec();
    file[18] = b'0' + recordings.len() as u8;
    for (serial, frames) in (1..).zip(recordings) {
        file.extend(recording(shape, serial, frames));
    }
    file
}

fn recording(shape: Shape, serial: u32, frames: &[Frame]) -> Vec<u8> {
    const SIGNALS: usize = 456;
    let mut out = smallest()[32..520].to_vec();
    let length = 24 + 2 * frames[0].1.len() as u32;
    for (serial, (clock, codes)) in (1_u32..).zip(frames) {
        for number in [length, 145, serial, 0] {
            out.extend(number.to_le_bytes());
        }
        for number in clock.iter().chain(&[0]).chain(*codes) {
            out.extend(number.to_le_bytes());
        }
    }
    let (signals, count) = ((out.len() - SIGNALS) as u32, frames.len() as u32);
    out.extend([0; 16]);
    let size = out.len() as u32;
    // The sizes of the 10 and the 140, the serial, F, the channel's flags, type and rate, and the 140's own fields.
    let lengths = [(0, size), (8, serial), (40, count), (SIGNALS, signals)];
    let channel = [(196, shape.flags), (200, 1), (208, shape.rate)];
    let block = [(472, shape.seconds), (476, length), (480, count)];
    for (at, number) in lengths.into_iter().chain(channel).chain(block) {
        out[at..at + 4].copy_from_slice(&number.to_le_bytes());
    }
    out
}

/// A file of one frame with these codes.
fn of_codes(codes: &[u16]) -> Vec<u8> {
    let shape = Shape {
        flags: HERTZ,
        rate: codes.len() as u32,
        seconds: 1,
    };
    night(shape, &[&[([0; 3], codes)]])
}

/// Two recordings of three codes a frame: one that goes on into the next frame, one that comes back behind 0, one with
/// its high bit set, and in the second recording the code that the first one ended with.
fn two_recordings() -> Vec<u8> {
    let shape = Shape {
        flags: HERTZ,
        rate: 3,
        seconds: 1,
    };
    let first: [Frame; 3] = [
        ([22, 59, 59], &[0, 3, 3]),
        ([23, 0, 0], &[3, 0, 3]),
        ([23, 0, 1], &[3, 7, 0xf006]),
    ];
    let second: [Frame; 1] = [([23, 30, 0], &[0xf006, 0xf006, 0x106])];
    night(shape, &[&first, &second])
}

fn entry([recording, frame, channel, place, code]: [usize; 5]) -> Entry {
    Entry {
        recording,
        frame,
        channel,
        place,
        code: code as u16,
    }
}

const ENTRIES: [[usize; 5]; 6] = [
    [1, 1, 1, 1, 3],
    [1, 2, 1, 2, 3],
    [1, 3, 1, 1, 7],
    [1, 3, 1, 2, 0xf006],
    [2, 1, 1, 0, 0xf006],
    [2, 1, 1, 2, 0x106],
];

/// A file and the one turned from it.
fn both_orders(file: Vec<u8>) -> [Vec<u8>; 2] {
    [psg::turned(&file).unwrap(), file]
}

#[test]
fn an_entry_is_a_change_to_a_code() {
    for file in both_orders(two_recordings()) {
        let entries = psg::entries(&file).unwrap();
        assert_eq!(entries, ENTRIES.map(entry));
        assert!(entries.is_sorted());
        let kinds: Vec<EventKind> = entries.iter().map(Entry::kind).collect();
        use EventKind::{InstStart, LightsOut, RecordingStart, User};
        let expected = [
            RecordingStart,
            RecordingStart,
            InstStart,
            User,
            User,
            LightsOut,
        ];
        assert_eq!(kinds, expected);
    }
}

#[test]
fn room_is_counted_in_numbers() {
    let file = two_recordings();
    let refused = |number, position| Err(Refusal { number, position });
    let mut out = [-77; 32];
    for room in [0, 5, 29] {
        assert_eq!(psg::index(&file, &mut out[..room]), refused(17, 30));
    }
    assert_eq!(psg::index(&file[1..], &mut out), refused(2, 0));
    assert_eq!(psg::entries(&file[1..]).err(), psg::judge(&file[1..]).err());
    assert_eq!(out, [-77; 32]);
    assert_eq!(psg::index(&file, &mut out), Ok(6));
    let numbers = ENTRIES.concat().into_iter().map(|number| number as i64);
    assert!(numbers.eq(out[..30].iter().copied()));
    assert_eq!(out[30..], [-77; 2]);
}

#[test]
fn only_type_1_of_16_bits_has_events() {
    let mut file = of_codes(&[3, 0, 6]);
    assert_eq!(psg::entries(&file).unwrap().len(), 2);
    for kind in [0, 2, 18] {
        file[232] = kind;
        assert_eq!(psg::entries(&file), Ok(vec![]));
        assert_eq!(psg::timed_entries(&file), Ok(vec![]));
    }
    // The same six bytes as two samples of 24 bits.
    (file[232], file[236], file[240]) = (1, 2, 2);
    assert_eq!(psg::place(&file, 1, 1, 1).unwrap().count, 2);
    assert_eq!(psg::entries(&file), Ok(vec![]));
}

#[test]
fn a_night_may_have_more_events_than_is_usual() {
    for count in [99, 100, 101, 1000] {
        let codes: Vec<u16> = (1..=count).collect();
        let entries = psg::entries(&of_codes(&codes)).unwrap();
        let found: Vec<u16> = entries.iter().map(|entry| entry.code).collect();
        assert_eq!(found, codes);
    }
}

/// A code is looked for behind every number of samples that have another one.
#[test]
fn a_change_is_found_wherever_it_stands() {
    for before in [0, 0x106] {
        for at in 1..70 {
            let mut codes = [before; 70];
            codes[at..].fill(0x108);
            let first = (before > 0).then(|| entry([1, 1, 1, 0, before.into()]));
            let change = entry([1, 1, 1, at, 0x108]);
            let expected: Vec<Entry> = first.into_iter().chain([change]).collect();
            for file in both_orders(of_codes(&codes)) {
                assert_eq!(psg::entries(&file), Ok(expected.clone()));
            }
        }
    }
}

#[test]
fn every_code_has_a_kind() {
    let mut times = [0; EventKind::ALL.len()];
    for code in 0..=65_535 {
        let kind = psg::event_kind(code).unwrap();
        times[kind.number() as usize] += 1;
        assert_eq!(kind == EventKind::User, code >> 12 & 1 == 1, "{code:x}");
    }
    // One code for each published kind; half of all have bit 12.
    assert_eq!(times[..13], [1; 13]);
    assert_eq!(times[13..], [32_768, 32_768 - 13]);
    for code in [65_536, 1 << 32, u64::MAX] {
        let refused = psg::event_kind(code).unwrap_err();
        assert_eq!((refused.number, refused.position), (19, 0));
    }
}

#[test]
fn published_codes_are_by_their_hexadecimal_numbers() {
    use EventKind::*;
    let published = [
        (0x0000, None),
        (0x0003, RecordingStart),
        (0x0002, RecordingEnd),
        (0x0005, CalibrationStart),
        (0x0004, CalibrationEnd),
        (0x0007, InstStart),
        (0x0006, InstEnd),
        (0x0102, SleepAllowed),
        (0x0104, WakeCall),
        (0x0106, LightsOut),
        (0x0108, LightsOn),
        (0x010a, MeasurementStopped),
        (0x010c, MeasurementResumed),
    ];
    for (code, kind) in published.into_iter().chain([(8, Reserved)]) {
        assert_eq!(psg::event_kind(code), Ok(kind));
    }
}

#[test]
fn a_kind_has_a_number_and_a_number_has_a_kind() {
    for kind in EventKind::ALL {
        assert_eq!(EventKind::from_number(kind.number()), Some(kind));
    }
    assert_eq!(EventKind::from_number(15), None);
    assert_eq!(EventKind::from_number(u32::MAX), None);
}

/// Hour, minute, second and nanosecond of each entry.
fn times(file: &[u8]) -> Vec<[u32; 4]> {
    let entries = psg::timed_entries(file).unwrap();
    let times = entries.iter().map(|timed| {
        let TimedEntry {
            clock, nanosecond, ..
        } = timed;
        [clock.hour, clock.minute, clock.second, *nanosecond]
    });
    times.collect()
}

#[test]
fn an_entry_is_timed_by_its_frame_and_its_place() {
    for file in both_orders(two_recordings()) {
        let entries = psg::timed_entries(&file).unwrap();
        let untimed: Vec<Entry> = entries.iter().map(|timed| timed.entry).collect();
        assert_eq!(psg::entries(&file), Ok(untimed));
        for TimedEntry { entry, clock, .. } in entries {
            // A frame is a second long, so none goes on into the next.
            assert_eq!(psg::clock(&file, entry.recording, entry.frame), Ok(clock));
        }
        // Thirds of a second are rounded down.
        let expected = [
            [22, 59, 59, 333_333_333],
            [23, 0, 0, 666_666_666],
            [23, 0, 1, 333_333_333],
            [23, 0, 1, 666_666_666],
            [23, 30, 0, 0],
            [23, 30, 0, 666_666_666],
        ];
        assert_eq!(times(&file), expected);
    }
}

#[test]
fn a_period_is_exact_and_a_time_behind_midnight_is_of_the_next_day() {
    // At 256 Hz, by a period of 3906 microseconds; 512 samples in two seconds.
    let shape = Shape {
        flags: PERIOD,
        rate: 3906,
        seconds: 2,
    };
    let mut codes = [0; 512];
    (codes[1], codes[255], codes[257], codes[511]) = (3, 5, 4, 2);
    let frames: [Frame; 1] = [([23, 59, 59], &codes)];
    let expected = [
        [23, 59, 59, 3_906_000],
        [23, 59, 59, 996_030_000],
        [0, 0, 0, 3_842_000],
        [0, 0, 0, 995_966_000],
    ];
    for file in both_orders(night(shape, &[&frames])) {
        assert_eq!(times(&file), expected);
    }
}

#[test]
fn the_longest_frame_and_the_longest_period_are_timed() {
    // One sample a second for an hour: the last one is at midnight.
    let mut codes = [0; 3600];
    (codes[1], codes[3599]) = (3, 2);
    let seconds = 3600;
    for (flags, rate) in [(HERTZ, 1), (PERIOD, 1_000_000)] {
        let shape = Shape {
            flags,
            rate,
            seconds,
        };
        let file = night(shape, &[&[([23, 0, 1], &codes)]]);
        assert_eq!(times(&file), [[23, 0, 2, 0], [0, 0, 0, 0]]);
    }
    let shape = Shape {
        flags: u32::MAX,
        rate: i32::MAX as u32,
        seconds,
    };
    let file = night(shape, &[&[([1, 2, 3], &[0x106])]]);
    assert_eq!(times(&file), [[1, 2, 3, 0]]);
}

#[test]
fn a_refused_file_has_no_entries() {
    let file = two_recordings();
    for end in [0, 31, 32, 500, file.len() - 1] {
        let refused = psg::judge(&file[..end]).unwrap_err();
        assert_eq!(psg::entries(&file[..end]), Err(refused));
        assert_eq!(psg::timed_entries(&file[..end]), Err(refused));
    }
}

#[test]
fn a_clock_is_read_as_it_is_asked_for() {
    let shape = Shape {
        flags: HERTZ,
        rate: 1,
        seconds: 1,
    };
    let frames: Vec<Frame> = vec![([0, 0, 0], &[1]), ([23, 59, 59], &[2]), ([9, 8, 7], &[3])];
    for file in both_orders(night(shape, &[&frames, &frames[1..]])) {
        for timed in psg::timed_entries(&file).unwrap() {
            let Entry {
                recording, frame, ..
            } = timed.entry;
            assert_eq!(psg::clock(&file, recording, frame), Ok(timed.clock));
            assert_eq!(timed.nanosecond, 0);
        }
        assert_eq!(psg::timed_entries(&file).unwrap().len(), 5);
        let first = psg::clock(&file, 2, 1);
        let last = Clock {
            hour: 23,
            minute: 59,
            second: 59,
        };
        assert_eq!(first, Ok(last));
    }
}
