//! A respiratory recorder at 256 Hz, which writes its period as 3906 microseconds: an hour of it with its events,
//! through the library as a whole, and through the second program.

use ::overview::{epochs, Envelope};
use agree::files::differences;
use psg::{Clock, Entry, EventKind, Facts, Place, Refusal, Sample};
use second::bytes::Order;
use second::generate::questions;
use second::header::{self, Form, Header, Spelling, Version};
use second::judge::judge;
use second::random::Random;
use second::record::{channel, channels, frame, frames, items, overview, Kind, HEAD, PERIOD_FLAG};

const SECONDS: usize = 30;
const FRAMES: usize = 120;

/// The types and the periods of flow, effort, oximetry and events, and the samples of each in a frame: none of the
/// periods divides thirty seconds.
const TYPES: [i32; 4] = [8, 8, 11, 1];
const PERIODS: [i32; 4] = [3906, 3906, 700_000, 7000];
const COUNTS: [usize; 4] = [7680, 7680, 42, 4285];

/// The channel of events; from each frame and sample on its code is the one beside them. One comes at a frame's last
/// sample and lasts through the next, one is the code before it with 0 between, and two differ in their high byte.
const EVENTS: usize = 4;
const CODES: [([usize; 2], u16); 10] = [
    ([1, 0], 0x0003),
    ([1, 9], 0),
    ([2, 1000], 0x0106),
    ([3, 4284], 0x1006),
    ([5, 0], 0),
    ([5, 1], 0x1006),
    ([77, 2142], 0xf006),
    ([77, 2143], 0x0006),
    ([FRAMES, 4283], 0),
    ([FRAMES, 4284], 0x0002),
];

/// All samples are of 16 bits.
const WIDTH: usize = 2;
const FORMAT: i32 = 1;

const CHANNELS_LENGTH: usize = channels::FIRST + PERIODS.len() * channel::LENGTH;
const FRAME_LENGTH: usize =
    frame::SAMPLES + WIDTH * (COUNTS[0] + COUNTS[1] + COUNTS[2] + COUNTS[3]);
const FRAMES_LENGTH: usize = frames::FIRST + FRAMES * FRAME_LENGTH;

/// Where records stand.
const CHANNELS: usize = header::LENGTH + HEAD + overview::LENGTH;
const SIGNALS: usize = CHANNELS + CHANNELS_LENGTH + items::FIRST;
const END: usize = SIGNALS + FRAMES_LENGTH + HEAD;

/// A sample by its place; those of the first three channels together take every value of 16 bits.
fn recorded(frame: usize, channel: usize, sample: usize) -> i16 {
    if channel == EVENTS {
        let now = CODES.iter().rfind(|(from, _)| *from <= [frame, sample]);
        return now.map_or(0, |(_, code)| *code as i16);
    }
    (frame * 7919 + channel * 104_729 + sample * 31) as i16
}

/// Where a channel's samples stand.
fn place(frame: usize, channel: usize) -> usize {
    let before: usize = COUNTS[..channel - 1].iter().sum();
    SIGNALS + frames::FIRST + (frame - 1) * FRAME_LENGTH + frame::SAMPLES + WIDTH * before
}

/// The hour as the recorder writes it.
fn hour(order: Order) -> Vec<u8> {
    let mut page = Page {
        order,
        bytes: Vec::with_capacity(END),
    };
    let (count, of) = (PERIODS.len() as i32, FRAMES as i32);
    page.bytes.extend(header::canonical(&Header {
        spelling: Spelling::Spg,
        version: Version::V300,
        form: Form::Channels,
        order,
        script: b'E',
        recordings: 1,
    }));
    page.record(Kind::Recording, 1, END - header::LENGTH, &[]);
    page.record(
        Kind::Overview,
        0,
        overview::LENGTH,
        &[1, count, of, 0, 2026, 11, 16, 23, 0, 0],
    );
    page.fill(CHANNELS);
    let subs = [count, channel::LENGTH as i32, 0, 0];
    page.record(Kind::Channels, 0, CHANNELS_LENGTH, &subs);
    for (serial, (kind, period)) in (1..).zip(TYPES.into_iter().zip(PERIODS)) {
        let end = page.bytes.len() + channel::LENGTH;
        let fields = [serial, PERIOD_FLAG, kind, FORMAT, period];
        page.record(Kind::Channel, serial, channel::LENGTH, &fields);
        page.fill(end);
    }
    page.record(Kind::Patient, 0, items::FIRST, &[0, 0]);
    let fields = [SECONDS as i32, FRAME_LENGTH as i32, of, 0];
    page.record(Kind::Frames, 0, FRAMES_LENGTH, &fields);
    for frame in 1..=FRAMES {
        page.record(Kind::Frame, frame as i32, FRAME_LENGTH, &[]);
        let Clock {
            hour,
            minute,
            second,
        } = clock(frame);
        page.words([hour, minute, second, 0].map(|part| part as i16));
        for (channel, count) in (1..).zip(COUNTS) {
            page.words((0..count).map(|sample| recorded(frame, channel, sample)));
        }
    }
    page.fill(END);
    page.bytes
}

/// The clock of a frame: the recorder was started at eleven.
fn clock(frame: usize) -> Clock {
    let second = ((frame - 1) * SECONDS) as u32;
    Clock {
        hour: 23,
        minute: second / 60,
        second: second % 60,
    }
}

/// The file as far as it is written.
struct Page {
    order: Order,
    bytes: Vec<u8>,
}

impl Page {
    /// A record's head and its first fields.
    fn record(&mut self, kind: Kind, serial: i32, length: usize, fields: &[i32]) {
        let head = [length as i32, kind.rules().code, serial, 0];
        for number in head.iter().chain(fields) {
            self.number(4, *number);
        }
    }

    /// Numbers of 16 bits.
    fn words(&mut self, words: impl IntoIterator<Item = i16>) {
        for word in words {
            self.number(WIDTH, word.into());
        }
    }

    fn number(&mut self, width: usize, number: i32) {
        let at = self.bytes.len();
        self.bytes.resize(at + width, 0);
        self.order.put(&mut self.bytes, at, width, number);
    }

    /// Zeros up to a position.
    fn fill(&mut self, to: usize) {
        self.bytes.resize(to, 0);
    }
}

fn hours() -> [(Order, Vec<u8>); 2] {
    [Order::Little, Order::Big].map(|order| (order, hour(order)))
}

#[test]
fn it_is_listed() {
    for (_, file) in hours() {
        let rows = psg::rows(&file).expect("an accepted file");
        let codes: Vec<i64> = rows.iter().map(|row| row.code).collect();
        let before = [10, 100, 120, 125, 125, 125, 125, 130, 140];
        assert_eq!(codes[..9], before);
        assert_eq!(codes[9..], [&[145; FRAMES][..], &[0]].concat());
        for (frame, row) in (1..).zip(&rows[9..9 + FRAMES]) {
            assert_eq!(row.position as usize + frame::SAMPLES, place(frame, 1));
            assert_eq!(row.length as usize, FRAME_LENGTH);
            assert_eq!(row.serial as usize, frame);
        }
    }
}

#[test]
fn its_questions_are_answered_by_what_was_recorded() {
    let outside = Err(Refusal {
        number: 19,
        position: 0,
    });
    for (_, file) in hours() {
        let facts = Facts {
            channels: PERIODS.len() as u32,
            frames: FRAMES as u32,
            seconds: SECONDS as u32,
        };
        assert_eq!(psg::facts(&file, 1), Ok(facts));
        for (channel, (period, count)) in (1..).zip(PERIODS.into_iter().zip(COUNTS)) {
            let described = psg::channel(&file, 1, channel).expect("a channel");
            assert_eq!((described.rate, described.format), (period, FORMAT));
            for frame in [1, 2, 77, FRAMES] {
                assert_eq!(psg::clock(&file, 1, frame), Ok(clock(frame)));
                let expected = Place {
                    position: place(frame, channel),
                    width: WIDTH,
                    count,
                };
                assert_eq!(psg::place(&file, 1, frame, channel), Ok(expected));
                let samples = expected.position..expected.position + WIDTH * count;
                assert_eq!(
                    psg::part(&file, expected).as_ptr_range(),
                    file[samples].as_ptr_range()
                );
                for sample in [0, 1, count / 2, count - 1] {
                    let value = Sample::Whole(recorded(frame, channel, sample).into());
                    assert_eq!(psg::sample(&file, 1, frame, channel, sample), Ok(value));
                }
                assert_eq!(psg::sample(&file, 1, frame, channel, count), outside);
            }
        }
    }
}

#[test]
fn its_runs_are_what_was_recorded() {
    let refused = |number, position| Err(Refusal { number, position });
    for (_, file) in hours() {
        for (channel, count) in (1..).zip(COUNTS) {
            for frame in [1, 77, FRAMES] {
                let run = |first, number, out: &mut [i64]| {
                    psg::run(&file, 1, frame, channel, first, number, out)
                };
                for (first, number) in [(0, count), (1, count - 1), (count / 2, 3), (count, 0)] {
                    let mut out = vec![i64::MAX; number + 1];
                    assert_eq!(run(first, number, &mut out), Ok(number));
                    assert_eq!(out.pop(), Some(i64::MAX));
                    let samples = (first..first + number)
                        .map(|sample| i64::from(recorded(frame, channel, sample)));
                    assert!(out.into_iter().eq(samples), "{first} {number}");
                }
                assert_eq!(run(0, count, &mut [0; 9]), refused(17, count));
                assert_eq!(run(0, count + 1, &mut []), refused(19, 0));
                assert_eq!(run(count + 1, 0, &mut []), refused(19, 0));
            }
            let floats = psg::run_floats(&file, 1, 1, channel, 0, 0, &mut []);
            assert_eq!(floats, refused(19, 0));
        }
    }
}

/// Each of its frames is an epoch.
#[test]
fn its_overview_has_the_extremes_of_what_was_recorded() {
    for (_, file) in hours() {
        for (channel, count) in (1..).zip(COUNTS) {
            let frame = |frame| {
                let samples = (0..count).map(|sample| recorded(frame, channel, sample).into());
                let samples: Vec<i64> = samples.collect();
                let smallest = *samples.iter().min()?;
                let largest = *samples.iter().max()?;
                Some(Envelope {
                    smallest,
                    largest,
                    count,
                })
            };
            let expected: Vec<_> = (1..=FRAMES).map(frame).collect();
            assert_eq!(epochs(&file, 1, channel), Ok(expected));
            let track = psg::track(&file, 1, channel).expect("a channel");
            assert_eq!(track.step, FRAME_LENGTH);
            for frame in [1, 2, 77, FRAMES] {
                let placed = track.place(frame).map(|place| place.position);
                assert_eq!(placed, Some(place(frame, channel)));
            }
        }
    }
}

#[test]
fn its_events_are_listed_at_their_times() {
    use EventKind::{InstEnd, LightsOut, RecordingEnd, RecordingStart, User};
    // A period of 7 ms and a frame of 30 s behind eleven o'clock.
    let expected = [
        ([1, 0], 3, RecordingStart, [23, 0, 0], 0),
        ([2, 1000], 0x106, LightsOut, [23, 0, 37], 0),
        ([3, 4284], 0x1006, User, [23, 1, 29], 988_000_000),
        ([5, 1], 0x1006, User, [23, 2, 0], 7_000_000),
        ([77, 2142], 0xf006, User, [23, 38, 14], 994_000_000),
        ([77, 2143], 6, InstEnd, [23, 38, 15], 1_000_000),
        ([FRAMES, 4284], 2, RecordingEnd, [23, 59, 59], 988_000_000),
    ];
    for (_, file) in hours() {
        let listed = psg::timed_entries(&file).expect("an accepted file");
        assert_eq!(listed.len(), expected.len());
        for (listed, expected) in listed.into_iter().zip(expected) {
            let ([frame, place], code, kind, [hour, minute, second], nanosecond) = expected;
            let entry = Entry {
                recording: 1,
                frame,
                channel: EVENTS,
                place,
                code,
            };
            let clock = Clock {
                hour,
                minute,
                second,
            };
            assert_eq!((listed.entry, listed.entry.kind()), (entry, kind));
            assert_eq!((listed.clock, listed.nanosecond), (clock, nanosecond));
        }
    }
}

#[test]
fn it_is_turned_there_and_back_and_rewritten_in_both_orders() {
    let [(_, little), (_, big)] = hours();
    assert!(psg::turned(&little).as_ref() == Ok(&big));
    assert!(psg::turned(&big).as_ref() == Ok(&little));
    // It is canonical, but for what a recorder leaves in a reserve.
    let mut used = little.clone();
    used[SIGNALS + 28] = 9;
    assert!(psg::turned(&psg::turned(&used).expect("no makers")).as_ref() == Ok(&used));
    for file in [&little, &big, &used] {
        assert!(psg::rewritten(file, psg::Order::Little).as_ref() == Ok(&little));
        assert!(psg::rewritten(file, psg::Order::Big).as_ref() == Ok(&big));
    }
}

#[test]
fn another_period_is_refused() {
    const RATE: usize = CHANNELS + channels::FIRST + channel::RATE;
    let refused = |position| {
        Err(Refusal {
            number: 14,
            position,
        })
    };
    for (order, file) in hours() {
        let with = |period| {
            let mut file = file.clone();
            order.put(&mut file, RATE, 4, period);
            file
        };
        let judged = |period| psg::judge(&with(period)).map(|header| header.recordings);
        // 30 seconds have 7680 samples by 3906 alone.
        assert_eq!(judged(3906), Ok(1));
        assert_eq!(judged(3905), refused(SIGNALS + frames::FRAME_LENGTH));
        assert_eq!(judged(3), refused(SIGNALS + frames::FRAME_LENGTH));
        assert_eq!(judged(30_000_000), refused(SIGNALS + frames::FRAME_LENGTH));
        assert_eq!(judged(30_000_001), refused(SIGNALS + frames::SECONDS));
        for period in [3905, 3907, 30_000_000, 30_000_001, i32::MAX] {
            let file = with(period);
            assert_eq!(differences(&file, &judge(&file), &[]), Vec::<String>::new());
        }
    }
}

#[test]
fn the_second_program_agrees() {
    for (order, file) in hours() {
        let asked = questions(&file, &mut Random::new(256, order.letter().into()));
        let found = differences(&file, &judge(&file), &asked);
        assert_eq!(found, Vec::<String>::new());
    }
}
