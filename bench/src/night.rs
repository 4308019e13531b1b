//! A night as a sleep laboratory's recorder writes it: one recording of one-second frames, with patient items and event
//! items, if asked for with a channel of events, in either byte order and with the table that it has. The same seed
//! gives the same samples in both orders, so that one file is what turning the other has to give, and in frames of any
//! length.

use second::bytes::Order;
use second::header::{self, Form, Header, Spelling, Version};
use second::random::Random;
use second::record::{channel, channels, frame, frames, items, overview, Format, Kind, HEAD};
use second::rewrite::grouping;
use second::table::Row;

pub const EIGHT_HOURS: usize = 8 * 3600;

pub struct Night {
    pub format: Format,
    /// Samples a second, channel by channel.
    pub rates: Vec<usize>,
    pub frames: usize,
    /// The length of a frame.
    pub seconds: usize,
    pub seed: u64,
    pub events: Option<Events>,
}

/// A channel of events.
pub struct Events {
    /// Its number, from 1.
    pub channel: usize,
    /// How many events the night has.
    pub count: usize,
}

/// A file and the rows of its table.
pub struct Written {
    pub file: Vec<u8>,
    pub rows: Vec<Row>,
}

/// The rates of so many channels, at most 500 and at least 100 Hz: two of muscle and heart, a third of brain and eyes,
/// the others of breath and movement.
fn rates(channels: usize) -> Vec<usize> {
    let rate = |number| match number {
        0 | 1 => 500,
        _ if number % 3 == 0 => 200,
        _ => 100,
    };
    (0..channels).map(rate).collect()
}

const PATIENT: [(i32, &str); 3] = [(1, "0001"), (11, "Night, Long"), (21, "1970")];
/// Two events of the user's own, and a spare slot.
const EVENTS: [(i32, &str); 3] = [(4096, "lights out"), (4097, "lights on"), (0, "        ")];

/// The samples a second of a channel of events, and for how many of them a code stands.
const EVENTS_RATE: usize = 100;
const EVENT_SAMPLES: usize = 500;

/// The types of channels of events, and of the others.
const EVENT: i32 = 1;
const MARK: i32 = 2;

impl Night {
    /// With so many channels, each at its usual rate.
    pub fn new(format: Format, channels: usize, frames: usize, seed: u64) -> Night {
        Night {
            format,
            rates: rates(channels),
            frames,
            seconds: 1,
            seed,
            events: None,
        }
    }

    /// The same with frames of so many seconds.
    pub fn of_seconds(self, seconds: usize) -> Night {
        Night { seconds, ..self }
    }

    /// The same with so many events, in a channel that stands in the midst of the others; of samples of 16 bits alone.
    pub fn with_events(mut self, count: usize) -> Night {
        assert!(self.format == Format::Signed16);
        let before = self.rates.len() / 2;
        self.rates.insert(before, EVENTS_RATE);
        let channel = before + 1;
        self.events = Some(Events { channel, count });
        self
    }

    /// How many samples a channel, from 1, has in a frame.
    pub fn count(&self, channel: usize) -> usize {
        self.seconds * self.rates[channel - 1]
    }

    pub fn write(&self, order: Order) -> Written {
        let parts = [
            overview::LENGTH,
            self.channels_length(),
            items_length(&PATIENT),
            items_length(&EVENTS),
            self.frames_length(),
            HEAD,
        ];
        let content = HEAD + parts.iter().sum::<usize>();
        let mut page = Page {
            order,
            bytes: Vec::with_capacity(header::LENGTH + grouped(content)),
            rows: Vec::with_capacity(8 + self.rates.len() + self.frames),
        };
        page.bytes.extend(header::canonical(&Header {
            spelling: Spelling::Spg,
            version: Version::V300,
            form: Form::Channels,
            order,
            script: b'E',
            recordings: 1,
        }));
        page.head(Kind::Recording, 1, content);
        self.overview(&mut page);
        self.channels(&mut page);
        items(&mut page, Kind::Patient, &PATIENT);
        items(&mut page, Kind::Events, &EVENTS);
        self.block(&mut page);
        page.rows.push([page.bytes.len() as i64, HEAD as i64, 0, 0]);
        page.zeros(HEAD);
        page.zeros(grouped(content) - content);
        Written {
            file: page.bytes,
            rows: page.rows,
        }
    }

    /// The events of a channel, from 0, if it has any.
    fn events_of(&self, index: usize) -> Option<&Events> {
        let events = self.events.as_ref();
        events.filter(|events| events.channel == index + 1)
    }

    fn channels_length(&self) -> usize {
        channels::FIRST + channel::LENGTH * self.rates.len()
    }

    fn frame_length(&self) -> usize {
        frame::SAMPLES + self.format.width() * self.seconds * self.rates.iter().sum::<usize>()
    }

    fn frames_content(&self) -> usize {
        frames::FIRST + self.frames * self.frame_length()
    }

    fn frames_length(&self) -> usize {
        grouped(self.frames_content())
    }

    fn overview(&self, page: &mut Page) {
        page.head(Kind::Overview, 0, overview::LENGTH);
        page.numbers(&[1, self.rates.len() as i32, self.frames as i32, 0]);
        page.numbers(&[2026, 11, 15, START[0], START[1], START[2]]);
        page.text("synthetic", overview::TIME_TEXT.1);
        page.numbers(&[50, 0, 0, 0, 0]);
        page.text("made for a measurement", overview::COMMENT.1);
    }

    fn channels(&self, page: &mut Page) {
        page.head(Kind::Channels, 0, self.channels_length());
        page.numbers(&[self.rates.len() as i32, channel::LENGTH as i32, 0, 0]);
        for (index, &rate) in self.rates.iter().enumerate() {
            let serial = index as i32 + 1;
            page.head(Kind::Channel, serial, channel::LENGTH);
            let kind = self.events_of(index).map_or(MARK, |_| EVENT);
            page.numbers(&[serial, 0, kind, self.format.number(), rate as i32]);
            page.numbers(&[50, 1000, 0, 0, 0, 3, 70, 10, 0]);
            page.text("channel", channel::LABEL.1);
            page.text("uV", channel::UNIT.1);
            page.zeros(channel::COMMENT.0 - channel::UNIT.0 - channel::UNIT.1);
            page.text("", channel::COMMENT.1);
        }
    }

    fn block(&self, page: &mut Page) {
        let content = self.frames_content();
        page.head(Kind::Frames, 0, content);
        let (length, frames) = (self.frame_length() as i32, self.frames as i32);
        page.numbers(&[self.seconds as i32, length, frames, 0]);
        let mut signals: Vec<Signal> = (0..self.rates.len() as u64)
            .map(|number| Signal::new(Random::new(self.seed, number)))
            .collect();
        for frame in 0..self.frames {
            page.head(Kind::Frame, frame as i32 + 1, self.frame_length());
            page.clock(frame * self.seconds);
            for (index, signal) in signals.iter_mut().enumerate() {
                let count = self.count(index + 1);
                let (first, all) = (frame * count, self.frames * count);
                let events = self.events_of(index);
                let values = (first..first + count).map(|sample| match events {
                    Some(events) => events.code(sample, all),
                    None => signal.sample(self.format),
                });
                match self.format.width() {
                    2 => page.samples::<2>(values),
                    3 => page.samples::<3>(values),
                    _ => page.samples::<4>(values),
                }
            }
        }
        page.zeros(self.frames_length() - content);
    }
}

impl Events {
    /// The code of a sample, of so many: each event stands for a while in the midst of its share of the night.
    fn code(&self, sample: usize, all: usize) -> i32 {
        const CODES: [i32; 7] = [3, 0x102, 0x106, 4096, 4097, 0x108, 2];
        let share = all / self.count;
        let (event, at) = (sample / share, sample % share);
        let held = at >= share / 2 && at - share / 2 < EVENT_SAMPLES;
        if held && event < self.count {
            CODES[event % CODES.len()]
        } else {
            0
        }
    }
}

/// The clock when the recorder was started.
const START: [i32; 3] = [22, 30, 0];

/// A 10's or a 140's length, its padding included.
fn grouped(content: usize) -> usize {
    content + grouping(content).padding
}

fn items_length(list: &[(i32, &str)]) -> usize {
    let lengths = list.iter().map(|(_, text)| items::ITEM_HEAD + text.len());
    items::FIRST + lengths.sum::<usize>()
}

fn items(page: &mut Page, kind: Kind, list: &[(i32, &str)]) {
    page.head(kind, 0, items_length(list));
    page.numbers(&[list.len() as i32, 0]);
    for (code, text) in list {
        page.numbers(&[(items::ITEM_HEAD + text.len()) as i32, *code]);
        page.text(text, text.len());
    }
}

/// The file as far as it is written.
struct Page {
    order: Order,
    bytes: Vec<u8>,
    rows: Vec<Row>,
}

impl Page {
    /// The head of a record of `content` bytes; its size and multiplier follow from them.
    fn head(&mut self, kind: Kind, serial: i32, content: usize) {
        let grouping = grouping(content);
        let (at, length, code) = (self.bytes.len(), grouped(content), kind.rules().code);
        self.rows
            .push([at as i64, length as i64, code.into(), serial.into()]);
        self.numbers(&[grouping.size, code, serial, grouping.multiplier]);
    }

    fn numbers(&mut self, numbers: &[i32]) {
        self.samples::<4>(numbers.iter().copied());
    }

    /// The low `WIDTH` bytes of each value.
    fn samples<const WIDTH: usize>(&mut self, values: impl Iterator<Item = i32>) {
        for value in values {
            match self.order {
                Order::Little => self.bytes.extend(&value.to_le_bytes()[..WIDTH]),
                Order::Big => self.bytes.extend(&value.to_be_bytes()[4 - WIDTH..]),
            }
        }
    }

    /// A frame's clock, so many seconds into the night, and its reserve.
    fn clock(&mut self, second: usize) {
        let [hour, minute, first] = START;
        let time = (hour * 60 + minute) * 60 + first + second as i32;
        self.samples::<2>([time / 3600 % 24, time / 60 % 60, time % 60, 0].into_iter());
    }

    fn text(&mut self, text: &str, length: usize) {
        self.bytes.extend(text.as_bytes());
        self.bytes
            .resize(self.bytes.len() + length - text.len(), b' ');
    }

    fn zeros(&mut self, length: usize) {
        self.bytes.resize(self.bytes.len() + length, 0);
    }
}

/// A channel's signal: noise that drifts back to zero, within 16 bits.
struct Signal {
    noise: Random,
    level: i32,
}

impl Signal {
    fn new(noise: Random) -> Signal {
        Signal { noise, level: 0 }
    }

    fn sample(&mut self, format: Format) -> i32 {
        let drawn = self.noise.word();
        self.level += (drawn >> 52) as i32 - 2048 - self.level / 8;
        let fine = drawn as u16;
        match format {
            Format::Signed16 => self.level,
            Format::Signed24 => self.level << 8 | i32::from(fine >> 8),
            Format::Signed32 => self.level << 16 | i32::from(fine),
            Format::Float32 => (self.level as f32 / 256.0).to_bits() as i32,
        }
    }
}

#[cfg(test)]
mod tests {
    use super::*;
    use second::{index, table, turn};

    #[test]
    fn the_second_program_reads_a_night_and_turns_it_into_the_other() {
        for format in Format::ALL {
            for seconds in [1, 3] {
                let night = Night::new(format, 5, 90, 7).of_seconds(seconds);
                let (little, big) = (night.write(Order::Little), night.write(Order::Big));
                assert_eq!(
                    table::table(&little.file, u64::MAX).as_ref(),
                    Ok(&little.rows)
                );
                assert_eq!(turn::turn(&little.file, u64::MAX), Ok(big.file));
            }
        }
    }

    #[test]
    fn the_second_program_finds_the_events_of_a_night() {
        for (frames, seconds) in [(90, 1), (3, 30), (7, 13)] {
            let night = Night::new(Format::Signed16, 4, frames, 7).of_seconds(seconds);
            let night = night.with_events(8);
            let (little, big) = (night.write(Order::Little), night.write(Order::Big));
            assert_eq!(turn::turn(&little.file, u64::MAX).as_ref(), Ok(&big.file));
            let entries = index::index(&little.file, u64::MAX).expect("a night");
            assert_eq!(entries.len(), 8);
            assert!(entries.iter().all(|[.., channel, _, _]| *channel == 3));
            assert_eq!(index::index(&big.file, u64::MAX), Ok(entries));
        }
    }
}
