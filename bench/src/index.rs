//! The index of a night's events by the library, against plain Rust over the samples of the one channel of events, in a
//! table. Beside it the same night without such a channel, of which there is nothing to do but judging.

use crate::night::Night;
use crate::{judged, plain, timing};
use second::bytes::Order;
use second::record::Format;
use std::hint::black_box;

const CHANNELS: usize = 20;
const EVENTS: usize = 40;

/// The seconds of long frames, of which judging is next to nothing.
const LONG: usize = 600;

/// The table, with a night of so many seconds.
pub fn measure(night: usize) {
    judged::head("index, µs a call", "listing");
    let long = LONG.min(night);
    for order in [Order::Little, Order::Big] {
        for (frames, seconds) in [(night, 1), (night / long, long)] {
            let made = || Night::new(Format::Signed16, CHANNELS, frames, 1).of_seconds(seconds);
            let letter = char::from(order.letter());
            let name = format!("{letter}, {frames} frames of {seconds} s");
            let listed = Work::new(made().with_events(EVENTS), order);
            line(&format!("{name}, {EVENTS} events"), listed);
            let without = Work::new(made(), order);
            line(&format!("{name}, no channel of events"), without);
        }
    }
}

/// A night, its channel of events if it has one, what is lent for the index, how many entries it got, and what plain
/// Rust found.
struct Work {
    order: Order,
    file: Vec<u8>,
    copy: Vec<u8>,
    channel: Option<plain::Channel>,
    entries: Vec<i64>,
    count: usize,
    plain: Vec<i64>,
}

impl Work {
    fn new(night: Night, order: Order) -> Work {
        let file = night.write(order).file;
        let rows = psg::rows(&file).expect("a night is listed");
        let frame = rows.iter().find(|row| row.code == 145).expect("a frame");
        let channel = night.events.map(|events| {
            let place = psg::place(&file, 1, 1, events.channel).expect("a channel of a night");
            plain::Channel {
                number: events.channel,
                first: place.position,
                bytes: place.width * place.count,
                frames: night.frames,
                frame_length: frame.length as usize,
            }
        });
        Work {
            order,
            copy: file.clone(),
            channel,
            file,
            entries: vec![0; 5 * EVENTS],
            count: 0,
            plain: Vec::with_capacity(5 * EVENTS),
        }
    }

    fn index(&mut self) {
        let file = black_box(&self.file[..]);
        let count = psg::index(file, &mut self.entries);
        self.count = black_box(count).expect("a night has an index");
    }

    /// Looks for the events in plain Rust, if there is a channel of them.
    fn look(&mut self) {
        let file = black_box(&self.file[..]);
        if let Some(channel) = &self.channel {
            plain::index(self.order, file, channel, &mut self.plain);
        }
        black_box(&mut self.plain);
    }

    fn judge_and_look(&mut self) {
        black_box(psg::judge(black_box(&self.file))).expect("a night is judged");
        self.look();
    }

    fn copy(&mut self) {
        self.copy.copy_from_slice(black_box(&self.file));
        black_box(&mut self.copy);
    }
}

/// A line of the table. Both have to find the same before either is timed.
fn line(name: &str, mut work: Work) {
    work.index();
    work.look();
    let listed = &work.entries[..5 * work.count];
    assert!(listed == work.plain, "both find the same: {name}");
    let mut calls: Vec<fn(&mut Work)> = vec![Work::index, Work::judge_and_look];
    if work.channel.is_some() {
        assert_eq!(work.count, EVENTS, "{name}");
        calls.push(Work::look);
    }
    let took = timing::rounds(&mut work, Work::copy, &calls);
    judged::line(name, &took, 1);
}
