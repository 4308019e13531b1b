//! The overview of a night, all epochs of one channel in one call of the library, against plain Rust over the same
//! samples, whose places it knows, in a table. Judging is timed by calls for no epochs, each with plain Rust behind it,
//! and is taken out of the ratio.

use crate::night::Night;
use crate::{judged, plain, timing};
use second::bytes::Order;
use second::record::Format;
use std::hint::black_box;

const CHANNELS: usize = 20;
/// The channel that is asked for, one of those with the most samples.
const CHANNEL: usize = 1;

const NUMBERS: usize = overview::NUMBERS;

/// The table, with a night of so many seconds: in its usual frames, and in frames as long as an epoch.
pub fn measure(night: usize) {
    judged::head("overview, µs a call", "the pass");
    let epoch = overview::SECONDS;
    for format in [Format::Signed16, Format::Signed24, Format::Signed32] {
        for (frames, seconds) in [(night, 1), (night / epoch, epoch)] {
            for order in [Order::Little, Order::Big] {
                let made = Night::new(format, CHANNELS, frames, 1).of_seconds(seconds);
                line(Work::new(made, order));
            }
        }
    }
}

/// A night, where the channel's samples stand, and what the library and plain Rust write.
struct Work {
    format: Format,
    order: Order,
    seconds: usize,
    file: Vec<u8>,
    copy: Vec<u8>,
    channel: plain::Channel,
    numbers: Vec<i64>,
    plain: Vec<i64>,
}

impl Work {
    fn new(night: Night, order: Order) -> Work {
        let file = night.write(order).file;
        let track = psg::track(&file, 1, CHANNEL).expect("a channel of a night");
        let epochs = (night.frames * night.seconds).div_ceil(overview::SECONDS);
        Work {
            format: night.format,
            order,
            seconds: night.seconds,
            copy: file.clone(),
            channel: plain::Channel {
                number: CHANNEL,
                first: track.first.position,
                bytes: track.first.width * track.first.count,
                frames: night.frames,
                frame_length: track.step,
            },
            file,
            numbers: vec![0; NUMBERS * epochs],
            plain: vec![0; NUMBERS * epochs],
        }
    }

    fn epochs(&self) -> usize {
        self.numbers.len() / NUMBERS
    }

    /// So many epochs by the library.
    fn library(&mut self, number: usize) {
        let file = black_box(&self.file[..]);
        let counted = overview::overview_range(file, 1, CHANNEL, 0, number, &mut self.numbers);
        black_box(counted).expect("epochs of a night");
    }

    fn overview(&mut self) {
        self.library(self.epochs());
    }

    fn plain(&mut self) {
        let file = black_box(&self.file[..]);
        let (seconds, out) = (self.seconds, &mut self.plain);
        plain::overview(self.format, self.order, file, &self.channel, seconds, out);
        black_box(&mut self.plain);
    }

    /// The library's judging, and plain Rust behind it.
    fn judge_and_plain(&mut self) {
        self.library(0);
        self.plain();
    }

    fn copy(&mut self) {
        self.copy.copy_from_slice(black_box(&self.file));
        black_box(&mut self.copy);
    }
}

/// A line of the table. Both have to write the same before either is timed.
fn line(mut work: Work) {
    let (bits, letter) = (8 * work.format.width(), char::from(work.order.letter()));
    let (epochs, seconds) = (work.epochs(), work.seconds);
    let name = format!("{bits} bits {letter}, {epochs} epochs, frames of {seconds} s");
    work.overview();
    work.plain();
    assert!(work.numbers == work.plain, "both find the same: {name}");
    let calls: [fn(&mut Work); 3] = [Work::overview, Work::judge_and_plain, Work::plain];
    let took = timing::rounds(&mut work, Work::copy, &calls);
    judged::line(&name, &took, 1);
}
