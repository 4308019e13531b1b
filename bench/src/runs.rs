//! Runs of samples by the library, against plain Rust over the same bytes, in a table. Each call of the library judges
//! the file; what that takes is timed by runs of no samples at the same places, each with plain Rust behind it, so that
//! judging finds the caches as it does in a call, and is taken out of the ratio.

use crate::night::Night;
use crate::{judged, plain, timing};
use second::bytes::Order;
use second::record::Format;
use std::hint::black_box;
use std::ops::Range;

const CHANNELS: usize = 20;
/// The channel that is asked for, one of those with the most samples.
const CHANNEL: usize = 1;

/// The seconds of a frame: the usual ones, an epoch's, and those of a night in so few frames that judging does not
/// hide what decoding takes.
const SECOND: usize = 1;
const EPOCH: usize = 30;
const LONG: usize = 600;

/// A night in its usual frames is asked frame by frame, and each is a judging of the whole night: of every so many.
const EVERY: usize = 300;

/// How many samples a frame by itself is asked for in all, since once is too short a time.
const SAMPLES: usize = 15_000_000;

/// The table, with a night of so many seconds.
pub fn measure(night: usize) {
    judged::head("run, µs a frame", "decoding");
    for format in Format::ALL {
        let of = |frames, seconds| Night::new(format, CHANNELS, frames, 1).of_seconds(seconds);
        for seconds in [EPOCH, SECOND] {
            for order in [Order::Little, Order::Big] {
                let alone = Work::new(of(1, seconds), order, 1..2, 1);
                let name = format!("a frame of {seconds} s by itself");
                line(&name, alone.repeated());
            }
        }
        let usual = Work::new(of(night, SECOND), Order::Little, 1..night + 1, EVERY);
        let name = format!("every {EVERY}th of {night} frames of {SECOND} s");
        line(&name, usual);
        let seconds = LONG.min(night);
        let frames = night / seconds;
        for order in [Order::Little, Order::Big] {
            let long = Work::new(of(frames, seconds), order, 1..frames + 1, 1);
            line(&format!("the night, {frames} frames of {seconds} s"), long);
        }
    }
}

/// A night, the frames that are asked for, where their samples stand, and what these are written into.
struct Work {
    format: Format,
    order: Order,
    file: Vec<u8>,
    copy: Vec<u8>,
    asked: Vec<(usize, Range<usize>)>,
    count: usize,
    numbers: Vec<i64>,
    floats: Vec<f32>,
    again: usize,
}

/// What is timed of each frame asked for: the library; its judging, with plain Rust behind it; plain Rust.
const CALLS: [fn(&mut Work, usize); 3] = [
    |work, index| work.library(index, work.count),
    |work, index| {
        work.library(index, 0);
        work.plain(index);
    },
    |work, index| work.plain(index),
];

impl Work {
    /// Of these frames every so many.
    fn new(night: Night, order: Order, frames: Range<usize>, every: usize) -> Work {
        let file = night.write(order).file;
        let standing = |frame| {
            let place = psg::place(&file, 1, frame, CHANNEL).expect("a frame of a night");
            let end = place.position + place.width * place.count;
            (frame, place.position..end)
        };
        let asked: Vec<_> = frames.step_by(every).map(standing).collect();
        let count = night.count(CHANNEL);
        let room = |of_it: bool| if of_it { asked.len() * count } else { 0 };
        let float = night.format == Format::Float32;
        Work {
            format: night.format,
            order,
            copy: file.clone(),
            numbers: vec![0; room(!float)],
            floats: vec![0.0; room(float)],
            file,
            asked,
            count,
            again: 1,
        }
    }

    /// Asked for so often that it takes a while.
    fn repeated(self) -> Work {
        let again = SAMPLES / self.count;
        Work { again, ..self }
    }

    /// Where the samples of a frame asked for are written.
    fn place(&self, index: usize) -> Range<usize> {
        index * self.count..(index + 1) * self.count
    }

    /// A run of so many samples of a frame asked for, by the library.
    fn library(&mut self, index: usize, number: usize) {
        let file = black_box(&self.file[..]);
        let frame = self.asked[index].0;
        let place = self.place(index);
        let counted = match self.format {
            Format::Float32 => {
                let out = &mut self.floats[place];
                psg::run_floats(file, 1, frame, CHANNEL, 0, number, out)
            }
            _ => {
                let out = &mut self.numbers[place];
                psg::run(file, 1, frame, CHANNEL, 0, number, out)
            }
        };
        black_box(counted).expect("a run is there");
    }

    fn plain(&mut self, index: usize) {
        let file = black_box(&self.file[..]);
        let bytes = &file[self.asked[index].1.clone()];
        let place = self.place(index);
        match self.format {
            Format::Float32 => plain::floats(self.order, bytes, &mut self.floats[place]),
            format => plain::numbers(format, self.order, bytes, &mut self.numbers[place]),
        }
        black_box((&mut self.numbers, &mut self.floats));
    }

    /// A call for each frame asked for, as often as is told.
    fn all(&mut self, call: fn(&mut Work, usize)) {
        for _ in 0..self.again {
            for index in 0..self.asked.len() {
                call(self, index);
            }
        }
    }

    /// What was written, and the buffers cleared.
    fn taken(&mut self) -> (Vec<i64>, Vec<u32>) {
        let bits = self.floats.iter().map(|float| float.to_bits()).collect();
        let numbers = self.numbers.clone();
        self.numbers.fill(0);
        self.floats.fill(0.0);
        (numbers, bits)
    }

    fn copy(&mut self) {
        self.copy.copy_from_slice(black_box(&self.file));
        black_box(&mut self.copy);
    }

    /// Its format and its order, as a line of the table begins.
    fn kind(&self) -> String {
        let letter = char::from(self.order.letter());
        match self.format {
            Format::Float32 => format!("floats {letter}"),
            format => format!("{} bits {letter}", 8 * format.width()),
        }
    }
}

/// A line of the table. Both have to write the same before either is timed.
fn line(name: &str, mut work: Work) {
    let [library, _, plain] = CALLS;
    work.all(library);
    let own = work.taken();
    work.all(plain);
    assert!(own == work.taken(), "both decode the same: {name}");
    let calls = CALLS.map(|call| move |work: &mut Work| work.all(call));
    let took = timing::rounds(&mut work, Work::copy, &calls);
    let frames = work.again * work.asked.len();
    judged::line(&format!("{}, {name}", work.kind()), &took, frames);
}
