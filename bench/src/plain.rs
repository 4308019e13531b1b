//! Decoding, looking for events and for the extremes of epochs in plain Rust: a loop over the bytes, a sample at a
//! time, of which the compiler makes what it can.

use second::bytes::Order;
use second::record::Format;

/// A value of each part of the bytes, in order.
pub fn each<const N: usize, T>(bytes: &[u8], out: &mut [T], value: impl Fn([u8; N]) -> T) {
    let parts = bytes.as_chunks().0.iter();
    for (place, part) in out.iter_mut().zip(parts) {
        *place = value(*part);
    }
}

/// Samples of whole numbers; the 32 bits of a float would be taken for one too.
pub fn numbers(format: Format, order: Order, bytes: &[u8], out: &mut [i64]) {
    match (format.width(), order) {
        (2, Order::Little) => each(bytes, out, |b| i16::from_le_bytes(b).into()),
        (2, Order::Big) => each(bytes, out, |b| i16::from_be_bytes(b).into()),
        // Up by a byte and down again, so that the sign comes along.
        (3, Order::Little) => each(bytes, out, |[a, b, c]| {
            (i32::from_le_bytes([0, a, b, c]) >> 8).into()
        }),
        (3, Order::Big) => each(bytes, out, |[a, b, c]| {
            (i32::from_be_bytes([a, b, c, 0]) >> 8).into()
        }),
        (_, Order::Little) => each(bytes, out, |b| i32::from_le_bytes(b).into()),
        (_, Order::Big) => each(bytes, out, |b| i32::from_be_bytes(b).into()),
    }
}

/// Samples of format 4.
pub fn floats(order: Order, bytes: &[u8], out: &mut [f32]) {
    match order {
        Order::Little => each(bytes, out, f32::from_le_bytes),
        Order::Big => each(bytes, out, f32::from_be_bytes),
    }
}

/// A channel of a file's one recording.
pub struct Channel {
    pub number: usize,
    /// Where its samples stand in the first frame, and how many bytes they are in each.
    pub first: usize,
    pub bytes: usize,
    pub frames: usize,
    pub frame_length: usize,
}

impl Channel {
    /// Its bytes in a frame, from 0.
    fn part<'a>(&self, file: &'a [u8], frame: usize) -> &'a [u8] {
        let start = self.first + frame * self.frame_length;
        &file[start..start + self.bytes]
    }
}

/// The seconds of an epoch.
const EPOCH: usize = 30;

/// The overview of a channel of whole numbers, three numbers an epoch, in frames of so many seconds. The extremes are
/// kept in the sample's own type, or in 32 bits where it has 24.
pub fn overview(
    format: Format,
    order: Order,
    file: &[u8],
    channel: &Channel,
    seconds: usize,
    out: &mut [i64],
) {
    match (format.width(), order) {
        (2, Order::Little) => extremes(file, channel, seconds, out, i16::from_le_bytes),
        (2, Order::Big) => extremes(file, channel, seconds, out, i16::from_be_bytes),
        (3, Order::Little) => extremes(file, channel, seconds, out, |[a, b, c]| {
            i32::from_le_bytes([0, a, b, c]) >> 8
        }),
        (3, Order::Big) => extremes(file, channel, seconds, out, |[a, b, c]| {
            i32::from_be_bytes([a, b, c, 0]) >> 8
        }),
        (_, Order::Little) => extremes(file, channel, seconds, out, i32::from_le_bytes),
        (_, Order::Big) => extremes(file, channel, seconds, out, i32::from_be_bytes),
    }
}

fn extremes<const N: usize, T: Copy + Ord + Into<i64>>(
    file: &[u8],
    channel: &Channel,
    seconds: usize,
    out: &mut [i64],
    value: impl Fn([u8; N]) -> T,
) {
    for (epoch, numbers) in out.chunks_exact_mut(3).enumerate() {
        let [first, end] = [epoch, epoch + 1].map(|epoch| (epoch * EPOCH).div_ceil(seconds));
        let mut found: Option<[T; 2]> = None;
        let mut count = 0;
        for frame in first..end.min(channel.frames) {
            let samples = channel.part(file, frame).as_chunks().0;
            let Some(&one) = samples.first() else {
                continue;
            };
            let [mut smallest, mut largest] = found.unwrap_or([value(one); 2]);
            for &bytes in samples {
                let sample = value(bytes);
                smallest = smallest.min(sample);
                largest = largest.max(sample);
            }
            found = Some([smallest, largest]);
            count += samples.len();
        }
        let [smallest, largest] = found.map_or([0; 2], |found| found.map(Into::into));
        numbers.copy_from_slice(&[smallest, largest, count as i64]);
    }
}

/// The index of the channel's events, five numbers an entry.
pub fn index(order: Order, file: &[u8], channel: &Channel, out: &mut Vec<i64>) {
    match order {
        Order::Little => changes(file, channel, out, u16::from_le_bytes),
        Order::Big => changes(file, channel, out, u16::from_be_bytes),
    }
}

fn changes(file: &[u8], channel: &Channel, out: &mut Vec<i64>, code: impl Fn([u8; 2]) -> u16) {
    out.clear();
    let mut last = 0;
    for frame in 0..channel.frames {
        let samples = channel.part(file, frame).as_chunks().0;
        for (place, &bytes) in samples.iter().enumerate() {
            let now = code(bytes);
            if now != 0 && now != last {
                let [frame, channel, place] = [frame + 1, channel.number, place].map(|n| n as i64);
                out.extend([1, frame, channel, place, now.into()]);
            }
            last = now;
        }
    }
}

#[cfg(test)]
mod tests {
    use super::*;
    use crate::night::Night;
    use second::model::Span;
    use second::overview::{overview_range, Epochs};
    use second::place::{part, place};
    use second::run::{run_float, run_int, Run};

    /// Where the samples of a channel stand in a frame.
    fn samples(file: &[u8], frame: u64, channel: u64) -> Span {
        let place = place(file, 1, frame, channel).expect("a channel of a night");
        part(file.len() as u64, place)
    }

    #[test]
    fn every_width_is_decoded_as_the_second_program_does() {
        for format in Format::ALL {
            let night = Night::new(format, 3, 2, 5).of_seconds(2);
            for order in [Order::Little, Order::Big] {
                let file = night.write(order).file;
                let run = Run {
                    recording: 1,
                    frame: 2,
                    channel: 3,
                    first: 0,
                    number: night.count(3) as u64,
                };
                let span = samples(&file, 2, 3);
                let bytes = &file[span.at..span.at + span.length];
                if format == Format::Float32 {
                    let mut out = vec![0.0; night.count(3)];
                    floats(order, bytes, &mut out);
                    let bits = out.into_iter().map(f32::to_bits).collect();
                    assert_eq!(run_float(&file, run, u64::MAX), Ok(bits));
                } else {
                    let mut out = vec![0; night.count(3)];
                    numbers(format, order, bytes, &mut out);
                    assert_eq!(run_int(&file, run, u64::MAX), Ok(out));
                }
            }
        }
    }

    /// The channel of a night by its places in the first two frames.
    fn channel(night: &Night, file: &[u8], number: usize) -> Channel {
        let [one, other] = [1, 2].map(|frame| samples(file, frame, number as u64));
        Channel {
            number,
            first: one.at,
            bytes: one.length,
            frames: night.frames,
            frame_length: other.at - one.at,
        }
    }

    #[test]
    fn epochs_have_the_extremes_that_the_second_program_finds() {
        for format in [Format::Signed16, Format::Signed24, Format::Signed32] {
            for (frames, seconds) in [(90, 1), (13, 7), (3, 45), (5, 30)] {
                let night = Night::new(format, 3, frames, 5).of_seconds(seconds);
                let number = (frames * seconds).div_ceil(30);
                let epochs = Epochs {
                    recording: 1,
                    channel: 2,
                    first: 0,
                    number: number as u64,
                };
                for order in [Order::Little, Order::Big] {
                    let file = night.write(order).file;
                    let mut out = vec![7; 3 * number];
                    let channel = channel(&night, &file, 2);
                    overview(format, order, &file, &channel, seconds, &mut out);
                    assert_eq!(overview_range(&file, epochs, u64::MAX), Ok(out));
                }
            }
        }
    }

    #[test]
    fn events_are_found_as_the_second_program_does() {
        let night = Night::new(Format::Signed16, 3, 60, 5)
            .of_seconds(2)
            .with_events(9);
        let number = night.events.as_ref().map_or(0, |events| events.channel);
        for order in [Order::Little, Order::Big] {
            let file = night.write(order).file;
            let channel = channel(&night, &file, number);
            let mut out = vec![7];
            index(order, &file, &channel, &mut out);
            let entries = second::index::index(&file, u64::MAX).map(|entries| entries.concat());
            assert_eq!(entries, Ok(out));
        }
    }
}
