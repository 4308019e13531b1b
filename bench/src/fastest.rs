//! Turning in the fastest safe Rust: the second program finds and turns the records, and each run of samples is turned
//! from the one buffer into the other. For 16 and 32 bits the fastest that was found is a sample at a time, which the
//! compiler makes wide; for 24 bits it is eight samples at a time, as three words.

use crate::plain;
use second::header::ORDER_AT;
use second::judge::judge;
use second::model::Recording;
use second::record::{frame, Format, Kind};
use second::refusal::{require_room, Refusal};
use second::turn::{items_in, refuse_makers, reverse_item, reverse_numbers};

/// Turns a run of 24-bit samples.
type Run = fn(&[u8], &mut [u8]);

/// The file in the other byte order, written into `out`: how many bytes.
pub fn turn(file: &[u8], out: &mut [u8]) -> Result<usize, Refusal> {
    turn_by(file, out, run_of_24)
}

/// The same with 24-bit samples one at a time.
pub fn turn_by_sample(file: &[u8], out: &mut [u8]) -> Result<usize, Refusal> {
    turn_by(file, out, samples_of_24)
}

fn turn_by(file: &[u8], out: &mut [u8], run24: Run) -> Result<usize, Refusal> {
    let model = judge(file)?;
    refuse_makers(&model)?;
    require_room(out.len() as u64, file.len())?;
    let mut done = 0;
    for recording in &model.recordings {
        done = frames(file, out, recording, done, run24);
    }
    out[done..file.len()].copy_from_slice(&file[done..]);
    out[ORDER_AT] = model.order.other().letter();
    for record in model.records.iter().filter(|r| r.kind != Kind::Frame) {
        reverse_numbers(out, record.at, record.kind);
    }
    for recording in &model.recordings {
        for part in &recording.parts {
            for item in items_in(recording, part) {
                reverse_item(out, item.at);
            }
        }
    }
    Ok(file.len())
}

/// Writes the bytes from `done` to the recording's last sample, frames turned and all else as it stands; gives how far
/// it came.
fn frames(
    file: &[u8],
    out: &mut [u8],
    recording: &Recording,
    mut done: usize,
    run24: Run,
) -> usize {
    for one in &recording.block.frames {
        let samples = one.record.at + frame::SAMPLES;
        out[done..samples].copy_from_slice(&file[done..samples]);
        reverse_numbers(out, one.record.at, Kind::Frame);
        done = samples;
        for slot in &recording.block.slots {
            let span = one.samples(slot);
            done = span.at + span.length;
            let (from, to) = (&file[span.at..done], &mut out[span.at..done]);
            match slot.format {
                Format::Signed16 => each(from, to, |b| {
                    u16::from_ne_bytes(b).swap_bytes().to_ne_bytes()
                }),
                Format::Signed24 => run24(from, to),
                Format::Signed32 | Format::Float32 => each(from, to, |b| {
                    u32::from_ne_bytes(b).swap_bytes().to_ne_bytes()
                }),
            }
        }
    }
    done
}

fn each<const N: usize>(file: &[u8], out: &mut [u8], turned: impl Fn([u8; N]) -> [u8; N]) {
    plain::each(file, out.as_chunks_mut().0, turned);
}

fn samples_of_24(file: &[u8], out: &mut [u8]) {
    each(file, out, |[a, b, c]: [u8; 3]| [c, b, a]);
}

fn run_of_24(file: &[u8], out: &mut [u8]) {
    let eights = file.len() - file.len() % 24;
    each(&file[..eights], &mut out[..eights], eight_of_24);
    samples_of_24(&file[eights..], &mut out[eights..]);
}

/// Eight samples as three words. The middle byte of a sample stays, the first goes two places up and the last two down;
/// where that leads into another word, it is moved by itself.
fn eight_of_24(bytes: [u8; 24]) -> [u8; 24] {
    const A: u64 = 0x00ff_0000_ff00_00ff;
    const B: u64 = A << 8;
    const C: u64 = 0x0000_ff00_00ff_0000;
    let [x, y, z] = [0, 1, 2].map(|n| u64::from_le_bytes(bytes.as_chunks().0[n]));
    let words = [
        x & B | (x & A) << 16 | (x & C) >> 16 | y << 56 >> 8,
        y & C | (y & B) << 16 | (y & A) >> 16 | x << 8 >> 56 | z >> 8 << 56,
        z & A | (z & C) << 16 | (z & B) >> 16 | y >> 56 << 8,
    ];
    let mut turned = [0; 24];
    for (place, word) in turned.as_chunks_mut().0.iter_mut().zip(words) {
        *place = word.to_le_bytes();
    }
    turned
}

#[cfg(test)]
mod tests {
    use super::*;
    use crate::night::Night;
    use second::bytes::Order;

    #[test]
    fn every_width_is_turned_as_it_should() {
        for format in Format::ALL {
            let night = Night::new(format, 7, 3, 5);
            let (file, turned) = (
                night.write(Order::Big).file,
                night.write(Order::Little).file,
            );
            for turn in [turn, turn_by_sample] {
                let mut out = vec![0; file.len()];
                assert_eq!(turn(&file, &mut out), Ok(file.len()));
                assert_eq!(out, turned);
            }
        }
    }
}
