//! The overview of files made from the smallest one (562 bytes), by hand: every width and order, epochs without a
//! frame's start, and refusals.

use overview::{epochs, overview, overview_range, Envelope, Refusal};

fn put(file: &mut [u8], numbers: &[(usize, u32)]) {
    for &(at, number) in numbers {
        file[at..at + 4].copy_from_slice(&number.to_le_bytes());
    }
}

/// One channel of a format, with frames of so many seconds, and in each of them these samples.
fn made<const WIDTH: usize>(format: u32, seconds: u32, frames: &[Vec<[u8; WIDTH]>]) -> Vec<u8> {
    let mut file = std::fs::read("../../crates/listing/stdin").expect("the sample file");
    let head: Vec<u8> = file.drain(520..546).take(24).collect();
    let length = (24 + WIDTH * frames[0].len()) as u32;
    let mut all = Vec::new();
    for (serial, samples) in (1..).zip(frames) {
        let at = all.len();
        all.extend(&head);
        all.extend(samples.concat());
        put(&mut all, &[(at, length), (at + 8, serial)]);
    }
    let (count, bytes) = (frames.len() as u32, all.len() as u32);
    file.splice(520..520, all);
    // The sizes of the 10 and the 140, and F of the 100; T, the frame length and F of the 140.
    put(
        &mut file,
        &[(32, 504 + bytes), (488, 32 + bytes), (72, count)],
    );
    put(&mut file, &[(504, seconds), (508, length), (512, count)]);
    // As a period the samples are so many a frame, whatever its seconds; without any the channel is OFF. The longest
    // period is one sample in an hour.
    let period = (1_000_000 * seconds).checked_div(frames[0].len() as u32);
    let period = period.map(|period| period.min(i32::MAX as u32));
    let kind = u32::from(period.is_some());
    put(&mut file, &[(228, 1), (232, kind)]);
    put(&mut file, &[(236, format), (240, period.unwrap_or(0))]);
    file
}

/// A file and the one turned from it.
fn both_orders(file: Vec<u8>) -> [Vec<u8>; 2] {
    [psg::turned(&file).unwrap(), file]
}

fn envelope(smallest: i64, largest: i64, count: usize) -> Option<Envelope> {
    Some(Envelope {
        smallest,
        largest,
        count,
    })
}

fn refused<T>(number: u8, position: usize) -> Result<T, Refusal> {
    Err(Refusal { number, position })
}

/// The epochs one by one, as every range with marks behind it, and all at once.
fn epochs_hold(file: &[u8], expected: &[Option<Envelope>]) {
    assert_eq!(epochs(file, 1, 1).unwrap(), expected);
    for (epoch, samples) in expected.iter().enumerate() {
        assert_eq!(overview(file, 1, 1, epoch), Ok(*samples));
    }
    assert_eq!(overview(file, 1, 1, expected.len()), refused(19, 0));
    for first in 0..expected.len() {
        for number in 0..=expected.len() - first {
            let mut out = vec![-77; 3 * number + 2];
            let counted = overview_range(file, 1, 1, first, number, &mut out);
            assert_eq!(counted, Ok(number));
            let numbers = expected[first..first + number].iter().flat_map(numbers);
            assert_eq!(out[..3 * number], numbers.collect::<Vec<i64>>());
            assert_eq!(out[3 * number..], [-77, -77]);
        }
    }
}

fn numbers(samples: &Option<Envelope>) -> [i64; 3] {
    let of = |samples: &Envelope| [samples.smallest, samples.largest, samples.count as i64];
    samples.as_ref().map_or([0; 3], of)
}

#[test]
fn every_width_has_its_extremes() {
    let of_16 = [vec![[0, 0x80], [0xff, 0x7f]], vec![[5, 0], [4, 0]]];
    for file in both_orders(made(1, 30, &of_16)) {
        epochs_hold(&file, &[envelope(-32768, 32767, 2), envelope(4, 5, 2)]);
    }
    let of_24 = vec![[0, 0, 0x80], [0xff, 0xff, 0xff], [0xff, 0xff, 0x7f]];
    for file in both_orders(made(2, 1, &[of_24.clone(), of_24])) {
        epochs_hold(&file, &[envelope(-8_388_608, 8_388_607, 6)]);
    }
    let of_32 = [i32::MIN, i32::MAX, -1].map(i32::to_le_bytes);
    let frames = [of_32.to_vec(), of_32[2..].repeat(3)];
    for file in both_orders(made(3, 20, &frames)) {
        let whole = envelope(i32::MIN.into(), i32::MAX.into(), 6);
        epochs_hold(&file, &[whole, None]);
    }
}

#[test]
fn an_epoch_has_the_frames_that_start_in_it() {
    let frames: Vec<Vec<[u8; 2]>> = (1..=13).map(|number| vec![[number, 0]]).collect();
    // The last epoch starts a second before the end, behind the start of the last frame.
    for file in both_orders(made(1, 7, &frames)) {
        let starts = [envelope(1, 5, 5), envelope(6, 9, 4), envelope(10, 13, 4)];
        epochs_hold(&file, &[&starts[..], &[None]].concat());
    }
    for file in both_orders(made(1, 45, &frames[..3])) {
        let [one, two, three] = [1, 2, 3].map(|number| envelope(number, number, 1));
        epochs_hold(&file, &[one, two, None, three, None]);
    }
    for file in both_orders(made(1, 3600, &frames[..1])) {
        let mut expected = vec![None; 120];
        expected[0] = envelope(1, 1, 1);
        assert_eq!(epochs(&file, 1, 1), Ok(expected));
    }
}

#[test]
fn without_samples_every_epoch_is_empty_and_floats_are_outside() {
    for format in [1, 2, 3] {
        for file in both_orders(made::<0>(format, 20, &[vec![], vec![]])) {
            epochs_hold(&file, &[None, None]);
        }
    }
    let floats = made(4, 20, &[vec![[0; 4]]]);
    for file in [floats, made::<0>(4, 20, &[vec![]])] {
        assert!(psg::judge(&file).is_ok());
        assert_eq!(overview(&file, 1, 1, 0), refused(19, 0));
        assert_eq!(overview_range(&file, 1, 1, 0, 0, &mut []), refused(19, 0));
        assert_eq!(epochs(&file, 1, 1), refused(19, 0));
    }
}

#[test]
fn no_argument_is_too_large() {
    const MOST: usize = usize::MAX;
    let file = made(1, 30, &vec![vec![[7, 0]]; 3]);
    let mut out = [-77; 9];
    for (first, number) in [
        (0, 4),
        (3, 1),
        (4, 0),
        (MOST, 0),
        (MOST, 1),
        (1, MOST),
        (1 << 63, 1 << 63),
        // Thirty times these are 14 and 0 in 64 bits, and three times as many numbers are 2.
        (MOST / 30 + 1, 0),
        (1 << 63, 0),
        (0, MOST / 3 + 1),
    ] {
        for room in [0, 9] {
            let range = overview_range(&file, 1, 1, first, number, &mut out[..room]);
            assert_eq!(range, refused(19, 0), "{first} {number}");
        }
        if number == 0 {
            assert_eq!(overview(&file, 1, 1, first), refused(19, 0));
        }
    }
    for (recording, channel) in [(0, 1), (2, 1), (1, 0), (1, 2), (MOST, MOST)] {
        assert_eq!(overview(&file, recording, channel, 0), refused(19, 0));
        assert_eq!(epochs(&file, recording, channel), refused(19, 0));
        let range = overview_range(&file, recording, channel, 0, 0, &mut out);
        assert_eq!(range, refused(19, 0));
    }
    // The end of the recording is where the fourth epoch would start.
    assert_eq!(overview_range(&file, 1, 1, 3, 0, &mut out), Ok(0));
    assert_eq!(out, [-77; 9]);
}

#[test]
fn a_refused_range_leaves_the_buffer() {
    let file = made(1, 30, &vec![vec![[7, 0]]; 3]);
    let mut out = [-77; 9];
    for (number, room) in [(3, 8), (3, 3), (3, 0), (1, 2)] {
        let range = overview_range(&file, 1, 1, 0, number, &mut out[..room]);
        assert_eq!(range, refused(17, 3 * number));
    }
    let cut = &file[..file.len() - 1];
    assert_eq!(overview_range(cut, 9, 9, 9, 9, &mut out), refused(10, 32));
    assert_eq!(overview(cut, 9, 9, 9), refused(10, 32));
    assert_eq!(epochs(cut, 1, 1), refused(10, 32));
    assert_eq!(out, [-77; 9]);
}
