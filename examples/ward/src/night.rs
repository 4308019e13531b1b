//! Files with one channel, and a night of breath to draw: made by a rule, the same on every machine.

use std::ops::Range;

/// A file of one recording with one channel of 16 bits, of this label: frames of so many seconds from this clock on,
/// each with these samples, as many in each, by a whole rate.
pub fn file(label: &str, clock: [i32; 3], seconds: usize, frames: &[Vec<i16>]) -> Vec<u8> {
    let samples = frames[0].len();
    let (length, count) = (24 + 2 * samples, frames.len());
    let signals = 32 + count * length;
    let [hour, minute, second] = clock;
    let mut page = Page(b"JSSR-SPG00030000LE1             ".to_vec());
    page.head(16 + 128 + 288 + 24 + signals + 16, 10, 1);
    page.head(128, 100, 0);
    page.numbers(&[1, 1, count as i32, 0, 2026, 11, 17, hour, minute, second]);
    page.text("", 20);
    page.numbers(&[50, 0, 0, 0, 0]);
    page.text("made to be drawn", 32);
    page.head(288, 120, 0);
    page.numbers(&[1, 256, 0, 0]);
    page.head(256, 125, 1);
    page.numbers(&[1, 0, 8, 1, (samples / seconds) as i32]);
    page.numbers(&[0; 9]);
    page.text(label, 16);
    page.text("", 16);
    page.numbers(&[0; 23]);
    page.text("", 60);
    page.head(24, 130, 0);
    page.numbers(&[0; 2]);
    page.head(signals, 140, 0);
    page.numbers(&[seconds as i32, length as i32, count as i32, 0]);
    let start = (hour * 60 + minute) * 60 + second;
    for (index, samples) in frames.iter().enumerate() {
        page.head(length, 145, index as i32 + 1);
        let time = start + (index * seconds) as i32;
        page.words(&[time / 3600 % 24, time / 60 % 60, time % 60, 0].map(|part| part as i16));
        page.words(samples);
    }
    page.numbers(&[0; 4]);
    page.0
}

/// The file as far as it is written, the low byte first.
struct Page(Vec<u8>);

impl Page {
    fn head(&mut self, length: usize, code: i32, serial: i32) {
        self.numbers(&[length as i32, code, serial, 0]);
    }

    fn numbers(&mut self, numbers: &[i32]) {
        self.0.extend(numbers.iter().flat_map(|n| n.to_le_bytes()));
    }

    fn words(&mut self, words: &[i16]) {
        self.0
            .extend(words.iter().flat_map(|word| word.to_le_bytes()));
    }

    /// A text, and spaces up to its length.
    fn text(&mut self, text: &str, length: usize) {
        let end = self.0.len() + length;
        self.0.extend(text.as_bytes());
        self.0.resize(end, b' ');
    }
}

const HOUR: usize = 3600;
const RATE: usize = 25;

/// Eight hours of the breath's flow at 25 Hz, from 22:40 on: shallower from two to three o'clock, with arousals, and
/// with the lead off from 04:50 to 05:02.
pub fn night() -> Vec<u8> {
    let mut breath = Breath::new();
    let frames: Vec<Vec<i16>> = (0..8 * HOUR).map(|second| breath.second(second)).collect();
    file("Flow", [22, 40, 0], 1, &frames)
}

/// The hour of shallow breath and the minutes without a lead, from the start on.
const SHALLOW: Range<usize> = 12_000..15_600;
const OFF: Range<usize> = 22_200..22_920;

/// The share of a breath in a second, and how strong the flow of one is.
const PACE: f64 = 0.24;
const FLOW: f64 = 900.0;

/// In and out again, and how long sleep takes from light to deep and back.
const IN: f64 = 0.42;
const CYCLE: usize = 5400;

/// Where a breath is, how fast and how deep it goes, and how much deeper for an arousal.
struct Breath {
    chance: u64,
    phase: f64,
    pace: f64,
    depth: f64,
    aroused: f64,
}

impl Breath {
    fn new() -> Breath {
        Breath {
            chance: 14,
            phase: 0.0,
            pace: PACE,
            depth: 1.0,
            aroused: 0.0,
        }
    }

    /// A number from -1 to 1, by chance.
    fn drawn(&mut self) -> f64 {
        self.chance = self.chance.wrapping_mul(6_364_136_223_846_793_005);
        self.chance = self.chance.wrapping_add(1_442_695_040_888_963_407);
        (self.chance >> 33) as f64 / (1_u64 << 30) as f64 - 1.0
    }

    /// The samples of a second. Pace and depth wander, and drift to what they are at this time of the night; an arousal
    /// comes by chance, and fades.
    fn second(&mut self, second: usize) -> Vec<i16> {
        self.pace += 0.01 * self.drawn() + (PACE - self.pace) / 16.0;
        self.depth += 0.035 * self.drawn() + (usual(second) - self.depth) / 80.0;
        let (comes, how_much) = (self.drawn(), self.drawn());
        self.aroused *= 0.95;
        if comes > 0.997 {
            self.aroused = 1.1 + 0.8 * how_much;
        }
        if OFF.contains(&second) {
            return vec![0; RATE];
        }
        let flow = FLOW * (self.depth.max(0.2) + self.aroused);
        (0..RATE).map(|_| self.sample(flow)).collect()
    }

    /// Two bows: the way out is longer than the way in, and not as strong. Some noise is about them.
    fn sample(&mut self, flow: f64) -> i16 {
        self.phase = (self.phase + self.pace / RATE as f64).fract();
        let share = match self.phase {
            phase if phase < IN => bow(phase / IN),
            phase => -0.72 * bow((phase - IN) / (1.0 - IN)),
        };
        (flow * share + 25.0 * self.drawn()) as i16
    }
}

/// How deep a breath usually is at a second of the night.
fn usual(second: usize) -> f64 {
    if SHALLOW.contains(&second) {
        return 0.45;
    }
    let share = (second % CYCLE) as f64 / CYCLE as f64;
    1.15 - 0.35 * bow(share)
}

/// Up to 1 and back, as a parabola: 0 at 0 and at 1.
fn bow(share: f64) -> f64 {
    4.0 * share * (1.0 - share)
}
