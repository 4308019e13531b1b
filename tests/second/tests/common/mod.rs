//! Files put together by hand, record by record, apart from the generator.

#![allow(dead_code)]

use second::bytes::Order;

/// Writes records in one byte order.
#[derive(Clone, Copy)]
pub struct Pen(pub Order);

impl Pen {
    pub fn numbers(self, numbers: &[i32]) -> Vec<u8> {
        let mut out = vec![0; 4 * numbers.len()];
        for (index, number) in numbers.iter().enumerate() {
            self.0.put(&mut out, 4 * index, 4, *number);
        }
        out
    }

    /// A record of `size` whose body is filled with zeros to its length.
    pub fn record(self, head: [i32; 4], body: &[u8]) -> Vec<u8> {
        let length = head[0] * head[3].max(1);
        let mut out = self.numbers(&head);
        out.extend(body);
        assert!(out.len() <= length as usize);
        out.resize(length as usize, 0);
        out
    }

    pub fn overview(self, channels: i32, frames: i32) -> Vec<u8> {
        self.record([128, 100, 0, 0], &self.numbers(&[1, channels, frames]))
    }

    /// Channels of flags, type, format and rate.
    pub fn channels(self, channels: &[[i32; 4]]) -> Vec<u8> {
        self.list(120, channels.iter().map(|fields| self.numbers(fields)))
    }

    /// Electrodes of the same.
    pub fn electrodes(self, electrodes: &[[i32; 4]]) -> Vec<u8> {
        self.list(320, electrodes.iter().map(|fields| self.numbers(fields)))
    }

    /// Montage channels of G1 and G2.
    pub fn montage(self, leads: &[[i32; 2]]) -> Vec<u8> {
        let sub = |leads| [vec![0; 104 - 20], self.numbers(leads)].concat();
        self.list(350, leads.iter().map(|leads| sub(leads)))
    }

    /// A list of subs, whose code is 5 more. Each is given from its flags on; its
    /// number is its serial.
    fn list(self, code: i32, subs: impl ExactSizeIterator<Item = Vec<u8>>) -> Vec<u8> {
        let count = subs.len() as i32;
        let mut body = self.numbers(&[count, 256, 0, 0]);
        for (serial, sub) in (1..).zip(subs) {
            let fields = [self.numbers(&[serial]), sub].concat();
            body.extend(self.record([256, code + 5, serial, 0], &fields));
        }
        self.record([32 + 256 * count, code, 0, 0], &body)
    }

    /// 130 or 200 with items of code and text.
    pub fn items(self, code: i32, items: &[(i32, &[u8])]) -> Vec<u8> {
        let mut body = self.numbers(&[items.len() as i32, 0]);
        for (code, text) in items {
            body.extend(self.numbers(&[8 + text.len() as i32, *code]));
            body.extend(*text);
        }
        self.record([16 + body.len() as i32, code, 0, 0], &body)
    }

    /// A frame of one length and multiplier, its samples, then padding.
    pub fn frame(self, serial: i32, length: i32, multiplier: i32, samples: &[u8]) -> Vec<u8> {
        let mut body = vec![0; 8];
        body.extend(samples);
        let size = length / multiplier.max(1);
        self.record([size, 145, serial, multiplier], &body)
    }

    /// 140 whose length is a multiple of its multiplier.
    pub fn frames(self, seconds: i32, multiplier: i32, frames: &[Vec<u8>]) -> Vec<u8> {
        let frame_length = frames[0].len() as i32;
        let mut body = self.numbers(&[seconds, frame_length, frames.len() as i32, 0]);
        body.extend(frames.concat());
        let times = multiplier.max(1) as usize;
        let size = (16 + body.len()).div_ceil(times) as i32;
        self.record([size, 140, 0, multiplier], &body)
    }

    pub fn recording(self, serial: i32, multiplier: i32, parts: &[Vec<u8>]) -> Vec<u8> {
        let mut body = parts.concat();
        body.extend([0; 16]);
        let times = multiplier.max(1) as usize;
        let size = (16 + body.len()).div_ceil(times) as i32;
        self.record([size, 10, serial, multiplier], &body)
    }

    pub fn file(self, recordings: &[Vec<u8>]) -> Vec<u8> {
        let count = recordings.len();
        let letter = self.0.letter() as char;
        let mut out = format!("JSSR-SPG00030000{letter}E{count:<14}").into_bytes();
        assert_eq!(out.len(), 32);
        out.extend(recordings.concat());
        out
    }

    /// The smallest file with samples: 562 bytes.
    pub fn smallest(self) -> Vec<u8> {
        let sample = [0xff, 0x7f];
        self.file(&[self.recording(
            1,
            0,
            &[
                self.overview(1, 1),
                self.channels(&[[0, 1, 1, 1]]),
                self.items(130, &[]),
                self.frames(1, 0, &[self.frame(1, 26, 0, &sample)]),
            ],
        )])
    }

    /// The smallest file of electrodes with a montage: 850 bytes.
    pub fn smallest_electrodes(self) -> Vec<u8> {
        let sample = [0xff, 0x7f];
        of_electrodes(self.file(&[self.recording(
            1,
            0,
            &[
                self.overview(1, 1),
                self.electrodes(&[[0, 1, 1, 1]]),
                self.items(130, &[]),
                self.montage(&[[1, 0]]),
                self.frames(1, 0, &[self.frame(1, 26, 0, &sample)]),
            ],
        )]))
    }

    /// Sets numbers of a file, each at its position.
    pub fn set(self, file: &[u8], changes: &[(usize, i32)]) -> Vec<u8> {
        let mut out = file.to_vec();
        for (at, value) in changes {
            self.0.put(&mut out, *at, 4, *value);
        }
        out
    }
}

/// The file labelled as one of electrodes.
pub fn of_electrodes(mut file: Vec<u8>) -> Vec<u8> {
    file[14..16].copy_from_slice(b"01");
    file
}

/// The file with another identifier.
pub fn spelled(file: &[u8], identifier: &[u8; 8]) -> Vec<u8> {
    [identifier, &file[8..]].concat()
}

pub const PENS: [Pen; 2] = [Pen(Order::Little), Pen(Order::Big)];
