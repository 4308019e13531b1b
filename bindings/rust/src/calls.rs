//! The calls of libpsg.a, as include/psg.h declares them. The one module with `unsafe`: a slice is passed as its
//! pointer and length. What the header asks of a caller holds of slices: their pointers are aligned and not null, even
//! those of empty ones; they are shorter than 2^63 bytes and hold values; one that is written overlaps no other, and
//! nothing else changes either before the call returns.

use crate::Refusal;
use std::mem::{align_of, offset_of, size_of};

/// An answer's values, unless it is a refusal.
pub trait Answer: Sized {
    fn refusal(&self) -> (u32, u64);

    fn answer(self) -> Result<Self, Refusal> {
        match self.refusal() {
            (0, _) => Ok(self),
            (number, position) => Err(Refusal {
                number: number as u8,
                position: position as usize,
            }),
        }
    }
}

/// A struct that the library answers with: the refusal, its position, and the values.
macro_rules! answers {
    ($($name:ident { $($field:ident: $number:ty),* })*) => {
        $(
            #[repr(C)]
            pub struct $name {
                refusal: u32,
                position: u64,
                $(pub $field: $number,)*
            }

            impl Answer for $name {
                fn refusal(&self) -> (u32, u64) {
                    (self.refusal, self.position)
                }
            }
        )*
    };
}

answers! {
    Counted { count: u64 }
    Header { order: u32, script: u32, recordings: u32 }
    Heading { spelling: u32, version: u32, form: u32, order: u32, script: u32, recordings: u32 }
    Facts { channels: u32, frames: u32, seconds: u32 }
    Channel {
        number: i32, flags: i32, kind: i32, format: i32, rate: i32,
        is_float: u32, cal: u32, cal_ad: u32, offset_ad: u32, offset_cal: u32,
        frequency: i32, low_cut: i32, high_cut: i32, sensitivity: i32,
        label: u64, label_length: u64, unit: u64, unit_length: u64, comment: u64, comment_length: u64
    }
    Item { code: i32, text: u64, text_length: u64 }
    Clock { hour: u32, minute: u32, second: u32 }
    Sample { is_float: u32, value: i32, bits: u32 }
    Place { start: u64, width: u64, count: u64 }
    Track {
        order: u32, format: u32, start: u64, width: u64, count: u64, step: u64, frames: u32, seconds: u32
    }
    Kind { kind: u32 }
}

/// A montage's channel. What refuses it is the channel's.
#[repr(C)]
pub struct Montage {
    pub channel: Channel,
    pub g1: i32,
    pub g2: i32,
}

impl Answer for Montage {
    fn refusal(&self) -> (u32, u64) {
        self.channel.refusal()
    }
}

/// A part of the file; it is never refused.
#[repr(C)]
pub struct Part {
    pub start: u64,
    pub length: u64,
}

/// The layout of each answer, as tests/boundary.c has it for C: its size, and where each field lies.
macro_rules! layouts {
    ($($name:ident, $size:literal { $($field:ident $at:literal),* })*) => {
        $(const _: () = {
            assert!(size_of::<$name>() == $size);
            assert!(align_of::<$name>() == 8);
            $(assert!(offset_of!($name, $field) == $at);)*
        };)*

        /// The numbers above, for the test that the C side has the same.
        #[cfg(test)]
        const LAYOUTS: &[(&str, usize, &[(&str, usize)])] =
            &[$((stringify!($name), $size, &[$((stringify!($field), $at)),*])),*];
    };
}

layouts! {
    Counted, 24 { refusal 0, position 8, count 16 }
    Header, 32 { refusal 0, position 8, order 16, script 20, recordings 24 }
    Heading, 40 {
        refusal 0, position 8, spelling 16, version 20, form 24, order 28, script 32, recordings 36
    }
    Facts, 32 { refusal 0, position 8, channels 16, frames 20, seconds 24 }
    Channel, 120 {
        refusal 0, position 8, number 16, flags 20, kind 24, format 28, rate 32, is_float 36,
        cal 40, cal_ad 44, offset_ad 48, offset_cal 52, frequency 56, low_cut 60, high_cut 64, sensitivity 68,
        label 72, label_length 80, unit 88, unit_length 96, comment 104, comment_length 112
    }
    Montage, 128 { channel 0, g1 120, g2 124 }
    Item, 40 { refusal 0, position 8, code 16, text 24, text_length 32 }
    Clock, 32 { refusal 0, position 8, hour 16, minute 20, second 24 }
    Sample, 32 { refusal 0, position 8, is_float 16, value 20, bits 24 }
    Place, 40 { refusal 0, position 8, start 16, width 24, count 32 }
    Track, 64 {
        refusal 0, position 8, order 16, format 20, start 24, width 32, count 40, step 48, frames 56, seconds 60
    }
    Part, 16 { start 0, length 8 }
    Kind, 24 { refusal 0, position 8, kind 16 }
}

/// A call that writes, and its safe call.
macro_rules! writers {
    ($($call:ident, $name:ident($($argument:ident: $number:ty),*) into $element:ty;)*) => {
        extern "C" {
            $(fn $call(
                file: *const u8, length: usize, $($argument: $number,)* out: *mut $element, room: usize,
            ) -> Counted;)*
        }

        $(
            pub fn $name(file: &[u8], $($argument: $number,)* out: &mut [$element]) -> Counted {
                // SAFETY: both are whole slices, and the call keeps neither.
                unsafe {
                    $call(file.as_ptr(), file.len(), $($argument,)* out.as_mut_ptr(), out.len())
                }
            }
        )*
    };
}

writers! {
    psg_table, table() into i64;
    psg_turn, turn() into u8;
    psg_rewrite, rewrite(order: u8) into u8;
    psg_run, run(
        recording: usize, frame: usize, channel: usize, first: usize, number: usize
    ) into i64;
    psg_run_floats, run_floats(
        recording: usize, frame: usize, channel: usize, first: usize, number: usize
    ) into u32;
    psg_index, index() into i64;
}

const _: () =
    assert!(size_of::<f32>() == size_of::<u32>() && align_of::<f32>() == align_of::<u32>());

/// Floats lent by their bits, as the library writes them.
pub fn bits_of(floats: &mut [f32]) -> &mut [u32] {
    // SAFETY: both have one size and alignment (above), and any 32 bits are a value of either.
    unsafe { std::slice::from_raw_parts_mut(floats.as_mut_ptr().cast(), floats.len()) }
}

/// A question of the library, and its safe call.
macro_rules! questions {
    ($($call:ident, $name:ident($($argument:ident),*) -> $answer:ty;)*) => {
        extern "C" {
            $(fn $call(file: *const u8, length: usize, $($argument: usize),*) -> $answer;)*
        }

        $(
            pub fn $name(file: &[u8], $($argument: usize),*) -> $answer {
                // SAFETY: the slice is whole, and the call only reads it.
                unsafe { $call(file.as_ptr(), file.len(), $($argument),*) }
            }
        )*
    };
}

questions! {
    psg_judge, judge() -> Header;
    psg_rewrite_room, rewrite_room() -> Counted;
    psg_header, header() -> Heading;
    psg_facts, facts(recording) -> Facts;
    psg_channel, channel(recording, channel) -> Channel;
    psg_montage_count, montage_count(recording) -> Counted;
    psg_montage, montage(recording, channel) -> Montage;
    psg_patient_item, patient_item(recording, item) -> Item;
    psg_event_item, event_item(recording, item) -> Item;
    psg_clock, clock(recording, frame) -> Clock;
    psg_place, place(recording, frame, channel) -> Place;
    psg_track, track(recording, channel) -> Track;
    psg_sample, sample(recording, frame, channel, sample) -> Sample;
}

extern "C" {
    fn psg_event_kind(code: u64) -> Kind;
    fn psg_part(length: usize, position: usize, width: usize, count: usize) -> Part;
}

/// The one question that is about no file.
pub fn event_kind(code: u64) -> Kind {
    // SAFETY: it is lent nothing.
    unsafe { psg_event_kind(code) }
}

/// The part that these numbers are of a file of so many bytes.
pub fn part(length: usize, position: usize, width: usize, count: usize) -> Part {
    // SAFETY: it is lent nothing.
    unsafe { psg_part(length, position, width, count) }
}

#[cfg(test)]
mod tests {
    use super::LAYOUTS;
    use std::collections::BTreeSet;

    /// Every `SIZE(struct, size)` and `AT(struct, field, place)` of a C text.
    fn said(text: &str) -> BTreeSet<String> {
        let lines = text.lines().map(str::trim);
        let kept = lines.filter(|line| line.starts_with("SIZE(") || line.starts_with("AT("));
        kept.map(str::to_string).collect()
    }

    #[test]
    fn the_c_side_asserts_the_same_layouts() {
        let path = concat!(env!("CARGO_MANIFEST_DIR"), "/../../tests/boundary.c");
        let text = std::fs::read_to_string(path).expect("the C side");
        let mut own = BTreeSet::new();
        for (name, size, fields) in LAYOUTS {
            let name = format!("psg_{}", name.to_lowercase());
            own.insert(format!("SIZE({name}, {size})"));
            own.extend(
                fields
                    .iter()
                    .map(|(field, at)| format!("AT({name}, {field}, {at})")),
            );
        }
        assert_eq!(said(&text), own);
    }
}
