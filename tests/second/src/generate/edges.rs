//! The values on both sides of each rule's edges.

use super::sheet::{Field, Place, Sheet};
use crate::random::Random;
use crate::record::{self, Extent, Kind};

/// Values any field may be set to, beside its own edges.
fn common(random: &mut Random, now: i32) -> i32 {
    let one_bit = now ^ (1 << random.below(32));
    let any = random.word() as i32;
    random.pick(&[
        now.wrapping_add(1),
        now.wrapping_sub(1),
        now.swap_bytes(),
        now.wrapping_neg(),
        one_bit,
        0,
        -1,
        i32::MAX,
        i32::MIN,
        any,
    ])
}

/// A value at or near an edge of the field's rule.
pub fn value(random: &mut Random, sheet: &Sheet, place: &Place) -> i32 {
    let now = sheet.get(place);
    if random.chance(20) {
        return common(random, now);
    }
    match place.field {
        Field::Size(_) => size(random, sheet, place),
        Field::Code(kind) => code(random, kind, now),
        Field::Serial(_) => serial(random, now),
        Field::Multiplier(kind) => multiplier(random, kind),
        field => random.pick(&edges(field, now)),
    }
}

/// Sizes about the least length of each kind, and about the parent's end.
fn size(random: &mut Random, sheet: &Sheet, place: &Place) -> i32 {
    const LEASTS: [i32; 7] = [8, 16, 24, 32, 128, 256, 288];
    let now = sheet.get(place);
    let record = sheet.record_at(place.at);
    let own = match record.kind.rules().extent {
        Extent::Fixed(size) => size,
        Extent::AtLeast(length) => length as i32,
    };
    let multiplier_at = place.at + record::MULTIPLIER_AT;
    let times = sheet.order.i32_at(&sheet.bytes, multiplier_at).max(1);
    let to_parent_end = (record.parent_end - record.at) as i32 / times;
    match random.below(4) {
        0 => own / times + random.between(-1, 1),
        1 => to_parent_end + random.between(-1, 2),
        2 => random.pick(&LEASTS) + random.between(-1, 1),
        _ => now.wrapping_add(random.pick(&[-257, -256, -16, -2, -1, 1, 2, 16, 127, 128, 256])),
    }
}

/// Other records' codes, codes left out, and the least maker's code.
fn code(random: &mut Random, kind: Kind, now: i32) -> i32 {
    const CODES: [i32; 26] = [
        0, 10, 100, 120, 125, 130, 140, 145, 200, 320, 325, 350, 355, 1, 99, 101, 110, 121, 131,
        141, 146, 150, 155, 160, 165, 201,
    ];
    const MAKERS: [i32; 6] = [1023, 1024, 1025, 4096, 65_536, i32::MAX];
    match random.below(4) {
        0 => random.pick(&MAKERS),
        1 if kind != Kind::Maker => now.wrapping_add(random.pick(&[-1, 1, 256])),
        _ => random.pick(&CODES),
    }
}

fn serial(random: &mut Random, now: i32) -> i32 {
    random.pick(&[
        now.wrapping_add(1),
        now.wrapping_sub(1),
        0,
        1,
        2,
        -1,
        1 << 24,
    ])
}

fn multiplier(random: &mut Random, kind: Kind) -> i32 {
    let most = record::MOST_MULTIPLIER;
    if kind.rules().multiplied && random.chance(50) {
        return random.pick(&[-1, most + 1, most + 2, 256, i32::MAX, i32::MIN]);
    }
    random.pick(&[-1, 0, 1, 2, 3, 8, 16, most - 1, most, most + 1])
}

/// How many edges a field after the head has: the more, the oftener it is set.
pub fn count(field: Field) -> usize {
    if field.in_head() {
        0
    } else {
        edges(field, 0).len()
    }
}

/// The edges of the fields after the head.
fn edges(field: Field, now: i32) -> Vec<i32> {
    let steps: &[i32] = match field {
        Field::FrameLength => &[-127, -1, 1, 126, 127, 128],
        _ => &[-1, 1],
    };
    let near: Vec<i32> = steps.iter().map(|step| now.wrapping_add(*step)).collect();
    let own: &[i32] = match field {
        Field::DataForm => &[0, 2, 3, 256],
        Field::ChannelCount | Field::SubCount(_) => &[-1, 0, 1, 127, 128, 129],
        Field::TotalFrames => &[-1, 0, 1, 999_999, 1_000_000, 1_000_001],
        Field::Year => &[-1, 0, 1, 1900, 2000, 2023, 9999, 10_000],
        Field::Month => &[-1, 0, 1, 2, 4, 12, 13],
        Field::Day => &[-1, 0, 1, 28, 29, 30, 31, 32],
        Field::Hour => &[-1, 0, 22, 23, 24, 25, 256],
        Field::ClockHour => &[-1, 0, 22, 23, 24, 25, 256, 0x8000],
        Field::Minute | Field::Second => &[-1, 0, 58, 59, 60, 61, 256],
        Field::ClockMinute | Field::ClockSecond => &[-1, 0, 58, 59, 60, 61, 256, 0x8000],
        Field::Mains => &[-1, 0, 1, 49, 50, 51, 55, 59, 60, 61, 100],
        Field::SubSize(_) => &[-1, 0, 16, 255, 257, 512],
        Field::ElectrodeCode => &[-1, 0, 1, 23, -0x8000, i32::MIN],
        Field::Lead1 | Field::Lead2 => &[
            -1,
            0,
            1,
            2,
            3,
            4,
            0xffff,
            0x1_0000,
            0x3_ffff,
            0x4_0000,
            0x4_0001,
            0x7fff_0001,
            i32::MIN,
        ],
        Field::Flags(_) => &[-2, -1, 0, 1, 2, 3],
        Field::Type(_) => &[-1, 0, 17, 18, 19, 20, 21, 100, 101, 101, 102],
        Field::Format(_) => &[-1, 0, 1, 2, 3, 4, 5],
        Field::Rate(_) => &[
            -1,
            0,
            1,
            2,
            3,
            7,
            3906,
            999_999,
            1_000_000,
            1_000_001,
            2_000_000,
            i32::MAX,
        ],
        Field::ItemCount(_) => &[-1, 0, 1, 255, 256, 257],
        Field::ItemSize(_) => &[-1, 0, 7, 8, 9, 16, i32::MAX],
        Field::ItemCode(Kind::Patient) => &[
            -1, 0, 1, 2, 10, 11, 14, 15, 20, 21, 26, 27, 100, 101, 107, 108, 200, 201, 202, 209,
            210, 211, 219, 220, 221, 300, 301, 399, 400,
        ],
        Field::ItemCode(_) => &[
            -1, 0, 1, 4095, 4096, 8191, 8192, 12_287, 12_288, 57_343, 57_344, 61_439, 61_440,
            65_535, 65_536, 69_632,
        ],
        Field::Seconds => &[-1, 0, 1, 2, 3, 7, 10, 3599, 3600, 3601],
        Field::FrameLength => &[-1, 0, 23, 24, 25],
        Field::FrameCount => &[-1, 0, 1, 2, 1_000_000],
        Field::Size(_) | Field::Code(_) | Field::Serial(_) | Field::Multiplier(_) => &[],
    };
    [&near[..], own].concat()
}
