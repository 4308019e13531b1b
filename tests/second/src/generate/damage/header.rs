//! Damages of the file header.

use super::{small_plan, valid};
use crate::generate::draw;
use crate::generate::sheet::{write, Sheet};
use crate::header;
use crate::random::Random;

/// Nearly one of the two spellings: part of each, other letters, another place.
pub const NO_IDENTIFIERS: [&[u8; header::IDENTIFIER_LENGTH]; 16] = [
    b"JSSR-SSG",
    b"JSSR-PPG",
    b"JSSR-SGP",
    b"JSSR-PGS",
    b"JSSR-GSP",
    b"JSSR-GPS",
    b"JSSR-PSP",
    b"JSSR-SPS",
    b"jssr-spg",
    b"jssr-psg",
    b"JSSR_SPG",
    b"JSSR PSG",
    b"JSSRSPG ",
    b" JSSRPSG",
    b"JSSR-PS\0",
    b"PSG-JSSR",
];

/// Nearly one of the two forms.
pub const NO_FORMS: [&[u8; header::FORM_LENGTH]; 7] =
    [b"02", b"02", b"10", b"11", b"1 ", b" 1", b"0 "];

/// Nearly one of the versions.
const NO_VERSIONS: [&[u8; header::VERSION_LENGTH]; 8] = [
    b"000101", b"000120", b"000210", b"000310", b"000400", b"000000", b"001000", b"00100 ",
];

pub fn wrong_header(random: &mut Random) -> Sheet {
    const FIELDS: usize = 7;
    let mut sheet = valid(random);
    let first = random.below(FIELDS);
    spoil_header(random, &mut sheet.bytes, first);
    for later in first + 1..FIELDS {
        if random.chance(15) {
            spoil_header(random, &mut sheet.bytes, later);
        }
    }
    sheet
}

/// Neither spelling, but nearly one.
pub fn wrong_identifier(random: &mut Random) -> Sheet {
    let plan = small_plan(random);
    let mut sheet = write(random, &plan);
    let other = random.pick(&NO_IDENTIFIERS);
    let end = header::IDENTIFIER_AT + other.len();
    sheet.bytes[header::IDENTIFIER_AT..end].copy_from_slice(other);
    sheet
}

pub fn short_file(random: &mut Random) -> Sheet {
    let mut sheet = valid(random);
    let length = random.below(header::LENGTH + 1);
    sheet.bytes.truncate(length);
    sheet
}

pub fn wrong_recording_count(random: &mut Random) -> Sheet {
    let mut plan = small_plan(random);
    let count = plan.recordings.len();
    let others = [count - 1, count + 1, count + 1, header::MOST_RECORDINGS];
    let other = random.pick(&others);
    plan.digits = draw::digits(random, other);
    write(random, &plan)
}

fn spoil_header(random: &mut Random, bytes: &mut [u8], field: usize) {
    match field {
        0 => spoil_text(random, bytes, header::IDENTIFIER_AT, &NO_IDENTIFIERS),
        1 => spoil_text(random, bytes, header::VERSION_AT, &NO_VERSIONS),
        2 => spoil_text(random, bytes, header::FORM_AT, &NO_FORMS),
        3 => bytes[header::ORDER_AT] = random.pick(b"lbLB X\0M"),
        4 => bytes[header::SCRIPT_AT] = random.pick(b"sjeuSJEU AT\0"),
        5 => spoil_digits(random, bytes),
        _ => {
            let spaces = header::LENGTH - header::SPACES_AT;
            bytes[header::SPACES_AT + random.below(spaces)] = random.pick(b"\0!0\n\x1fX");
        }
    }
}

/// One of the other texts, or one bit changed.
fn spoil_text<const N: usize>(
    random: &mut Random,
    bytes: &mut [u8],
    at: usize,
    others: &[&[u8; N]],
) {
    let field = &mut bytes[at..at + N];
    if random.chance(30) {
        let other = random.pick(others);
        field.copy_from_slice(other);
    } else {
        field[random.below(N)] ^= 1 << random.below(8);
    }
}

fn spoil_digits(random: &mut Random, bytes: &mut [u8]) {
    const FIELDS: [&[u8]; 16] = [
        b"    ", b"0   ", b"00  ", b"0000", b"65  ", b"065 ", b"0065", b"9999", b" 1  ", b"   1",
        b"1 1 ", b"1\0\0\0", b"+1  ", b"1.  ", b"-1  ", b"1  0",
    ];
    let at = header::RECORDINGS_AT;
    let field = &mut bytes[at..at + header::RECORDINGS_LENGTH];
    if random.chance(80) {
        field.copy_from_slice(random.pick(&FIELDS));
    } else {
        field[random.below(header::RECORDINGS_LENGTH)] = random.word() as u8;
    }
}
