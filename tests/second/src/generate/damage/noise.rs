//! Damages without regard to structure.

use super::valid;
use crate::generate::sheet::Sheet;
use crate::header;
use crate::random::Random;

pub fn bytes_disturbed(random: &mut Random) -> Sheet {
    let mut sheet = valid(random);
    for _ in 0..random.between(1, 3) {
        let at = random.below(sheet.bytes.len());
        let count = random.pick(&[1, 4, 16]).min(sheet.bytes.len() - at);
        match random.below(6) {
            0 => {
                let inserted = random.bytes(count);
                sheet.bytes.splice(at..at, inserted);
            }
            1 if sheet.bytes.len() > count => {
                sheet.bytes.drain(at..at + count);
            }
            _ => sheet.bytes[at] ^= 1 << random.below(8),
        }
    }
    sheet
}

/// The other letter over the same bytes.
pub fn order_mistaken(random: &mut Random) -> Sheet {
    let mut sheet = valid(random);
    sheet.bytes[header::ORDER_AT] = sheet.order.other().letter();
    sheet
}

/// A good header, then anything.
pub fn garbage(random: &mut Random) -> Sheet {
    let mut sheet = valid(random);
    sheet.bytes.truncate(header::LENGTH);
    let count = random.below(200);
    let anything = random.bytes(count);
    sheet.bytes.extend(anything);
    sheet
}
