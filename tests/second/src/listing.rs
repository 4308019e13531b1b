//! What the program `listing` prints for a file.

use crate::table::table;
use std::fmt::Write;

/// The bytes `listing` reads.
pub const MOST_BYTES: usize = 32_768;

/// A line a record, or the refusal. A longer file is refused before it is judged.
pub fn listing(file: &[u8]) -> String {
    if file.len() > MOST_BYTES {
        return format!("refused 17 at {MOST_BYTES}\n");
    }
    match table(file, u64::MAX) {
        Err(refusal) => format!("refused {} at {}\n", refusal.number, refusal.at),
        Ok(rows) => {
            let mut lines = String::new();
            for [at, length, code, serial] in rows {
                writeln!(lines, "{at} {length} {code} {serial}").expect("a string takes all");
            }
            lines
        }
    }
}
