//! Table: check the file and list its records.

use crate::judge::judge;
use crate::model::Record;
use crate::refusal::{require_room, Refusal};

/// The numbers of a row: position, length, code, serial.
pub const ROW_NUMBERS: usize = 4;
pub type Row = [i64; ROW_NUMBERS];

pub fn row(record: &Record) -> Row {
    [
        record.at as i64,
        record.length as i64,
        i64::from(record.code),
        i64::from(record.serial),
    ]
}

/// The rows by position, if `room` numbers hold them.
pub fn table(file: &[u8], room: u64) -> Result<Vec<Row>, Refusal> {
    let rows: Vec<Row> = judge(file)?.records.iter().map(row).collect();
    require_room(room, ROW_NUMBERS * rows.len())?;
    Ok(rows)
}
