//! The corpus' form: question lines `FILE op args..`, and answer lines
//! `ok values..` or `refused NUMBER POSITION`.

use crate::fnv::fnv1a;
use crate::refusal::Refusal;
use std::fmt::Display;
use std::fs;
use std::path::{Path, PathBuf};

/// A question line taken apart, with the file it is about.
pub struct Question<'a> {
    pub file: &'a [u8],
    pub op: &'a str,
    pub args: Vec<u64>,
}

/// Takes question lines about the files of one folder. Lines about one file
/// mostly stand together, so the last file is kept.
pub struct Desk {
    folder: PathBuf,
    name: String,
    file: Vec<u8>,
}

impl Desk {
    pub fn new(folder: &Path) -> Desk {
        Desk {
            folder: folder.to_path_buf(),
            name: String::new(),
            file: Vec::new(),
        }
    }

    /// The question, or why the line is none.
    pub fn question<'a>(&'a mut self, line: &'a str) -> Result<Question<'a>, String> {
        let mut words = line.split_whitespace();
        let name = words.next().ok_or("an empty line")?;
        let op = words.next().ok_or_else(|| format!("no question: {line}"))?;
        let args = words
            .map(|word| word.parse().map_err(|why| format!("{line}: {why}")))
            .collect::<Result<_, String>>()?;
        self.open(name)?;
        let file = &self.file;
        Ok(Question { file, op, args })
    }

    fn open(&mut self, name: &str) -> Result<(), String> {
        if self.name != name {
            let path = self.folder.join(name);
            self.file = fs::read(&path).map_err(|why| format!("{}: {why}", path.display()))?;
            self.name = name.to_string();
        }
        Ok(())
    }
}

/// The answer line.
pub fn answer_line(answer: Result<String, Refusal>) -> String {
    match answer {
        // A run of no samples has no values.
        Ok(values) if values.is_empty() => "ok".to_string(),
        Ok(values) => format!("ok {values}"),
        Err(refusal) => refusal.to_string(),
    }
}

pub fn joined<T: Display>(values: &[T]) -> String {
    let words: Vec<String> = values.iter().map(T::to_string).collect();
    words.join(" ")
}

/// The values for bytes that were written.
pub fn written(bytes: &[u8]) -> String {
    format!("{} {:016x}", bytes.len(), fnv1a(bytes))
}

/// The values for numbers that a call wrote, of so many entries or epochs.
pub fn counted(entries: usize, numbers: &[i64]) -> String {
    joined(&[&[entries as i64], numbers].concat())
}

/// The values for a table's numbers, `rows` rows of them.
pub fn listed<'a>(rows: usize, numbers: impl Iterator<Item = &'a i64>) -> String {
    let bytes: Vec<u8> = numbers.flat_map(|number| number.to_le_bytes()).collect();
    format!("{rows} {:016x}", fnv1a(&bytes))
}
