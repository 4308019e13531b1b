//! The comparison with a corpus: every NAME.out, and every question line. `make` makes one.

mod epochs;
mod events;
pub mod make;
pub mod shown;

use crate::ask::answer_to;
use crate::lines::Desk;
use crate::listing::listing;
use std::fs;
use std::io;
use std::path::{Path, PathBuf};

/// The names of a corpus' question lines. Those of single requests may stand apart: of
/// request 3, `header`, of request 1, `montage_count` and `montage`, of request 4,
/// `run_int` and `run_float`, of request 7, `index` and `event_kind`, of request 8, `place`,
/// of request 14, `overview`, and of request 9, `teach`.
const QUESTIONS: &[&str] = &[
    "questions",
    "questions-3",
    "questions-1",
    "questions-4",
    "questions-7",
    "questions-8",
    "questions-14",
    "questions-9",
];

#[derive(Clone, Debug, Default, PartialEq, Eq)]
pub struct Comparison {
    pub files: usize,
    pub questions: usize,
    pub differences: Vec<String>,
}

pub fn compare(folder: &Path) -> io::Result<Comparison> {
    let mut comparison = Comparison::default();
    for out in outputs(folder)? {
        comparison.files += 1;
        comparison.differences.extend(listing_difference(&out)?);
    }
    for name in QUESTIONS {
        compare_questions(folder, name, &mut comparison)?;
    }
    Ok(comparison)
}

/// Every NAME.out, by name.
fn outputs(folder: &Path) -> io::Result<Vec<PathBuf>> {
    let mut paths = Vec::new();
    for entry in fs::read_dir(folder)? {
        let path = entry?.path();
        if path.extension().is_some_and(|extension| extension == "out") {
            paths.push(path);
        }
    }
    paths.sort();
    Ok(paths)
}

fn listing_difference(out: &Path) -> io::Result<Option<String>> {
    let expected = fs::read_to_string(out)?;
    let bin = out.with_extension("bin");
    let own = listing(&fs::read(&bin)?);
    let differs = own != expected;
    Ok(differs.then(|| describe(&bin.display().to_string(), &expected, &own)))
}

fn escaped(line: &str) -> String {
    line.escape_debug().to_string()
}

/// The first line in which two outputs differ.
pub fn describe(name: &str, theirs: &str, own: &str) -> String {
    let (mut theirs, mut own) = (theirs.split('\n'), own.split('\n'));
    for line in 1.. {
        let (their_line, own_line) = (theirs.next(), own.next());
        if their_line != own_line {
            let show = |line: Option<&str>| line.map_or("(nothing)".into(), escaped);
            let (their_line, own_line) = (show(their_line), show(own_line));
            return format!("{name}: line {line}: `{their_line}`, here `{own_line}`");
        }
        if their_line.is_none() {
            break;
        }
    }
    format!("{name}: no difference")
}

/// The question lines of one name, NAME.ask and NAME.ans, where the corpus has them.
fn compare_questions(folder: &Path, name: &str, comparison: &mut Comparison) -> io::Result<()> {
    let asked = folder.join(name).with_extension("ask");
    if !asked.exists() {
        return Ok(());
    }
    let answers = fs::read_to_string(asked.with_extension("ans"))?;
    let asked = fs::read_to_string(asked)?;
    let mut answers = answers.lines();
    let mut desk = Desk::new(folder);
    for line in asked.lines() {
        comparison.questions += 1;
        let expected = answers.next().unwrap_or("(nothing)");
        let own = answer_to(&mut desk, line).unwrap_or_else(|why| why);
        if own != expected {
            let difference = format!("{line}: `{expected}`, here `{own}`");
            comparison.differences.push(difference);
        }
    }
    for extra in answers {
        let difference = format!("an answer without a question: {extra}");
        comparison.differences.push(difference);
    }
    Ok(())
}

#[cfg(test)]
mod tests {
    use super::*;

    #[test]
    fn the_first_differing_line_is_described() {
        let text = describe("f", "a\nb\n", "a\nc\n");
        assert_eq!(text, "f: line 2: `b`, here `c`");
        let text = describe("f", "a", "a\n");
        assert_eq!(text, "f: line 2: `(nothing)`, here ``");
    }
}
