//! `ask FOLDER < QUESTIONS`: the proved libraries' answer to each question line about the files of a corpus, a line
//! each, in the corpus' form. Status 1, and a line on standard error, where a call wrote into its lent buffer what its
//! answer does not say; status 2 where a line is no question.
//!
//!     cargo run --release --offline -- CORPUS < CORPUS/questions.ask | diff - CORPUS/questions.ans

use ask::answer;
use second::lines::{answer_line, Desk, Question};
use std::io::{self, BufWriter, Write};
use std::path::Path;
use std::process::ExitCode;

fn main() -> ExitCode {
    let args: Vec<String> = std::env::args().skip(1).collect();
    let ended = match &args[..] {
        [folder] => answer_all(Path::new(folder)),
        _ => Err("usage: ask FOLDER < QUESTIONS".to_string()),
    };
    match ended {
        Ok(strays) => ExitCode::from(u8::from(strays > 0)),
        Err(why) => {
            eprintln!("{why}");
            ExitCode::from(2)
        }
    }
}

/// How many calls wrote where they should not.
fn answer_all(folder: &Path) -> Result<usize, String> {
    let mut desk = Desk::new(folder);
    let mut out = BufWriter::new(io::stdout().lock());
    let mut strays = 0;
    for line in io::stdin().lines() {
        let line = line.map_err(|why| why.to_string())?;
        let Question { file, op, args } = desk.question(&line)?;
        let answered = answer(file, op, &args).ok_or_else(|| format!("unknown: {line}"))?;
        if let Some(place) = answered.stray {
            eprintln!("{line}: the lent buffer was written at {place}");
            strays += 1;
        }
        writeln!(out, "{}", answer_line(answered.values)).map_err(|why| why.to_string())?;
    }
    out.flush().map_err(|why| why.to_string())?;
    Ok(strays)
}
