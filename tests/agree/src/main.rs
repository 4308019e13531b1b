//! `agree SEED COUNT|SECONDSs`: what the proved library answers, and leaves in a buffer lent to it, is compared with
//! what the second program says of files made afresh, valid and damaged: the verdict with the header's values, the
//! table, every question, the parts that places and numbers of any size cut, runs of samples beside the single ones,
//! the index of events and their times, tracks beside the places of frames, overviews of every channel beside the
//! single epochs and those of the turned file, turning there and back, and rewriting. So many files, or as many as the
//! time allows (`600s`). Status 1 means a difference.

use agree::files::{self, Until};
use std::process::ExitCode;
use std::time::{Duration, Instant};

const USAGE: &str = "usage: agree SEED COUNT|SECONDSs";

fn main() -> ExitCode {
    let args: Vec<String> = std::env::args().skip(1).collect();
    let ended = match &args[..] {
        [seed, until] => number(seed).and_then(|seed| Ok(compare(seed, ending(until)?))),
        _ => Err(USAGE.to_string()),
    };
    match ended {
        Ok(differences) => ExitCode::from(u8::from(differences > 0)),
        Err(why) => {
            eprintln!("{why}");
            ExitCode::from(2)
        }
    }
}

fn number(word: &str) -> Result<u64, String> {
    word.parse()
        .map_err(|why| format!("{word}: {why}\n{USAGE}"))
}

fn ending(word: &str) -> Result<Until, String> {
    match word.strip_suffix('s') {
        None => number(word).map(Until::Count),
        Some(seconds) => Ok(Until::Time(
            Instant::now() + Duration::from_secs(number(seconds)?),
        )),
    }
}

/// How many differences there are, each printed. The seed is printed first too: a run that breaks off can be repeated.
fn compare(seed: u64, until: Until) -> usize {
    println!("seed {seed}");
    let compared = files::compare(seed, until);
    let differences = compared.differences.len();
    compared
        .differences
        .iter()
        .for_each(|line| println!("{line}"));
    println!(
        "{} files of seed {seed} through the library, {} of them accepted, {} questions, {differences} differences",
        compared.files, compared.accepted, compared.questions
    );
    differences
}
