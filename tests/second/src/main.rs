//! The program `second`.

use second::ask::answer_to;
use second::lines::Desk;
use second::{compare, corpus, generate, listing};
use std::collections::BTreeMap;
use std::fs::{self, File};
use std::io::{self, BufWriter, Read, Write};
use std::path::Path;
use std::process::ExitCode;

const USAGE: &str = "usage:
  second list FILE|-
  second make SEED COUNT DIR
  second make-corpus SEED COUNT DIR
  second ask CORPUSDIR < QUESTIONS
  second corpus DIR
  second compare LISTING SEED COUNT";

/// How a run ended: differences give status 1, a failed run status 2.
enum End {
    Agreed,
    Differed,
}

type Ended = Result<End, String>;

fn main() -> ExitCode {
    let args: Vec<String> = std::env::args().skip(1).collect();
    let args: Vec<&str> = args.iter().map(String::as_str).collect();
    let ended = match args[..] {
        ["list", file] => list(file),
        ["make", seed, count, folder] => make(seed, count, Path::new(folder)),
        ["make-corpus", seed, count, folder] => make_corpus(seed, count, Path::new(folder)),
        ["ask", folder] => ask(Path::new(folder)),
        ["corpus", folder] => compare_corpus(Path::new(folder)),
        ["compare", program, seed, count] => compare_program(program, seed, count),
        _ => Err(USAGE.to_string()),
    };
    match ended {
        Ok(End::Agreed) => ExitCode::SUCCESS,
        Ok(End::Differed) => ExitCode::from(1),
        Err(why) => {
            eprintln!("{why}");
            ExitCode::from(2)
        }
    }
}

fn text(why: io::Error) -> String {
    why.to_string()
}

fn number(word: &str) -> Result<u64, String> {
    word.parse().map_err(|why| format!("{word}: {why}"))
}

fn list(name: &str) -> Ended {
    let file = if name == "-" {
        read_some(io::stdin().lock())
    } else {
        File::open(name).and_then(read_some)
    };
    let file = file.map_err(|why| format!("{name}: {why}"))?;
    write_out(&listing::listing(&file))
}

/// What `listing` needs: one byte over its limit tells a longer file.
fn read_some(source: impl Read) -> io::Result<Vec<u8>> {
    let mut file = Vec::new();
    let most = listing::MOST_BYTES as u64 + 1;
    source.take(most).read_to_end(&mut file)?;
    Ok(file)
}

fn write_out(lines: &str) -> Ended {
    io::stdout()
        .lock()
        .write_all(lines.as_bytes())
        .map_err(text)?;
    Ok(End::Agreed)
}

/// Writes the files and what `listing` prints for them; prints how often each
/// refusal occurred.
fn make(seed: &str, count: &str, folder: &Path) -> Ended {
    let (seed, count) = (number(seed)?, number(count)?);
    fs::create_dir_all(folder).map_err(text)?;
    let mut endings: BTreeMap<u8, u64> = BTreeMap::new();
    for index in 0..count {
        let file = generate::file(seed, index).bytes;
        let lines = listing::listing(&file);
        *endings.entry(refusal_number(&lines)).or_default() += 1;
        let path = folder.join(format!("{index:06}.bin"));
        fs::write(&path, file).map_err(text)?;
        fs::write(path.with_extension("out"), lines).map_err(text)?;
    }
    let mut lines = format!("made {count} files (seed {seed})\n");
    for (refusal, times) in endings {
        match refusal {
            0 => lines.push_str(&format!("accepted {times}\n")),
            _ => lines.push_str(&format!("refused {refusal}: {times}\n")),
        }
    }
    write_out(&lines)
}

/// The same with questions and their answers, of files that are chosen.
fn make_corpus(seed: &str, count: &str, folder: &Path) -> Ended {
    let (seed, count) = (number(seed)?, number(count)?);
    corpus::make::make(seed, count, folder).map_err(text)?;
    Ok(End::Agreed)
}

/// The number in a line `refused N at P`, 0 for a listing.
fn refusal_number(lines: &str) -> u8 {
    let mut words = lines.split_whitespace();
    match (words.next(), words.next()) {
        (Some("refused"), Some(number)) => number.parse().unwrap_or(0),
        _ => 0,
    }
}

fn ask(folder: &Path) -> Ended {
    let mut desk = Desk::new(folder);
    let mut out = BufWriter::new(io::stdout().lock());
    for line in io::stdin().lines() {
        let answer = answer_to(&mut desk, &line.map_err(text)?)?;
        writeln!(out, "{answer}").map_err(text)?;
    }
    out.flush().map_err(text)?;
    Ok(End::Agreed)
}

fn compare_corpus(folder: &Path) -> Ended {
    let found = corpus::compare(folder).map_err(|why| format!("{}: {why}", folder.display()))?;
    let last = format!(
        "{} files, {} questions, {} differences",
        found.files,
        found.questions,
        found.differences.len()
    );
    report(&found.differences, &last)
}

fn compare_program(program: &str, seed: &str, count: &str) -> Ended {
    let (seed, count) = (number(seed)?, number(count)?);
    let differences = compare::compare(Path::new(program), seed, count)
        .map_err(|why| format!("{program}: {why}"))?;
    let found = differences.len();
    let last = format!("compared {count} files with {program} (seed {seed}): {found} differences");
    report(&differences, &last)
}

fn report(differences: &[String], last: &str) -> Ended {
    let mut lines = differences.join("\n");
    if !lines.is_empty() {
        lines.push('\n');
    }
    write_out(&format!("{lines}{last}\n"))?;
    Ok(if differences.is_empty() {
        End::Agreed
    } else {
        End::Differed
    })
}
