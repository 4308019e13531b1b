//! The comparison with another program's `listing` over generated files.

use crate::corpus::describe;
use crate::generate;
use crate::listing::listing;
use std::fs::{self, File};
use std::io;
use std::ops::Range;
use std::path::{Path, PathBuf};
use std::process::{self, Command, Output, Stdio};
use std::thread;
use std::time::UNIX_EPOCH;

const THREADS: u64 = 2;

/// Runs `program` on each generated file; gives a line a difference, by file.
/// A file that differs is kept where its line says.
pub fn compare(program: &Path, seed: u64, count: u64) -> io::Result<Vec<String>> {
    let folder = Folder::new()?;
    let shares = thread::scope(|scope| {
        let workers: Vec<_> = (0..THREADS)
            .map(|first| {
                let folder = &folder.path;
                scope.spawn(move || compare_share(program, folder, seed, first..count))
            })
            .collect();
        let shares = workers.into_iter().map(|worker| worker.join());
        shares
            .map(|share| share.expect("a comparison does not panic"))
            .collect::<io::Result<Vec<_>>>()
    })?;
    let mut differences = shares.concat();
    differences.sort();
    Ok(differences.into_iter().map(|(_, line)| line).collect())
}

/// One thread's share: every file of the range, in steps of the threads.
fn compare_share(
    program: &Path,
    folder: &Path,
    seed: u64,
    files: Range<u64>,
) -> io::Result<Vec<(u64, String)>> {
    let input = Input::new(folder, files.start);
    let mut differences = Vec::new();
    for index in files.step_by(THREADS as usize) {
        let file = generate::file(seed, index).bytes;
        let output = input.run(program, &file)?;
        let kept = folder.join(format!("{seed}-{index:06}.bin"));
        if let Some(line) = difference(&kept.to_string_lossy(), &file, &output) {
            fs::write(&kept, &file)?;
            differences.push((index, line));
        }
    }
    Ok(differences)
}

fn difference(name: &str, file: &[u8], output: &Output) -> Option<String> {
    let own = listing(file);
    // An end by a signal is a difference, whatever was printed before.
    if output.status.code().is_none() {
        return Some(format!("{name}: {}", output.status));
    }
    let differs = output.stdout != own.as_bytes();
    differs.then(|| describe(name, &String::from_utf8_lossy(&output.stdout), &own))
}

/// A folder of this run alone. It goes with the run, unless a file is kept in it.
struct Folder {
    path: PathBuf,
}

impl Folder {
    fn new() -> io::Result<Folder> {
        let time = UNIX_EPOCH.elapsed().map_or(0, |since| since.as_nanos());
        let name = format!("second-{}-{time}", process::id());
        let path = std::env::temp_dir().join(name);
        // Refused where there is one of this name.
        fs::create_dir(&path)?;
        Ok(Folder { path })
    }
}

impl Drop for Folder {
    fn drop(&mut self) {
        // Refused where a file was kept, as it should be.
        let _ = fs::remove_dir(&self.path);
    }
}

/// A file of this run that stands for standard input. Unlike a pipe it never
/// holds up a program that prints before it has read everything.
struct Input {
    path: PathBuf,
}

impl Input {
    fn new(folder: &Path, thread: u64) -> Input {
        Input {
            path: folder.join(format!("input-{thread}.bin")),
        }
    }

    fn run(&self, program: &Path, file: &[u8]) -> io::Result<Output> {
        fs::write(&self.path, file)?;
        Command::new(program)
            .stdin(File::open(&self.path)?)
            .stderr(Stdio::null())
            .output()
    }
}

impl Drop for Input {
    fn drop(&mut self) {
        // Nothing depends on it: a leftover is only untidy.
        let _ = fs::remove_file(&self.path);
    }
}
