//! tests/overview.c, which asserts the layouts on the C side and makes the calls of both headers, is compiled, linked
//! with both archives into one program, in either order, and run on the smallest file; and without the calls of psg.h,
//! with its own archive alone.

use std::fs::File;
use std::path::{Path, PathBuf};
use std::process::Command;

fn root() -> PathBuf {
    Path::new(env!("CARGO_MANIFEST_DIR")).join("../..")
}

/// An archive, in the folder that the variable names or in the usual one.
fn archive(variable: &str, name: &str) -> PathBuf {
    let folder = std::env::var(variable).map(PathBuf::from);
    let usual = || root().join("target/staticlib");
    folder.unwrap_or_else(|_| usual()).join(name)
}

fn links_and_runs(name: &str, options: &[&str], archives: &[&PathBuf]) {
    let program = Path::new(env!("CARGO_TARGET_TMPDIR")).join(name);
    let compiler = std::env::var("CC").unwrap_or("cc".to_string());
    let compiled = Command::new(compiler)
        .args(["-std=c11", "-pedantic", "-Wall", "-Wextra", "-Werror"])
        .args(options)
        .arg("-I")
        .arg(root().join("include"))
        .arg(root().join("tests/overview.c"))
        .args(archives)
        .arg("-o")
        .arg(&program)
        .status()
        .expect("a C compiler");
    assert!(compiled.success());
    let smallest = File::open(root().join("crates/listing/stdin")).expect("the smallest file");
    let ran = Command::new(program).stdin(smallest).output().unwrap();
    let said = String::from_utf8_lossy(&ran.stdout);
    assert!(ran.status.success(), "{said}");
}

#[test]
fn both_archives_go_into_one_program() {
    let psg = archive("PSG_LIB", "libpsg.a");
    let overview = archive("OVERVIEW_LIB", "liboverview.a");
    links_and_runs("overview-then-psg", &[], &[&overview, &psg]);
    links_and_runs("psg-then-overview", &[], &[&psg, &overview]);
}

#[test]
fn its_archive_goes_alone_too() {
    let overview = archive("OVERVIEW_LIB", "liboverview.a");
    links_and_runs("overview-alone", &["-DALONE"], &[&overview]);
}
