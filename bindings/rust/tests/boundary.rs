//! tests/boundary.c, which asserts the layouts on the C side and makes each call from C, is compiled, linked with the
//! library and run on the smallest file.

use std::fs::File;
use std::path::Path;
use std::process::Command;

#[test]
fn c_has_the_layouts_and_makes_the_calls() {
    let root = Path::new(env!("CARGO_MANIFEST_DIR")).join("../..");
    let library = match std::env::var("PSG_LIB") {
        Ok(folder) => Path::new(&folder).join("libpsg.a"),
        Err(_) => root.join("target/staticlib/libpsg.a"),
    };
    let program = Path::new(env!("CARGO_TARGET_TMPDIR")).join("boundary");
    let compiler = std::env::var("CC").unwrap_or("cc".to_string());
    let compiled = Command::new(compiler)
        .args(["-std=c11", "-pedantic", "-Wall", "-Wextra", "-Werror"])
        .arg("-I")
        .arg(root.join("include"))
        .arg(root.join("tests/boundary.c"))
        .arg(library)
        .arg("-o")
        .arg(&program)
        .status()
        .expect("a C compiler");
    assert!(compiled.success());
    let smallest = File::open(root.join("crates/listing/stdin")).expect("the smallest file");
    let ran = Command::new(program).stdin(smallest).output().unwrap();
    assert!(
        ran.status.success(),
        "{}",
        String::from_utf8_lossy(&ran.stdout)
    );
}
