//! Links the library that `tools/build.sh overview` built, or the one in the folder that OVERVIEW_LIB names.
fn main() {
    let root = std::env::var("CARGO_MANIFEST_DIR").expect("cargo names the folder");
    let folder = std::env::var("OVERVIEW_LIB").unwrap_or(format!("{root}/../../target/staticlib"));
    println!("cargo:rustc-link-search=native={folder}");
    println!("cargo:rustc-link-lib=static=overview");
    println!("cargo:rerun-if-env-changed=OVERVIEW_LIB");
    println!("cargo:rerun-if-changed={folder}/liboverview.a");
}
