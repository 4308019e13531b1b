//! Links the library that `tools/build.sh psg` built, or the one in the folder that PSG_LIB names.
fn main() {
    let root = std::env::var("CARGO_MANIFEST_DIR").expect("cargo names the folder");
    let folder = std::env::var("PSG_LIB").unwrap_or(format!("{root}/../../target/staticlib"));
    println!("cargo:rustc-link-search=native={folder}");
    println!("cargo:rustc-link-lib=static=psg");
    println!("cargo:rerun-if-env-changed=PSG_LIB");
    println!("cargo:rerun-if-changed={folder}/libpsg.a");
}
