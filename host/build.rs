//! Links the archive that `tools/staticlib.sh layout_calls` writes.
use std::env;
use std::path::Path;

fn main() {
    let dir = Path::new(&env::var("CARGO_MANIFEST_DIR").expect("CARGO_MANIFEST_DIR")).join("../target/staticlib");
    let archive = dir.join("liblayout_calls.a");
    println!("cargo:rerun-if-changed={}", archive.display());
    if !archive.is_file() {
        panic!("{} is not there: run `tools/staticlib.sh layout_calls`, or host/run.sh", archive.display());
    }
    println!("cargo:rustc-link-search=native={}", dir.display());
    println!("cargo:rustc-link-lib=static=layout_calls");
}
