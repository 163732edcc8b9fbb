//! Names the archive that `tools/staticlib.sh` writes of the library's exports, for the program that links it.
use std::env;
use std::path::Path;

fn main() {
    println!("cargo:rerun-if-changed=build.rs");
    if env::var_os("CARGO_FEATURE_LIBRARY").is_none() {
        return;
    }
    let root = env::var("CARGO_MANIFEST_DIR").expect("CARGO_MANIFEST_DIR");
    let archive = Path::new(&root).join("../target/staticlib/libharness.a");
    println!("cargo:rerun-if-changed={}", archive.display());
    if !archive.is_file() {
        println!("cargo:warning={} is not there: run `tools/staticlib.sh harness`", archive.display());
    }
    println!("cargo:rustc-link-arg-bin=compare={}", archive.display());
}
