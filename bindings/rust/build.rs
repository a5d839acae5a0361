//! Links `target/staticlib/libslipknoll.a` of the repository.

use std::env;
use std::path::Path;

fn main() {
    let manifest = env::var("CARGO_MANIFEST_DIR").expect("cargo sets CARGO_MANIFEST_DIR");
    let directory = Path::new(&manifest).join("../../target/staticlib");
    let archive = directory.join("libslipknoll.a");
    println!("cargo:rerun-if-changed={}", archive.display());
    println!("cargo:rerun-if-changed=build.rs");
    if !archive.is_file() {
        eprintln!(
            "{} is missing: run `scripts/library` first",
            archive.display()
        );
        std::process::exit(1);
    }
    println!("cargo:rustc-link-search=native={}", directory.display());
    println!("cargo:rustc-link-lib=static=slipknoll");
}
