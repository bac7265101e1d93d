//! Finds the archive and has it linked: in IGHOLMAZ_LIB_DIR, else where `tools/build` writes it.

use std::path::PathBuf;

fn main() {
    println!("cargo::rerun-if-env-changed=IGHOLMAZ_LIB_DIR");
    let dir = match std::env::var_os("IGHOLMAZ_LIB_DIR") {
        Some(dir) => PathBuf::from(dir),
        None => PathBuf::from(std::env::var_os("CARGO_MANIFEST_DIR").unwrap()).join("../../target/staticlib"),
    };
    let archive = dir.join("libigholmaz.a");
    println!("cargo::rerun-if-changed={}", archive.display());
    if !archive.is_file() {
        println!("cargo::error={} is missing: run `tools/build` at the top of the repository, or say in IGHOLMAZ_LIB_DIR which folder has it", archive.display());
        return;
    }
    println!("cargo::rustc-link-search=native={}", dir.display());
    println!("cargo::rustc-link-lib=static=igholmaz");
}
