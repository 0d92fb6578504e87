//! Finds the proved archive and links it.

use std::path::PathBuf;
use std::{env, fs, process};

const VARIABLE: &str = "EGRIVUNDO_ARCHIVE";

fn main() {
    println!("cargo:rerun-if-changed=build.rs");
    println!("cargo:rerun-if-env-changed={VARIABLE}");
    let archive = match env::var_os(VARIABLE) {
        Some(path) => PathBuf::from(path),
        None => crate_dir().join("../../target/staticlib/libcapi.a"),
    };
    if !archive.is_file() {
        eprintln!("The archive is missing: {}", archive.display());
        eprintln!("Run `host/archive.sh` at the repository's root,");
        eprintln!("or set {VARIABLE} to the whole path of the archive.");
        process::exit(1);
    }
    println!("cargo:rerun-if-changed={}", archive.display());
    // A copy, so that the file given by the variable may have any name.
    let out = PathBuf::from(env::var_os("OUT_DIR").expect("cargo sets OUT_DIR"));
    if let Err(error) = fs::copy(&archive, out.join("libcapi.a")) {
        eprintln!(
            "The archive {} cannot be copied: {error}",
            archive.display()
        );
        process::exit(1);
    }
    println!("cargo:rustc-link-search=native={}", out.display());
    println!("cargo:rustc-link-lib=static=capi");
}

fn crate_dir() -> PathBuf {
    PathBuf::from(env::var_os("CARGO_MANIFEST_DIR").expect("cargo sets CARGO_MANIFEST_DIR"))
}
