//! Links the static library that `host/library` writes below the repository's root, or the one in the folder that
//! BOOMCRUTCH_LIB names.
use std::path::{Path, PathBuf};

fn main() {
    println!("cargo:rerun-if-env-changed=BOOMCRUTCH_LIB");
    let usual = Path::new(env!("CARGO_MANIFEST_DIR")).join("../../target/staticlib");
    let folder = std::env::var_os("BOOMCRUTCH_LIB").map_or(usual, PathBuf::from);
    let archive = folder.join("libboomcrutch.a");
    println!("cargo:rerun-if-changed={}", archive.display());
    if !archive.exists() {
        println!("cargo::error={} is missing: run `host/library` first", archive.display());
    }
    println!("cargo:rustc-link-search=native={}", folder.display());
    println!("cargo:rustc-link-lib=static=boomcrutch");
    // The C test links the same archive.
    println!("cargo:rustc-env=BOOMCRUTCH_ARCHIVE={}", archive.display());
}
