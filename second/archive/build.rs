//! Says where libgrasp.a is: in the folder that GRASP_ARCHIVE_DIR names, or else where
//! `tools/archive` writes it.

use std::env;
use std::path::PathBuf;

fn main() {
    println!("cargo::rerun-if-env-changed=GRASP_ARCHIVE_DIR");
    let written = concat!(env!("CARGO_MANIFEST_DIR"), "/../../target/staticlib");
    let folder = env::var_os("GRASP_ARCHIVE_DIR").map_or(PathBuf::from(written), PathBuf::from);
    let archive = folder.join("libgrasp.a");
    println!("cargo::rerun-if-changed={}", archive.display());
    println!("cargo::rustc-link-search=native={}", folder.display());
    if !folder.is_absolute() {
        println!("cargo::error=GRASP_ARCHIVE_DIR must be an absolute path.");
    } else if !archive.is_file() {
        println!(
            "cargo::warning={} is not there: nothing can be linked.",
            archive.display()
        );
    }
}
