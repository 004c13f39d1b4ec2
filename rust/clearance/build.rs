//! Builds the proved static library with the Rattle toolchain and links it. `CLEARANCE_LIB` names a directory that holds `libclearance.a` already, by its
//! absolute path, since the linker is not started where this script is.

use std::fs;
use std::path::{Path, PathBuf};
use std::process::Command;

fn main() {
    println!("cargo:rerun-if-env-changed=CLEARANCE_LIB");
    let directory = match std::env::var_os("CLEARANCE_LIB") {
        Some(directory) => given(PathBuf::from(directory)),
        None => built(),
    };
    println!("cargo:rustc-link-search=native={}", directory.display());
    println!("cargo:rustc-link-lib=static=clearance");
}

/// The directory that the caller names, after a look at what is there.
fn given(directory: PathBuf) -> PathBuf {
    assert!(directory.is_absolute(), "CLEARANCE_LIB: {} is no absolute path", directory.display());
    let archive = directory.join("libclearance.a");
    assert!(archive.is_file(), "CLEARANCE_LIB: there is no {}", archive.display());
    println!("cargo:rerun-if-changed={}", archive.display());
    directory
}

/// A directory of cargo's with a copy of the archive that `rt lib` writes, after it has proved what changed: `rt ci` removes its own.
fn built() -> PathBuf {
    let root = Path::new(env!("CARGO_MANIFEST_DIR")).join("../..");
    println!("cargo:rerun-if-changed={}", root.join("crates.txt").display());
    sources(&root.join("crates"));
    let folder = root.join("crates/clearance");
    let made = Command::new("rt")
        .arg("lib")
        .current_dir(&folder)
        .status()
        .expect("the Rattle toolchain (rt) must be on the path, or CLEARANCE_LIB set");
    assert!(made.success(), "rt lib failed in crates/clearance");
    let directory = PathBuf::from(std::env::var_os("OUT_DIR").expect("cargo names a directory"));
    fs::copy(folder.join("out/libclearance.a"), directory.join("libclearance.a"))
        .expect("the archive is copied");
    directory
}

/// Has cargo watch what is written of each crate, and not what `rt` makes there.
fn sources(crates: &Path) {
    for folder in fs::read_dir(crates).expect("the crates") {
        let folder = folder.expect("a crate").path();
        for part in ["src", "specs", "proofs"].map(|part| folder.join(part)) {
            if part.is_dir() {
                println!("cargo:rerun-if-changed={}", part.display());
            }
        }
    }
}
