//! Links the archive that `tools/build mezdaulk` writes.

use std::path::PathBuf;
use std::process::exit;

const FOLDER: &str = "MEZDAULK_LIB_DIR";

fn main() {
    println!("cargo:rerun-if-env-changed={FOLDER}");
    let folder = folder();
    let archive = folder.join("libmezdaulk.a");
    println!("cargo:rerun-if-changed={}", archive.display());
    if !archive.is_file() {
        eprintln!("{} is missing.", archive.display());
        eprintln!("Run `tools/build mezdaulk` in the root of the repository, or set {FOLDER} to the archive's folder.");
        exit(1);
    }
    println!("cargo:rustc-link-search=native={}", folder.display());
    println!("cargo:rustc-link-lib=static=mezdaulk");
}

/// The folder that is set, or the one in this repository.
fn folder() -> PathBuf {
    match std::env::var_os(FOLDER) {
        Some(folder) => folder.into(),
        None => PathBuf::from(env!("CARGO_MANIFEST_DIR")).join("../../target/staticlib"),
    }
}
