//! Finds the proved static library and links it.

use std::path::{Path, PathBuf};
use std::{env, fs, process};

const ARCHIVE: &str = "libspecksonne.a";

fn main() {
    println!("cargo:rerun-if-env-changed=SPECKSONNE_LIB_DIR");
    let folder = folder();
    let archive = folder.join(ARCHIVE);
    if !archive.is_file() {
        eprintln!("{} is not there.", archive.display());
        eprintln!("Prove and build it first, in the repository's root: (cd crates/specksonne && rt lib)");
        eprintln!("(SPECKSONNE_LIB_DIR names another folder to look for {ARCHIVE} in.)");
        process::exit(1);
    }
    println!("cargo:rerun-if-changed={}", archive.display());
    println!("cargo:rustc-link-search=native={}", folder.display());
    println!("cargo:rustc-link-lib=static=specksonne");
}

/// The folder that `rt lib` writes to, or the one that the environment names.
fn folder() -> PathBuf {
    if let Some(folder) = env::var_os("SPECKSONNE_LIB_DIR") {
        return PathBuf::from(folder);
    }
    let here = env::var_os("CARGO_MANIFEST_DIR").expect("cargo names the folder of the package");
    let folder = Path::new(&here).join("../../crates/specksonne/out");
    fs::canonicalize(&folder).unwrap_or(folder)
}
