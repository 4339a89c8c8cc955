//! Links the proved archive, `libaberulwy_c.a`.
//!
//! It is looked for in the folder that the environment variable `ABERULWY_ARCHIVE_DIR`
//! names (an absolute path), else in `target/staticlib` of the repository, where `tools/build`
//! writes it.

use std::env;
use std::path::PathBuf;

const FOLDER_VARIABLE: &str = "ABERULWY_ARCHIVE_DIR";

fn main() {
    println!("cargo::rerun-if-env-changed={FOLDER_VARIABLE}");
    let folder = match env::var_os(FOLDER_VARIABLE) {
        Some(folder) => PathBuf::from(folder),
        None => PathBuf::from(env!("CARGO_MANIFEST_DIR")).join("../../target/staticlib"),
    };
    let archive = folder.join("libaberulwy_c.a");
    if !archive.is_file() {
        println!(
            "cargo::warning=no {}: run `tools/build` in the repository's root, or set {FOLDER_VARIABLE} to the archive's folder, an absolute path",
            archive.display()
        );
    }
    println!("cargo::rerun-if-changed={}", archive.display());
    println!("cargo::rustc-link-search=native={}", folder.display());
    println!("cargo::rustc-link-lib=static=aberulwy_c");
}
