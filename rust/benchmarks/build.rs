//! Links an earlier proved archive, `libaberulwy_before.a`, for the command `before` alone. It is
//! looked for in the folder that the environment variable `ABERULWY_BEFORE_DIR` names (an
//! absolute path).

use std::env;

const FOLDER_VARIABLE: &str = "ABERULWY_BEFORE_DIR";

fn main() {
    println!("cargo::rerun-if-env-changed={FOLDER_VARIABLE}");
    if env::var_os("CARGO_FEATURE_BEFORE").is_none() {
        return;
    }
    match env::var(FOLDER_VARIABLE) {
        Ok(folder) => println!("cargo::rustc-link-search=native={folder}"),
        Err(_) => {
            println!("cargo::warning=set {FOLDER_VARIABLE} to the folder of libaberulwy_before.a")
        }
    }
    println!("cargo::rustc-link-lib=static=aberulwy_before");
}
