//! Links the engine's static library into this package.

use std::env;
use std::path::{Path, PathBuf};
use std::process::exit;

/// Names a folder that holds the static library, instead of the usual one.
const FOLDER_VARIABLE: &str = "RUONFIDD_LIB_DIR";
const USUAL_FOLDER: &str = "../target/staticlib";
const FILE: &str = "libruonfidd.a";

fn main() {
    println!("cargo:rerun-if-env-changed={FOLDER_VARIABLE}");
    println!("cargo:rerun-if-changed=build.rs");
    let folder = folder();
    let file = folder.join(FILE);
    println!("cargo:rerun-if-changed={}", file.display());
    if !file.is_file() {
        eprintln!(
            "The engine's static library is not there: {}",
            file.display()
        );
        eprintln!("Run `make` in the repository's top folder first,");
        eprintln!("or let {FOLDER_VARIABLE} name the folder that holds {FILE}.");
        exit(1);
    }
    println!("cargo:rustc-link-search=native={}", folder.display());
    println!("cargo:rustc-link-lib=static=ruonfidd");
    // The tests link it from C too.
    println!("cargo:rustc-env=RUONFIDD_LIBRARY={}", file.display());
}

/// The library's folder. A relative one counts from this package's folder.
fn folder() -> PathBuf {
    let package = env::var_os("CARGO_MANIFEST_DIR").unwrap_or_default();
    match env::var_os(FOLDER_VARIABLE) {
        Some(folder) if !folder.is_empty() => Path::new(&package).join(folder),
        _ => Path::new(&package).join(USUAL_FOLDER),
    }
}
