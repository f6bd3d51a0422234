//! The header for C and C++: programs in each language are compiled with it,
//! linked with the library and run.

mod calls;
mod lists;

use std::env;
use std::fs;
use std::path::{Path, PathBuf};
use std::process::{Command, Output};

use crate::common::seeds::say;

/// The package's folder; the header stands beside it.
const PACKAGE: &str = env!("CARGO_MANIFEST_DIR");
const HEADER: &str = "../include/ruonfidd.h";

const WARNINGS: [&str; 4] = ["-Wall", "-Wextra", "-Wpedantic", "-Werror"];

/// A compiler, with the words that make it take a file for its language.
#[derive(Clone, Copy, Debug)]
struct Language {
    compiler: &'static str,
    words: [&'static str; 4],
}

const fn c(standard: &'static str) -> Language {
    Language {
        compiler: "gcc",
        words: ["-O1", standard, "-x", "c"],
    }
}

const fn cpp(standard: &'static str) -> Language {
    Language {
        compiler: "g++",
        words: ["-O1", standard, "-x", "c++"],
    }
}

/// The oldest of each first.
const C: [Language; 3] = [c("-std=c99"), c("-std=c11"), c("-std=gnu17")];
const CPP: [Language; 2] = [cpp("-std=c++11"), cpp("-std=c++17")];

/// The languages for which the machine has a compiler. C is wanted anyway.
fn languages() -> Vec<Language> {
    let mut languages = C.to_vec();
    if Command::new("g++").arg("--version").output().is_ok() {
        languages.extend(CPP);
    } else {
        say("the header is not compiled as C++: g++ is not installed");
    }
    languages
}

/// A file of this package, or beside it.
fn text_of(path: &str) -> String {
    let path = Path::new(PACKAGE).join(path);
    fs::read_to_string(&path).unwrap_or_else(|error| panic!("{}: {error}", path.display()))
}

/// A folder of its own for what is compiled, which goes again.
struct Folder(PathBuf);

impl Folder {
    fn new(name: &str) -> Folder {
        let folder = Path::new(env!("CARGO_TARGET_TMPDIR")).join(name);
        fs::create_dir_all(&folder).expect("a folder");
        Folder(folder)
    }
}

impl Drop for Folder {
    fn drop(&mut self) {
        // What is left over does no harm.
        let _ = fs::remove_dir_all(&self.0);
    }
}

#[track_caller]
fn must_succeed(output: &Output) -> String {
    let shown = format!(
        "{}{}",
        String::from_utf8_lossy(&output.stdout),
        String::from_utf8_lossy(&output.stderr)
    );
    assert!(output.status.success(), "{}: {shown}", output.status);
    shown
}

/// Compiles a program of this folder, links it with the library and runs it:
/// what it prints.
#[track_caller]
fn printed_by(program: &str, language: Language) -> String {
    let package = Path::new(PACKAGE);
    let folder = Folder::new(&format!("{program}{}", language.words[1]));
    let binary = folder.0.join("program");
    let output = Command::new(language.compiler)
        .args(language.words)
        .args(WARNINGS)
        .arg("-I")
        .arg(package.join("../include"))
        .arg(package.join("tests/suite/header").join(program))
        // The library is no source of this language.
        .args(["-x", "none"])
        .arg(env!("RUONFIDD_LIBRARY"))
        .arg("-o")
        .arg(&binary)
        .output()
        .expect("a compiler");
    must_succeed(&output);
    let output = Command::new(&binary).output().expect("the program");
    must_succeed(&output)
}
