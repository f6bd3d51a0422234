//! A program that calls every function of the header.

use std::fs;

use super::{languages, printed_by, text_of, HEADER};

const PROGRAM: &str = "tests/suite/header/calls.c";

#[test]
fn every_answer_in_c_and_cpp() {
    for language in languages() {
        let printed = printed_by("calls.c", language);
        assert_eq!(printed, "all answers are as they must be\n", "{language:?}");
    }
}

/// The header declares the library's functions, and one of its own. The program
/// calls each of them.
#[test]
fn every_function_is_declared_and_called() {
    let (header, program) = (text_of(HEADER), text_of(PROGRAM));
    let mut declared = names_before_a_bracket(&header);
    let mut called = names_before_a_bracket(&program);
    declared.sort_unstable();
    called.sort_unstable();
    called.dedup();
    assert_eq!(called, declared);
    let is_own = |name: &str| header.contains(&format!("static inline const char *{name}("));
    let (own, exported): (Vec<&str>, Vec<&str>) =
        declared.into_iter().partition(|name| is_own(name));
    assert_eq!(own, ["ruonfidd_refusal_reason"]);
    assert_eq!(exported.len(), 10, "{exported:?}");
    let library = fs::read(env!("RUONFIDD_LIBRARY")).expect("the library");
    for name in exported {
        let bytes = name.as_bytes();
        assert!(
            library.windows(bytes.len()).any(|window| window == bytes),
            "{name} is not in the library"
        );
    }
}

/// The names of the library's functions, each as often as a bracket follows it.
fn names_before_a_bracket(text: &str) -> Vec<&str> {
    let is_part = |byte: u8| byte.is_ascii_lowercase() || byte == b'_';
    let mut names = Vec::new();
    for (at, _) in text.match_indices("ruonfidd_") {
        let length = text[at..].bytes().take_while(|byte| is_part(*byte)).count();
        if text[at + length..].starts_with('(') {
            names.push(&text[at..at + length]);
        }
    }
    names
}
