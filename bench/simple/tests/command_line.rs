//! The program: the stored cases with their stored answers, and what else it may be told.

use std::fs::{self, File};
use std::process::{Command, Output, Stdio};

/// The cases that every program which answers cases is held against, and their answers.
const CASES: &str = concat!(env!("CARGO_MANIFEST_DIR"), "/../../crates/cases/stdin");
const ANSWERS: &str = concat!(env!("CARGO_MANIFEST_DIR"), "/../../crates/cases/stdout");

fn simple(words: &[&str], input: Stdio) -> Output {
    let program = env!("CARGO_BIN_EXE_simple");
    Command::new(program).args(words).stdin(input).output().expect("the program starts")
}

#[test]
fn the_stored_cases_have_their_stored_answers() {
    let cases = File::open(CASES).expect("the stored cases can be read");
    let expected = fs::read_to_string(ANSWERS).expect("the stored answers can be read");
    let output = simple(&["cases"], cases.into());
    let answers = String::from_utf8(output.stdout).expect("answers are text");
    for (number, (answer, expected)) in (1..).zip(answers.lines().zip(expected.lines())) {
        assert_eq!(answer, expected, "line {number}");
    }
    assert!(answers == expected, "the answers end as the stored ones do");
    assert!(output.status.success());
}

#[test]
fn other_words_get_the_usage_and_status_2() {
    for words in [&[][..], &["case"], &["cases", "more"], &["--help"]] {
        let output = simple(words, Stdio::null());
        assert_eq!(output.status.code(), Some(2), "{words:?}");
        assert_eq!(output.stdout, b"", "{words:?}");
        assert!(output.stderr.starts_with(b"usage: "), "{words:?}");
    }
}

#[test]
fn nothing_is_answered_to_no_cases() {
    let output = simple(&["cases"], Stdio::null());
    assert_eq!(output.stdout, b"");
    assert!(output.status.success());
}
