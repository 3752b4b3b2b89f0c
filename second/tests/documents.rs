//! The documents of the project say what the programs do.

use second::case::{answer, Case, Memories};
use std::fs;
use std::path::Path;

fn document(name: &str) -> String {
    let path = Path::new(env!("CARGO_MANIFEST_DIR")).join("../docs").join(name);
    fs::read_to_string(path).unwrap()
}

/// The indented lines of a document, without their indentation.
fn indented(text: &str) -> Vec<&str> {
    text.lines().filter_map(|line| line.strip_prefix("    ")).collect()
}

#[test]
fn the_examples_of_the_case_format_are_answered_as_printed() {
    let text = document("CASES.md");
    let lines = indented(&text);
    let mut checked = 0;
    for pair in lines.windows(2) {
        if !["s ", "r ", "z "].iter().any(|letter| pair[0].starts_with(letter)) {
            continue;
        }
        let answered = match Case::parse(pair[0].as_bytes()) {
            Ok(case) => answer(&case, &mut Memories::default()).to_string(),
            Err(_) => "bad".to_string(),
        };
        assert_eq!(answered, pair[1], "{}", pair[0]);
        checked += 1;
    }
    assert_eq!(checked, 8);
}

#[test]
fn every_example_of_the_manual_has_a_test_and_every_test_its_line() {
    let text = document("EXAMPLES.md");
    let tests = include_str!("examples.rs");
    let mut listed = Vec::new();
    for line in text.lines().filter(|line| line.starts_with("| ")) {
        let name = line.trim_end_matches(" |").rsplit("| ").next().unwrap().trim_matches('`');
        if name.contains('_') {
            assert!(tests.contains(&format!("fn {}()", name)), "{}", name);
            listed.push(name);
        }
    }
    let written = tests.matches("#[test]").count();
    assert_eq!(listed.len(), written);
}
