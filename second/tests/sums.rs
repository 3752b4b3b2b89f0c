//! The checksums of the 8-bit operations, against what the proved program prints.

use std::fs;
use std::path::Path;
use std::process::Command;

/// One line for each operation.
const OPERATIONS: usize = 29;

/// The output that is stored with the proved program `alusums`.
fn proved_output() -> String {
    let path = Path::new(env!("CARGO_MANIFEST_DIR")).join("../crates/alusums/stdout");
    fs::read_to_string(path).unwrap()
}

#[test]
fn every_operation_has_the_checksum_of_the_proved_program() {
    let proved = proved_output();
    let expected: Vec<&str> = proved.lines().collect();
    let computed = second::sums::lines();
    let pairs = computed.iter().zip(&expected);
    let different: Vec<_> = pairs.filter(|(own, proved)| own != *proved).collect();
    assert!(different.is_empty(), "(computed here, proved): {:?}", different);
    assert_eq!((computed.len(), expected.len()), (OPERATIONS, OPERATIONS));
}

#[test]
fn the_command_prints_the_same_bytes() {
    let output = Command::new(env!("CARGO_BIN_EXE_second")).arg("sums").output().unwrap();
    assert_eq!(String::from_utf8(output.stdout).unwrap(), proved_output());
    assert_eq!((output.stderr.len(), output.status.code()), (0, Some(0)));
}
