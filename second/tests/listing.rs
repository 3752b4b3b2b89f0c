//! The assembler test file of appendix D (002 p. D-1 to D-30): every object code that the
//! scan leaves legible must have the mnemonic and the length that are printed there.

use second::boundary::length_at;
use second::opcodes::{find, Cost};

const LISTING: &str = include_str!("data/listing.txt");

/// The cell that does the work of a mnemonic of the listing.
fn cell_name(mnemonic: &str) -> String {
    let name = match mnemonic {
        "abx" => "LEAX",
        "aby" => "LEAY",
        "des" | "ins" => "LEAS",
        "clc" | "cli" | "clv" => "ANDCC",
        "sec" | "sei" | "sev" => "ORCC",
        "lsl" => "ASL",
        "lsla" => "ASLA",
        "lslb" => "ASLB",
        "lsld" => "ASLD",
        "bhs" => "BCC",
        "blo" => "BCS",
        "lbhs" => "LBCC",
        "lblo" => "LBCS",
        "lbsr" => "JSR",
        "dbeq" | "dbne" | "ibeq" | "ibne" | "tbeq" | "tbne" => "LOOP",
        "tfr" | "exg" | "sex" | "xgdx" | "xgdy" | "tap" | "tpa" => "TFR/EXG",
        "tsx" | "tsy" | "txs" | "tys" => "TFR/EXG",
        other => return other.to_uppercase(),
    };
    name.to_string()
}

fn bytes(code: &str) -> Vec<u8> {
    (0..code.len()).step_by(2).map(|n| u8::from_str_radix(&code[n..n + 2], 16).unwrap()).collect()
}

#[test]
fn every_legible_line_has_its_mnemonic_and_its_length() {
    let mut memory = vec![0; 65_536];
    let mut checked = 0;
    for line in LISTING.lines().filter(|line| !line.starts_with('#')) {
        let mut words = line.split(' ');
        let name = cell_name(words.next().unwrap());
        for code in words {
            let code = bytes(code);
            memory[0x4000..0x4000 + code.len()].copy_from_slice(&code);
            let found = find(&memory, 0x4000);
            assert_eq!(found.cell.operation.name(), name, "{:02X?}", code);
            if found.cell.cost != Cost::Stops {
                assert_eq!(usize::from(length_at(&memory, 0x4000)), code.len(), "{:02X?}", code);
            }
            checked += 1;
        }
    }
    assert_eq!(checked, 4076);
}
