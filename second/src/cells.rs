//! The opcode map as text, one line a cell.

use crate::opcodes::{cell_at, Cell, Cost, Form, DIR, EXT, IDX, IMM, INDIRECT_IDX2};

/// All 512 lines: page, opcode, mnemonic, length, cost.
pub fn lines() -> Vec<String> {
    let mut all = Vec::with_capacity(512);
    for page in 1..=2 {
        for opcode in 0..=255 {
            all.push(line(page, opcode));
        }
    }
    all
}

fn line(page: u8, opcode: u8) -> String {
    let cell = cell_at(page, opcode);
    let length = u16::from(page) + cell.form.operand_bytes();
    format!("{} {:02X} {} {} {}", page, opcode, cell.operation.name(), length, cost_text(cell))
}

fn cost_text(cell: &Cell) -> String {
    match cell.cost {
        Cost::Stops | Cost::Prebyte => "-".to_string(),
        Cost::Cycles(cycles) => cycles.to_string(),
        Cost::Branch(taken, not_taken) if taken == not_taken => taken.to_string(),
        Cost::Branch(taken, not_taken) => format!("{}/{}", taken, not_taken),
        Cost::Grid(_) => grid_text(cell),
    }
}

fn grid_text(cell: &Cell) -> String {
    let one = |column| match cell.cost.in_column(column) {
        Some(cost) => cost.to_string(),
        None => "-".to_string(),
    };
    match cell.form {
        Form::Immediate8 | Form::Immediate16 => one(IMM),
        Form::Direct | Form::DirectMask | Form::DirectMaskRelative => one(DIR),
        Form::Extended | Form::ExtendedMask | Form::ExtendedMaskRelative => one(EXT),
        _ => (IDX..=INDIRECT_IDX2).map(one).collect::<Vec<_>>().join(","),
    }
}
