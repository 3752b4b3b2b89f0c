//! What the next step costs, found before it is done.
//!
//! A run asks only where its budget may be too short for the step; else the step itself counts.

use crate::core::{taken_ccr, Memory};
use crate::flags::Flags;
use crate::operand::{fetch, first_byte};
use crate::run::{open_lines, ENTRY_COST, IDLE_COST, RETURN_TO_REQUEST_COST, WAIT_END_COST};
use crate::tables::{loop_is_reserved, transfer_is_reserved, Cell, Form};
use crate::tables::{LONG_UNTAKEN, PREBYTE, SHORT_UNTAKEN};
use crate::{Cpu, Reply};

const LOOP: u8 = 0x04;
const RTI: u8 = 0x0B;
const TRANSFER: u8 = 0xB7;

/// The step that is next under a line byte.
pub fn cost_of_next(cpu: &Cpu, memory: &Memory, line: u8) -> Result<u32, Reply> {
    match (line & open_lines(cpu.ccr) != 0, cpu.waiting) {
        (true, true) => Ok(WAIT_END_COST),
        (true, false) => Ok(ENTRY_COST),
        (false, true) => Ok(IDLE_COST),
        (false, false) => cost_at(memory, cpu, line),
    }
}

/// The instruction at PC, where no line is let in before it.
#[cold]
pub fn cost_at(memory: &Memory, cpu: &Cpu, line: u8) -> Result<u32, Reply> {
    let flags = Flags::unpack(cpu.ccr);
    let code = fetch(memory, cpu.pc);
    match first_byte(code) {
        PREBYTE => cost_on_page_2(code << 8, &flags),
        RTI if returns_to_request(memory, cpu, line) => Ok(RETURN_TO_REQUEST_COST),
        _ => cost_on_page_1(code, &flags),
    }
}

/// Whether the masks that RTI would pull let a line in.
fn returns_to_request(memory: &Memory, cpu: &Cpu, line: u8) -> bool {
    let pulled = taken_ccr(memory[usize::from(cpu.sp)], cpu.ccr);
    line & open_lines(pulled) != 0
}

fn cost_on_page_1(code: u64, flags: &Flags) -> Result<u32, Reply> {
    let opcode = first_byte(code);
    let postbyte = first_byte(code << 8);
    match opcode {
        LOOP if loop_is_reserved(postbyte) => Err(Reply::ReservedPostbyte),
        TRANSFER if transfer_is_reserved(postbyte) => Err(Reply::ReservedPostbyte),
        0x20..=0x2F if !flags.condition(opcode & 0xF) => Ok(SHORT_UNTAKEN),
        _ => cost_of_cell(Cell::page_1(opcode), code),
    }
}

fn cost_on_page_2(code: u64, flags: &Flags) -> Result<u32, Reply> {
    let opcode = first_byte(code);
    match opcode {
        0x20..=0x2F if !flags.condition(opcode & 0xF) => Ok(LONG_UNTAKEN),
        _ => cost_of_cell(Cell::page_2(opcode), code),
    }
}

fn cost_of_cell(cell: Cell, code: u64) -> Result<u32, Reply> {
    if cell.cost() == 0 {
        return Err(Reply::Stopped);
    }
    if !cell.is_indexed() {
        return Ok(cell.cost());
    }
    let cost_with = |postbyte| match cell.cost_in(Form::of(postbyte)) {
        0 => Err(Reply::ReservedPostbyte),
        cost => Ok(cost),
    };
    let (first, second) = (first_byte(code << 8), first_byte(code << 16));
    if cell.is_indexed_twice() {
        cost_with(second)?;
    }
    cost_with(first)
}
