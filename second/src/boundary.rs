//! What comes next at a step boundary: an interrupt entry, the end of a wait, an idle
//! cycle, an instruction, an RTI that finds another request, or one of the two refusals.

use crate::cpu::{Cpu, I, X};
use crate::glossary::{execute, Operation};
use crate::memory::{read16, read8, Writes};
use crate::opcodes::{column_of, find, Cell, Cost, Form, Found, DIR, EXT, IDX, IMM};
use crate::postbyte::{loop_parts, transfer_registers, Index};
use crate::step::Step;

/// Cost of an interrupt entry: `VSPSSPSsP`, as SWI (002 p. 6-196, 003 sheet 19).
pub const ENTRY_COST: u32 = 9;
/// Cost of the end of a wait: `fVfPPP` (000, second part of the WAI row).
pub const WAIT_END_COST: u32 = 6;
/// Cost of an RTI that finds another request after the pull: `uUUUUVfPPP` (002 p. 6-177, the
/// second detail of RTI in 003, which also has ten letters). The eleven of 000 do not count.
pub const RETURN_TO_REQUEST_COST: u32 = 10;
/// A waiting machine without an allowed request spends one cycle.
pub const IDLE_COST: u32 = 1;

/// What kind of step it is.
#[derive(Clone, Copy, Debug, PartialEq, Eq)]
pub enum Kind {
    Entry(u8),
    WaitEnd(u8),
    Idle,
    /// An RTI that pulls the registers and takes the vector of this line.
    ReturnToRequest(u8),
    /// Any other instruction, and an RTI that comes back.
    Instruction {
        page: u8,
        opcode: u8,
    },
}

/// A step worked out but not yet done.
#[derive(Clone, Copy, Debug, PartialEq, Eq)]
pub struct Effect {
    pub kind: Kind,
    pub cpu: Cpu,
    pub writes: Writes,
    pub cost: u32,
}

#[derive(Clone, Copy, Debug, PartialEq, Eq)]
pub enum Next {
    Do(Effect),
    /// The opcode is one of the ten that stop the machine.
    Stops,
    /// A postbyte of the instruction is reserved.
    Reserved,
}

/// Works out the step that begins in this state under this line byte. A byte with a bit
/// above those of the lines is refused before anybody asks here.
pub fn next(cpu: &Cpu, memory: &[u8], lines: u8) -> Next {
    if let Some(line) = allowed_request(cpu, lines) {
        return Next::Do(if cpu.waiting {
            wait_end(cpu, memory, line)
        } else {
            entry(cpu, memory, line)
        });
    }
    if cpu.waiting {
        return Next::Do(idle(cpu));
    }
    instruction(cpu, memory, lines)
}

/// The lowest line that is up and not masked: XIRQ by X, the others by I.
fn allowed_request(cpu: &Cpu, lines: u8) -> Option<u8> {
    (0..Cpu::LINES).find(|&line| {
        let mask = if line == 0 { X } else { I };
        lines >> line & 1 == 1 && !cpu.flag(mask)
    })
}

/// PC and the masks of a handler. Memory is as it was when the step began, so a frame that
/// the same step pushes over the vector changes nothing.
fn go_to_handler(cpu: &mut Cpu, memory: &[u8], line: u8) {
    cpu.pc = read16(memory, Cpu::request_vector(line));
    cpu.set_flag(I, true);
    if line == 0 {
        cpu.set_flag(X, true);
    }
}

fn entry(cpu: &Cpu, memory: &[u8], line: u8) -> Effect {
    let mut step = Step::new(*cpu, memory, cpu.pc);
    step.push_frame();
    go_to_handler(&mut step.cpu, memory, line);
    finish(Kind::Entry(line), step.cpu, step.writes, ENTRY_COST)
}

/// WAI has pushed the frame already; the vector is read now.
fn wait_end(cpu: &Cpu, memory: &[u8], line: u8) -> Effect {
    let mut after = *cpu;
    after.waiting = false;
    go_to_handler(&mut after, memory, line);
    finish(Kind::WaitEnd(line), after, Writes::default(), WAIT_END_COST)
}

/// RTI has pulled the registers, and a request is let in by the masks that it pulled. SP goes
/// back to the CCR that was just recovered and the new vector is fetched, as if the registers
/// had been stacked again; no byte is written, and the pulled PC stays in the frame alone
/// (002 p. 6-177 and section 7.4.5, p. 7-5).
fn return_to_request(pulled: Cpu, memory: &[u8], line: u8) -> Effect {
    let mut after = pulled;
    after.sp = after.sp.wrapping_sub(Cpu::FRAME);
    go_to_handler(&mut after, memory, line);
    finish(Kind::ReturnToRequest(line), after, Writes::default(), RETURN_TO_REQUEST_COST)
}

fn idle(cpu: &Cpu) -> Effect {
    finish(Kind::Idle, *cpu, Writes::default(), IDLE_COST)
}

fn finish(kind: Kind, mut cpu: Cpu, writes: Writes, cost: u32) -> Effect {
    cpu.clock = cpu.clock.wrapping_add(cost);
    Effect { kind, cpu, writes, cost }
}

/// No request is let in before the instruction. The lines of this boundary matter to RTI
/// alone: one that rises while RTI runs is found at the next boundary.
fn instruction(cpu: &Cpu, memory: &[u8], lines: u8) -> Next {
    let found = find(memory, cpu.pc);
    if found.cell.cost == Cost::Stops {
        return Next::Stops;
    }
    if is_reserved(memory, &found) {
        return Next::Reserved;
    }
    let mut step = Step::new(*cpu, memory, found.operands);
    step.cpu.pc = found.operands.wrapping_add(operand_length(memory, &found));
    step.take_operands(found.cell.form);
    execute(found.cell.operation, &mut step);
    if found.cell.operation == Operation::RTI {
        if let Some(line) = allowed_request(&step.cpu, lines) {
            return Next::Do(return_to_request(step.cpu, memory, line));
        }
    }
    let cost = cost_of(memory, &found, step.taken);
    let kind = Kind::Instruction { page: found.page, opcode: found.opcode };
    Next::Do(finish(kind, step.cpu, step.writes, u32::from(cost)))
}

/// Reads the postbytes alone, no operand.
fn is_reserved(memory: &[u8], found: &Found) -> bool {
    let postbyte = read8(memory, found.operands);
    match found.cell.form {
        Form::Transfer => transfer_registers(postbyte).is_none(),
        Form::Loop => loop_parts(postbyte).is_none(),
        form => (0..form.indexed_postbytes()).any(|nth| {
            let postbyte = read8(memory, found.operands.wrapping_add(nth));
            index_cost(found.cell, postbyte).is_none()
        }),
    }
}

/// The cost of an indexed cell with this postbyte, or none if the form is reserved.
pub fn index_cost(cell: &Cell, postbyte: u8) -> Option<u8> {
    cell.cost.in_column(column_of(Index::decode(postbyte).form()))
}

/// Bytes of the whole instruction that stands at an address.
pub fn length_at(memory: &[u8], pc: u16) -> u16 {
    let found = find(memory, pc);
    u16::from(found.page) + operand_length(memory, &found)
}

/// Bytes after the opcode. Only a form with a single postbyte can have extension bytes.
fn operand_length(memory: &[u8], found: &Found) -> u16 {
    let form = found.cell.form;
    if form.indexed_postbytes() == 1 {
        let index = Index::decode(read8(memory, found.operands));
        form.operand_bytes() + index.extension_bytes()
    } else {
        form.operand_bytes()
    }
}

fn cost_of(memory: &[u8], found: &Found, taken: bool) -> u8 {
    let from_grid = |column| found.cell.cost.in_column(column);
    let cost = match found.cell.cost {
        Cost::Cycles(cycles) => Some(cycles),
        Cost::Branch(when_taken, when_not) => Some(if taken { when_taken } else { when_not }),
        Cost::Stops | Cost::Prebyte => None,
        Cost::Grid(_) => match found.cell.form {
            Form::Immediate8 | Form::Immediate16 => from_grid(IMM),
            Form::Direct | Form::DirectMask | Form::DirectMaskRelative => from_grid(DIR),
            Form::Extended | Form::ExtendedMask | Form::ExtendedMaskRelative => from_grid(EXT),
            Form::MoveIndexedIndexed => from_grid(IDX),
            _ => index_cost(found.cell, read8(memory, found.operands)),
        },
    };
    cost.expect("a cell that runs has a cost")
}
